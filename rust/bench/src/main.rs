//! Times each ported call against the published Rust, in turns in one process on the same warm buffers. Prints a table
//! of ratios of medians, ours to the Rust's. Below 1 is faster than the Rust. A row that names another call of ours has
//! that call in the Rust's place.

mod through;
mod time;

use time::Row;

macro_rules! subjects {
    ($($subject:ident)*) => {
        $(mod $subject;)*
        const SUBJECTS: &[fn(&mut Vec<Row>)] = &[$($subject::measure),*];
    };
}

// Each subject is a module of this folder. To measure another, add its line here.
subjects! {
    image
    morphology
    illumination
    sauvola
    narrow
    grid
    reading
    root
}

fn main() {
    let mut rows = Vec::new();
    for measure in SUBJECTS {
        measure(&mut rows);
    }
    let sizes: Vec<String> = time::SIZES.iter().map(|(w, h)| format!("{w} × {h}")).collect();
    println!("| call | {} |", sizes.join(" | "));
    println!("|---|{}", "---|".repeat(sizes.len()));
    for row in rows {
        let cells: Vec<String> = row
            .cells
            .iter()
            .map(|cell| format!("{:.2} ({:.3} / {:.3} ms)", cell.ours / cell.rust, cell.ours * 1e3, cell.rust * 1e3))
            .collect();
        println!("| {} | {} |", row.name, cells.join(" | "));
    }
}
