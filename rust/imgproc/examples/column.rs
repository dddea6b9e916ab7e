//! Reads the picture of crates/column with the default settings, draws what was judged dark, and keeps the reading as a
//! record.

use imgproc::reading::{ReadingConfig, ReadingWorkspace};
use imgproc::records::{Record, RECORD_BYTES};
use imgproc::{Geometry, Refusal};

const HEADER: usize = "P5 24 30 255\n".len();

fn main() -> Result<(), Refusal> {
    let picture = &include_bytes!("../../../crates/column/stdin")[HEADER..];
    let geometry = Geometry::packed(24, 30);
    let config = ReadingConfig::default();
    let mut marked = vec![0; geometry.area()];
    let counts = ReadingWorkspace::new(geometry, &config)?.reading(picture, geometry, &mut marked, geometry)?;
    println!("24 30 {} {} {} {}", counts.dark, counts.light, counts.skipped, counts.comparisons);
    let mark = |&value| if value == config.sauvola.dark_value { '#' } else { '.' };
    for row in marked.chunks(24) {
        println!("{}", row.iter().map(mark).collect::<String>());
    }

    // Keeps it as the first pass over flask 1. The bytes go to standard error: standard output is the program's.
    let record = Record::of_reading(1, 1, geometry, counts)?;
    let mut bytes = [0; RECORD_BYTES];
    record.write(&mut bytes)?;
    assert_eq!(Record::read(&bytes)?, record);
    eprintln!("record {}", bytes.map(|byte| format!("{byte:02x}")).join(" "));
    Ok(())
}
