//! Makes the lists that crates/pictures replays: refusals by documents 01 and 02, and the published Rust's answers.
//! `vectors column` prints the text that the program of that name has to write. `vectors check` makes everything again
//! and compares it with what is stored.

mod asked;
mod blanking;
mod chain;
mod column;
mod conditions;
mod grids;
mod hand;
mod list;
mod narrow;
mod open;
mod picture;
mod program;
mod queries;
mod readings;
mod records;
mod refusals;
mod stored;
mod walk;

use list::List;
use std::path::Path;
use std::process::exit;
use std::{env, fs};

const LISTS: [(&str, fn() -> List); 30] = [
    ("layouts", hand::layouts),
    ("places", hand::places),
    ("planes", hand::planes),
    ("pixels", hand::pixels),
    ("rows", hand::rows),
    ("pack", hand::pack),
    ("unpack", hand::unpack),
    ("morphology", stored::morphology),
    ("division", stored::division),
    ("sauvola", stored::sauvola),
    ("sauvola_narrow", narrow::sauvola),
    ("morphology_refusals", refusals::morphology),
    ("division_refusals", refusals::division),
    ("sauvola_refusals", refusals::sauvola),
    ("sauvola_narrow_refusals", narrow::refusals),
    ("grid", grids::grid),
    ("grid_refusals", refusals::grid),
    ("queries", grids::queries),
    ("queries_refusals", queries::queries),
    ("blanking", blanking::list),
    ("blanking_refusals", queries::blanking),
    ("reading", readings::reading),
    ("reading_refusals", refusals::reading),
    ("answers", program::list),
    ("records", records::records),
    ("record_refusals", records::refusals),
    ("record_lengths", records::lengths),
    ("record_bits", records::bits),
    ("record_pairs", records::pairs),
    ("record_readings", records::readings),
];

/// Makes every file. Returns each path below crates/ with its text.
fn made() -> Vec<(String, String)> {
    let lists = LISTS.iter().map(|(name, list)| (format!("pictures/data/{name}.txt"), list().text().to_owned()));
    let words = LISTS.iter().map(|(name, _)| format!("{name}.txt\n")).collect();
    let others = [("pictures/args".to_owned(), words), ("column/stdout".to_owned(), column::text())];
    lists.chain(others).collect()
}

/// Tells whether the stored files are the made ones, and no other list is stored.
fn check(crates: &Path) -> bool {
    let made = made();
    let differs =
        |(name, text): &&(String, String)| fs::read(crates.join(name)).ok().as_deref() != Some(text.as_bytes());
    let mut wrong: Vec<String> = made.iter().filter(differs).map(|(name, _)| name.clone()).collect();
    let stored = fs::read_dir(crates.join("pictures/data")).expect("the folder of the lists");
    let stored = stored.map(|file| format!("pictures/data/{}", file.expect("a file").file_name().to_string_lossy()));
    wrong.extend(stored.filter(|name| made.iter().all(|(known, _)| known != name)));
    wrong.iter().for_each(|name| eprintln!("vectors: {name} is not what is made"));
    println!("vectors: {} files made, {} differ from what is stored", made.len(), wrong.len());
    wrong.is_empty()
}

fn main() {
    let words: Vec<String> = env::args().skip(1).collect();
    match words.iter().map(String::as_str).collect::<Vec<&str>>()[..] {
        ["check", crates] => exit(i32::from(!check(Path::new(crates)))),
        ["write", crates] => {
            made().iter().for_each(|(name, text)| fs::write(Path::new(crates).join(name), text).expect("written"))
        }
        ["column"] => print!("{}", column::text()),
        [name] if LISTS.iter().any(|(known, _)| *known == name) => {
            let (_, list) = LISTS.iter().find(|(known, _)| *known == name).expect("found above");
            print!("{}", list().text());
        }
        _ => {
            let names: Vec<&str> = LISTS.iter().map(|(name, _)| *name).collect();
            eprintln!("usage: vectors check CRATES | write CRATES | column | {}", names.join(" | "));
            exit(2);
        }
    }
}
