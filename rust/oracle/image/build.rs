//! Copies the published picture crate, which lib.rs includes.

include!("../source.rs");

fn main() {
    let folder = source("qr-lab-image");
    write("lib.rs", &without_crate_lines(&read(&folder.join("lib.rs"))));
}
