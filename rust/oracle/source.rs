// Finds the published Rust, aukilabs/qr-lab at c99d6ca466, through $QR_LAB_SRC. Both build scripts include this file.

use std::path::{Path, PathBuf};
use std::process::exit;
use std::{env, fs};

/// Returns the `src` folder of one of its crates.
fn source(krate: &str) -> PathBuf {
    println!("cargo:rerun-if-env-changed=QR_LAB_SRC");
    let Some(root) = env::var_os("QR_LAB_SRC") else {
        fail("QR_LAB_SRC is not set: it names a checkout of aukilabs/qr-lab at c99d6ca466");
    };
    let folder = Path::new(&root).join("crates").join(krate).join("src");
    if !folder.join("lib.rs").is_file() {
        fail(&format!("QR_LAB_SRC has no crates/{krate}/src/lib.rs"));
    }
    folder
}

fn read(file: &Path) -> String {
    println!("cargo:rerun-if-changed={}", file.display());
    match fs::read_to_string(file) {
        Ok(text) => text,
        Err(error) => fail(&format!("{}: {error}", file.display())),
    }
}

fn write(name: &str, text: &str) {
    let folder = env::var_os("OUT_DIR").expect("cargo sets OUT_DIR");
    if let Err(error) = fs::write(Path::new(&folder).join(name), text) {
        fail(&format!("{name}: {error}"));
    }
}

/// Leaves out a crate's own lines of documentation and attributes, which may not stand in an included file.
fn without_crate_lines(text: &str) -> String {
    text.lines()
        .filter(|line| !line.starts_with("//!") && !line.starts_with("#!["))
        .map(|line| format!("{line}\n"))
        .collect()
}

fn fail(line: &str) -> ! {
    eprintln!("{line}");
    exit(1);
}
