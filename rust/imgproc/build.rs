//! Finds the static library in $IMGPROC_LIB_DIR, or else where `tools/archive` puts it.

use std::env;
use std::path::{Path, PathBuf};
use std::process::exit;

const ARCHIVE: &str = "libimgproc_c.a";

fn main() {
    println!("cargo:rerun-if-env-changed=IMGPROC_LIB_DIR");
    let folder = match env::var_os("IMGPROC_LIB_DIR") {
        Some(folder) => from_the_caller(Path::new(&folder)),
        None => {
            let here = env::var_os("CARGO_MANIFEST_DIR").expect("cargo sets CARGO_MANIFEST_DIR");
            PathBuf::from(here).join("../../target/staticlib")
        }
    };
    let folder = folder.canonicalize().unwrap_or(folder);
    let archive = folder.join(ARCHIVE);
    println!("cargo:rerun-if-changed={}", archive.display());
    if !archive.is_file() {
        eprintln!("no {ARCHIVE} in {}: run `tools/archive`, or set IMGPROC_LIB_DIR", folder.display());
        exit(1);
    }
    println!("cargo:rustc-link-search=native={}", folder.display());
    println!("cargo:rustc-link-lib=static=imgproc_c");
}

/// Returns the folder as a full path. A relative folder counts from where cargo was started, which $PWD tells; cargo
/// runs this script in the crate's folder.
fn from_the_caller(folder: &Path) -> PathBuf {
    if folder.is_absolute() {
        return folder.to_path_buf();
    }
    println!("cargo:rerun-if-env-changed=PWD");
    let started = env::var_os("PWD").map(PathBuf::from).filter(|started| started.is_absolute());
    started.or_else(|| env::current_dir().ok()).unwrap_or_default().join(folder)
}
