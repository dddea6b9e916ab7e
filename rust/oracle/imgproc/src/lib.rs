//! The published Rust with every function unchanged. build.rs reads it at build time.

include!(concat!(env!("OUT_DIR"), "/lib.rs"));
