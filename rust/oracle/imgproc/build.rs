//! Copies the published operators, which lib.rs includes, and drops the modules that are not copied.

include!("../source.rs");

const MODULES: [&str; 5] = ["illumination", "internal", "morphology", "neon", "threshold"];

fn main() {
    let folder = source("qr-lab-imgproc");
    write("lib.rs", &without_other_modules(&without_crate_lines(&read(&folder.join("lib.rs")))));
    for module in MODULES {
        let name = format!("{module}.rs");
        write(&name, &read(&folder.join(&name)));
    }
}

/// Leaves out the line of each other module, with the documentation and the attributes before it.
fn without_other_modules(text: &str) -> String {
    let (mut kept, mut before) = (String::new(), String::new());
    for line in text.lines() {
        before += &format!("{line}\n");
        if line.starts_with("///") || line.starts_with("#[") {
            continue;
        }
        let module = line.strip_prefix("pub mod ").and_then(|rest| rest.strip_suffix(';'));
        if module.is_none_or(|module| MODULES.contains(&module)) {
            kept += &before;
        }
        before.clear();
    }
    kept + &before
}
