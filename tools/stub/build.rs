// EDITED_ADMISSION or EDITED_READER names a copy of second/src/admission.rs or reader.rs with a wrong edit in it, which the stub then
// answers by (comparison/self_test.sh).
use std::path::Path;

fn edited(variable: &str, cfg: &str, name: &str) {
    println!("cargo::rerun-if-env-changed={variable}");
    let Ok(file) = std::env::var(variable) else { return };
    println!("cargo::rerun-if-changed={file}");
    println!("cargo::rustc-cfg={cfg}");
    let text = std::fs::read_to_string(&file).expect("the edited copy can be read").replace("use crate::", "use second::");
    let to = std::env::var_os("OUT_DIR").expect("set by cargo");
    std::fs::write(Path::new(&to).join(name), text).expect("the build's folder can be written");
}

fn main() {
    edited("EDITED_ADMISSION", "edited_admission", "admission.rs");
    edited("EDITED_READER", "edited_reader", "reader.rs");
}
