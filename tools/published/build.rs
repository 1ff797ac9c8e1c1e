// Takes road.rs, coords.rs and geometry.rs of the published Rust from PUBLISHED_SOURCE, or from the folder shared/docs/src beside
// the checkout; they stand there or in src/ of it. Files whose SHA-256 is not the pinned one are refused. Copies go into the build's
// own folder, with the stand-ins of documents 01 and 02 in them (patch.rs).
mod patch;

use std::path::{Path, PathBuf};
use std::process::{Command, exit};

const ROAD: &str = "d42cac4382bda1c9374d782228313742b776bc52efd9f3eda3b5097e977b837b";
const COORDS: &str = "00e45f842bf808a4aaa26003661a51b39faf8b4eb2ca601f58802e85668b5e0a";
const GEOMETRY: &str = "3a600a68e67df362f18a365453c57b68098eb78c8f854699f93820e9e218c564";

fn fail(why: String) -> ! {
    println!("cargo::error={}", why.replace('\n', " "));
    exit(1)
}

fn folder() -> PathBuf {
    println!("cargo::rerun-if-env-changed=PUBLISHED_SOURCE");
    println!("cargo::rerun-if-changed=patch.rs");
    let named = std::env::var_os("PUBLISHED_SOURCE").map(PathBuf::from);
    let named = named.unwrap_or_else(|| Path::new(env!("CARGO_MANIFEST_DIR")).join("../../../shared/docs/src"));
    let places = [named.clone(), named.join("src")];
    let found = places.into_iter().find(|folder| folder.join("road.rs").is_file());
    found.unwrap_or_else(|| {
        fail(format!("no road.rs in {0} or {0}/src: set PUBLISHED_SOURCE to the folder of the published source", named.display()))
    })
}

/// The text of a published file, if it is the pinned one. Its inner documentation becomes comments: the copy is included in a module.
fn published(folder: &Path, name: &str, pinned: &str) -> String {
    let path = folder.join(name);
    println!("cargo::rerun-if-changed={}", path.display());
    let sum = Command::new("sha256sum").arg(&path).output().unwrap_or_else(|e| fail(format!("sha256sum: {e}")));
    let sum = String::from_utf8_lossy(&sum.stdout).split(' ').next().unwrap_or("").to_string();
    if sum != pinned {
        fail(format!("{} is not the published file that this was made for: SHA-256 {sum}, not {pinned}", path.display()));
    }
    let text = std::fs::read_to_string(&path).unwrap_or_else(|e| fail(format!("{}: {e}", path.display())));
    text.lines().map(|line| line.replacen("//!", "//", usize::from(line.starts_with("//!"))) + "\n").collect()
}

/// What takes a published text and puts the stand-ins into it.
type Patch = fn(&str) -> Result<String, String>;

fn main() {
    let folder = folder();
    let to = PathBuf::from(std::env::var_os("OUT_DIR").expect("set by cargo"));
    let write = |name: &str, text: &str| std::fs::write(to.join(name), text).unwrap_or_else(|e| fail(format!("{name}: {e}")));
    let files: [(&str, &str, Patch); 3] =
        [("road.rs", ROAD, patch::road), ("coords.rs", COORDS, patch::coords), ("geometry.rs", GEOMETRY, patch::geometry)];
    for (name, pinned, patch) in files {
        let text = patch(&published(&folder, name, pinned)).unwrap_or_else(|why| fail(format!("{name}: {why}")));
        // src/own.rs has stand-ins of its own, and so a line of its own
        let own = text.replace("crate::stand_ins", "crate::own::stand_ins").replace("crate::coords", "crate::own::coords");
        write(&format!("own_{name}"), &own);
        write(name, &text);
    }
}
