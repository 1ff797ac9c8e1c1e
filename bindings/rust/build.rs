//! Finds the archive and links it: in `RIFTKETTLE_LIB_DIR`, else in the checkout that this crate lies in, else where pkg-config says
//! that it is installed.
use std::env;
use std::path::{Path, PathBuf};
use std::process::{Command, exit};

const HELP: &str = "build it by `make` in the checkout of Riftkettle, install it by `make install`, \
                    or name the folder that has it in RIFTKETTLE_LIB_DIR";

fn main() {
    println!("cargo::rerun-if-changed=build.rs");
    for name in ["RIFTKETTLE_LIB_DIR", "PKG_CONFIG", "PKG_CONFIG_PATH", "PKG_CONFIG_LIBDIR"] {
        println!("cargo::rerun-if-env-changed={name}");
    }
    match find() {
        Ok((folder, kind)) => {
            println!("cargo::rustc-link-search=native={}", folder.display());
            println!("cargo::rustc-link-lib={kind}=riftkettle");
        }
        Err(why) => {
            println!("cargo::error={why}: {HELP}");
            exit(1);
        }
    }
}

fn find() -> Result<(PathBuf, &'static str), String> {
    let crate_folder = PathBuf::from(env::var_os("CARGO_MANIFEST_DIR").unwrap());
    if let Some(named) = env::var_os("RIFTKETTLE_LIB_DIR") {
        let folder = crate_folder.join(named);
        return held(&folder).ok_or(format!("RIFTKETTLE_LIB_DIR, {}, has no libriftkettle.a", folder.display()));
    }
    let checkout = crate_folder.join("../..");
    if checkout.join("include/riftkettle.h").is_file()
        && let Some(found) = held(&checkout.join("crates/riftkettle/out"))
    {
        return Ok(found);
    }
    installed().and_then(|folder| held(&folder)).ok_or("no libriftkettle.a found".into())
}

/// What the folder has of the library, and how it is linked. Cargo is told of each file looked for: one that appears or changes is
/// linked by the next build.
fn held(folder: &Path) -> Option<(PathBuf, &'static str)> {
    [("libriftkettle.a", "static"), ("libriftkettle.so", "dylib")].into_iter().find_map(|(name, kind)| {
        let file = folder.join(name);
        println!("cargo::rerun-if-changed={}", file.display());
        file.is_file().then(|| (folder.to_path_buf(), kind))
    })
}

/// The folder that pkg-config answers, if there is pkg-config and it knows the library.
fn installed() -> Option<PathBuf> {
    let program = env::var_os("PKG_CONFIG").unwrap_or("pkg-config".into());
    let answer = Command::new(program).args(["--variable=libdir", "riftkettle"]).output().ok()?;
    let folder = String::from_utf8(answer.stdout).ok()?;
    answer.status.success().then(|| PathBuf::from(folder.trim_end()))
}
