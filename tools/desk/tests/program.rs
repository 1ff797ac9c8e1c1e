//! The program beside its subcommands: help, version, and what it does not know.
use std::process::Command;

/// Status, standard output and standard error.
fn desk(arguments: &str) -> (i32, String, String) {
    let output = Command::new(env!("CARGO_BIN_EXE_desk")).args(arguments.split_whitespace()).output().unwrap();
    let text = |bytes: Vec<u8>| String::from_utf8(bytes).unwrap();
    (output.status.code().unwrap(), text(output.stdout), text(output.stderr))
}

#[test]
fn every_subcommand_has_its_help() {
    let (status, whole, _) = desk("help");
    assert!(status == 0 && whole == desk("--help").1 && whole == desk("-h").1);
    for name in ["check", "draw", "decimal", "hex", "points", "dots"] {
        let (status, help, err) = desk(&format!("help {name}"));
        assert_eq!((status, err.as_str()), (0, ""));
        assert!(help.starts_with(&format!("desk {name} ")) && help == desk(&format!("{name} --help")).1);
        assert!(whole.contains(&format!("    desk {name} ")));
    }
}

#[test]
fn the_version_is_the_library_s() {
    assert_eq!(desk("--version"), (0, format!("desk (riftkettle) {}\n", riftkettle::VERSION), String::new()));
}

#[test]
fn what_is_not_known_is_told() {
    for arguments in ["paint", "help paint"] {
        let (status, out, err) = desk(arguments);
        assert_eq!((status, out.as_str()), (2, ""));
        assert!(err.starts_with("desk: there is no subcommand `paint`\n\nusage:\n"), "{err}");
    }
    let (status, out, err) = desk("");
    assert!(status == 2 && out.is_empty() && err.starts_with("usage:\n"));
}
