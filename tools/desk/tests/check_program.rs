//! The program itself: what `desk check` writes where, and its status.
use std::io::Write;
use std::process::{Command, Output, Stdio};

fn desk(arguments: &[&str], input: &[u8]) -> Output {
    let mut command = Command::new(env!("CARGO_BIN_EXE_desk"));
    command.arg("check").args(arguments).stdin(Stdio::piped()).stdout(Stdio::piped()).stderr(Stdio::piped());
    let mut child = command.spawn().expect("the program starts");
    // A program that does not read its input may be gone by now.
    let _ = child.stdin.take().expect("a pipe").write_all(input);
    child.wait_with_output().expect("the program ends")
}

fn job(name: &str) -> String {
    format!("{}/../../examples/jobs/{name}", env!("CARGO_MANIFEST_DIR"))
}

#[test]
fn statuses() {
    let m1 = std::fs::read(job("m1.job")).expect("M1's job");
    let [file, input] = [desk(&[&job("m1.job")], b""), desk(&["-"], &m1)];
    assert_eq!((file.status.code(), input.status.code()), (Some(0), Some(0)));
    assert!(file.stdout == input.stdout && file.stdout.starts_with(b"admitted: a road of 10 m\n") && file.stderr.is_empty());
    let refused = desk(&["-"], &m1[1..]);
    assert_eq!(refused.status.code(), Some(1));
    assert!(refused.stdout.starts_with(b"refused 1: ") && refused.stderr.is_empty());
    for arguments in [&["no such file"][..], &[], &["-", "-"], &["--depth", "-"]] {
        let wrong = desk(arguments, &m1);
        assert_eq!(wrong.status.code(), Some(2), "{arguments:?}");
        assert!(wrong.stdout.is_empty() && wrong.stderr.starts_with(b"desk check: "), "{arguments:?}");
    }
}
