// The second program (second_program.rs) in place of `surface`: a test of the comparison itself. RIFTKETTLE_FAULT names a fault to
// put in.
use published::second_program::output;
use second::reader::TEXT;
use std::io::{Read, Write};

fn fault(name: &str) -> bool {
    std::env::var("RIFTKETTLE_FAULT").is_ok_and(|fault| fault == name)
}

/// A line of a want with a fault in it.
fn line(line: &str) -> String {
    match () {
        () if fault("program digits") => line.to_uppercase(),
        () if fault("program number") => line.replace("- 7", "- 8"),
        () if fault("program zeros") && line.starts_with("8000000000000000 ") => line.replacen('8', "0", 1),
        () if fault("program point") && line.contains('-') => line.replace('-', "00000000 00000000 00000000"),
        () => line.into(),
    }
}

fn main() {
    let mut text = Vec::new();
    let most = if fault("program text") { TEXT } else { TEXT + 1 };
    let _ = std::io::stdin().take(most as u64).read_to_end(&mut text);
    let mut out: String = output(&text).lines().map(|of| line(of) + "\n").collect();
    if fault("program end") {
        out.pop();
    }
    if fault("program names") && out.lines().count() == 1 && out.starts_with('s') {
        out.clear();
    }
    std::io::stdout().write_all(out.as_bytes()).expect("the output can be written");
}
