// desk: a job explained, drawn, in decimals, as points and dots. `desk help` lists the subcommands.
use desk::{arguments, check, decimal, dots, draw, points};
use std::process::ExitCode;

struct Subcommand {
    name: &'static str,
    usage: &'static str,
    what: &'static str,
    help: &'static str,
    run: fn(&[String]) -> ExitCode,
}

const SUBCOMMANDS: [Subcommand; 6] = [
    Subcommand {
        name: "check",
        usage: "JOB",
        what: "what the library answers for a job, why it refuses one, and what of a road is worth a look",
        help: check::HELP,
        run: check::run,
    },
    Subcommand {
        name: "draw",
        usage: "JOB [--at S] [--dots SECTION,LANE,SPACING] [--out FILE]",
        what: "the road as a picture (SVG): plan, elevation and bank, the cross section at S",
        help: draw::HELP,
        run: draw::run,
    },
    Subcommand {
        name: "decimal",
        usage: "JOB",
        what: "a job with its numbers in decimals, for people",
        help: decimal::DECIMAL_HELP,
        run: decimal::run_decimal,
    },
    Subcommand {
        name: "hex",
        usage: "FILE",
        what: "a job from such a text: exactly what `decimal` was given, or what was written by hand",
        help: decimal::HEX_HELP,
        run: decimal::run_hex,
    },
    Subcommand {
        name: "points",
        usage: "JOB --every METRES --lane ID [--border inner|outer|middle] [--from S] [--to S]",
        what: "surface points along a lane's border, as CSV",
        help: points::HELP,
        run: points::run,
    },
    Subcommand {
        name: "dots",
        usage: "JOB SECTION LANE SPACING",
        what: "dots at equal spacing along a lane's outer border where marks of kind 1 cover it, as CSV",
        help: dots::HELP,
        run: dots::run,
    },
];

fn help() -> String {
    let line = |c: &Subcommand| format!("    desk {} {}\n        {}\n", c.name, c.usage, c.what);
    let lines: String = SUBCOMMANDS.iter().map(line).collect();
    format!(
        "usage:\n{lines}\n`-` for a JOB or FILE is standard input; `desk help SUBCOMMAND` says more, `desk --version` which version it is.\n\
         Status: 0; 1 for a job that is refused or breaks its form; 2 for wrong arguments or a file that cannot be read;\n\
         3 where the library and the second reader differ.\n"
    )
}

/// A text to standard output.
fn written(text: &str) -> ExitCode {
    arguments::run("help", text, &["--help".into()], |_| Ok(()))
}

/// By its name, or what is said where there is none.
fn subcommand(name: &str) -> Result<&'static Subcommand, ExitCode> {
    SUBCOMMANDS.iter().find(|c| c.name == name).ok_or_else(|| {
        eprint!("desk: there is no subcommand `{name}`\n\n{}", help());
        ExitCode::from(2)
    })
}

fn main() -> ExitCode {
    let given: Result<Vec<String>, _> = std::env::args_os().skip(1).map(|a| a.into_string()).collect();
    let Ok(words) = given else {
        eprintln!("desk: an argument is not UTF-8");
        return ExitCode::from(2);
    };
    match &words.iter().map(String::as_str).collect::<Vec<_>>()[..] {
        [] => {
            eprint!("{}", help());
            ExitCode::from(2)
        }
        ["--version" | "-V", ..] => written(&format!("desk (riftkettle) {}\n", riftkettle::VERSION)),
        ["help", name] => subcommand(name).map_or_else(|status| status, |c| written(c.help)),
        ["help" | "--help" | "-h", ..] => written(&help()),
        [name, ..] => subcommand(name).map_or_else(|status| status, |c| (c.run)(&words[1..])),
    }
}
