//! What the subcommands share: their arguments, the FILE that they read, and how they end.
use crate::decimal;
use riftkettle::{Refusal, Road};
use std::io::{self, Read, Write};
use std::process::ExitCode;
use std::{fs, str::FromStr};

/// Why a subcommand ends early: what is said on standard error, if anything, and the status.
#[derive(Debug)]
pub struct Failure {
    pub message: String,
    pub status: u8,
}

impl Failure {
    /// The arguments are wrong, or name a file that cannot be read: status 2.
    pub fn of_arguments(message: impl Into<String>) -> Self {
        Self { message: message.into(), status: 2 }
    }

    /// What was read is wrong, or the answer cannot be written: status 1.
    pub fn of_content(message: impl Into<String>) -> Self {
        Self { message: message.into(), status: 1 }
    }

    /// The library refuses the job that was read from that file; who can say more of it.
    pub fn of_refusal(name: &str, file: &str, job: &[u8], refusal: Refusal) -> Self {
        let decimal = refusal == Refusal::Form && decimal::to_hex(job).is_ok();
        let hex = if decimal { format!(", `desk hex {file}` makes a job of it") } else { String::new() };
        Self::of_content(format!("{name} is refused: {refusal}; `desk check {file}` explains it{hex}"))
    }
}

/// A failed writing. Whoever closed the pipe (`| head`) has seen enough: that ends the work quietly, with status 0.
impl From<io::Error> for Failure {
    fn from(error: io::Error) -> Self {
        match error.kind() {
            io::ErrorKind::BrokenPipe => Self { message: String::new(), status: 0 },
            _ => Self::of_content(format!("cannot write: {error}")),
        }
    }
}

/// One FILE, words after it, and options that have a value: `--name value` or `--name=value`, in any order, each at most once.
#[derive(Debug)]
pub struct Arguments<'a> {
    pub file: &'a str,
    options: Vec<(&'a str, &'a str)>,
}

impl<'a> Arguments<'a> {
    /// What follows the subcommand's name. The known options are named with their dashes.
    pub fn of(arguments: &'a [String], known: &[&str]) -> Result<Self, Failure> {
        Self::with_words(arguments, [], known).map(|(arguments, _)| arguments)
    }

    /// Likewise, with the words after FILE, which are known by their names. A word may be a number below 0.
    pub fn with_words<const N: usize>(
        arguments: &'a [String],
        names: [&str; N],
        known: &[&str],
    ) -> Result<(Self, [&'a str; N]), Failure> {
        let (mut words, mut options) = (Vec::new(), Vec::new());
        let is_word = |argument: &str| !argument.starts_with('-') || argument == "-" || N > 0 && argument.parse::<f64>().is_ok();
        let mut rest = arguments.iter().map(String::as_str);
        while let Some(argument) = rest.next() {
            if is_word(argument) {
                words.push(argument);
                continue;
            }
            let (name, value) = argument.split_once('=').map_or((argument, None), |(name, value)| (name, Some(value)));
            if !known.contains(&name) {
                let known: String = known.iter().map(|name| format!("{name}, ")).collect();
                return Err(Failure::of_arguments(format!("unknown option `{name}`; known are {known}--help")));
            }
            // A value may begin with one dash (a lane's id), not with two.
            let value = value.or_else(|| rest.next().filter(|value| !value.starts_with("--")));
            let value = value.ok_or_else(|| Failure::of_arguments(format!("`{name}` needs a value")))?;
            if options.iter().any(|(other, _)| *other == name) {
                return Err(Failure::of_arguments(format!("`{name}` is given twice")));
            }
            options.push((name, value));
        }
        let Some((file, rest)) = words.split_first() else {
            return Err(Failure::of_arguments("a FILE is needed (`-` is standard input)"));
        };
        match rest.try_into() {
            Ok(words) => Ok((Self { file, options }, words)),
            Err(_) => Err(Failure::of_arguments(match rest.get(N) {
                Some(more) if N == 0 => format!("one FILE is read, `{more}` is one more"),
                Some(more) => format!("after FILE come {}; `{more}` is one more", names.join(", ")),
                None => format!("{} is needed", names[rest.len()]),
            })),
        }
    }

    /// An option's value, if it is given.
    pub fn value(&self, name: &str) -> Option<&'a str> {
        self.options.iter().find(|(option, _)| *option == name).map(|(_, value)| *value)
    }

    /// An option's value as a number or another type that is read from text; `what` says what is expected.
    pub fn parsed<T: FromStr>(&self, name: &str, what: &str) -> Result<Option<T>, Failure> {
        let parse =
            |value: &str| value.parse().map_err(|_| Failure::of_arguments(format!("`{name}` needs {what}, not `{value}`")));
        self.value(name).map(parse).transpose()
    }

    /// The bytes of FILE, all of them.
    pub fn read(&self) -> Result<Vec<u8>, Failure> {
        let mut bytes = Vec::new();
        let read = match self.file {
            "-" => io::stdin().lock().read_to_end(&mut bytes).map(|_| bytes),
            file => fs::read(file),
        };
        read.map_err(|error| Failure::of_arguments(format!("cannot read {}: {error}", self.file_name())))
    }

    /// The road of the job text that FILE is.
    pub fn road(&self) -> Result<Box<Road>, Failure> {
        let (job, mut road) = (self.read()?, Box::new(Road::new()));
        match road.read(&job) {
            Ok(()) => Ok(road),
            Err(refusal) => Err(Failure::of_refusal(self.file_name(), self.file, &job, refusal)),
        }
    }

    /// FILE as messages name it.
    pub fn file_name(&self) -> &'a str {
        if self.file == "-" { "standard input" } else { self.file }
    }
}

/// Runs a subcommand: writes its help where that is asked for, else does its work; says what failed and answers the status.
pub fn run(name: &str, help: &str, arguments: &[String], work: fn(&[String]) -> Result<(), Failure>) -> ExitCode {
    let asked = arguments.iter().any(|argument| argument == "--help" || argument == "-h");
    let done = if asked { write(help) } else { work(arguments) };
    let Err(Failure { message, status }) = done else { return ExitCode::SUCCESS };
    if !message.is_empty() {
        // Nothing can be done where standard error is closed too.
        let _ = writeln!(io::stderr(), "desk {name}: {message}");
    }
    ExitCode::from(status)
}

/// Writes a whole text to standard output.
pub fn write(text: &str) -> Result<(), Failure> {
    let mut out = io::stdout().lock();
    out.write_all(text.as_bytes())?;
    Ok(out.flush()?)
}
