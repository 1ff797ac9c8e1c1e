//! What the library answers for a job, and why it refuses one (`desk check`). The number is the library's; the reason comes from a
//! second text of document 01's rules (package `second`), which is held to the same number each time.
mod explanation;
mod form;
mod look;
mod places;
mod reasons;
mod summary;
mod wording;

use crate::arguments::{self, Arguments, Failure};
use riftkettle::Road;
use std::process::ExitCode;

pub use explanation::{Explanation, explain_memory, explain_read, explain_samples, explain_text};

pub const HELP: &str = "\
desk check JOB

Says what the library answers for a job text (`-`: standard input). For an admitted road: its length,
geometries, sections, lanes, lines of its tables and samples, then each want's point. x, y and z are f32
numbers, written as the exact f64. For a refused job: the number of the refusal, the place in the text and
the reason, with the number that is wrong in decimal and as it stands in the text, and its limit.

Of an admitted road it then says what is worth a look, if there is anything; the status stays 0:

- Where a geometry ends and the next begins: a gap or a length in s that differs by over 0.001 m, a turn of
  over 0.05 degrees. A geometry starts at its own x, y and heading, so that none of this is refused. Whole
  turns of heading do not count.
- A site 8,192 m or more from the origin, where f32 points lie on a grid of 0.98 mm or coarser.

The number is the library's own. The reason comes from a second text of the rules, written
independently; if the two do not agree on the number, that is said, and the status is 3.

Status 0 for an admitted road, even if wants are refused; 1 for a refused job; 2 for wrong arguments or
a file that cannot be read; 3 where the library and the second text differ.
";

pub fn run(arguments: &[String]) -> ExitCode {
    arguments::run("check", HELP, arguments, check)
}

fn check(arguments: &[String]) -> Result<(), Failure> {
    let arguments = Arguments::of(arguments, &[])?;
    let answer = answer(&arguments.read()?);
    arguments::write(&answer.text)?;
    match answer.differ {
        Some(message) => Err(Failure { message, status: 3 }),
        None if answer.number == 0 => Ok(()),
        None => Err(Failure { message: String::new(), status: 1 }),
    }
}

/// What is said of a job.
pub struct Answer {
    /// The library's: 0 for an admitted road.
    pub number: u32,
    pub text: String,
    /// What is said where the second text of the rules has another number.
    pub differ: Option<String>,
}

pub fn answer(job: &[u8]) -> Answer {
    let mut road = Box::new(Road::new());
    let number = road.read(job).map_or_else(|refusal| refusal.number(), |()| 0);
    let explained = explain_text(job);
    let second = explained.as_ref().map_or(0, |explanation| explanation.number);
    if number != second {
        return differing(number, second, explained);
    }
    let text = explained.map_or_else(|| summary::of(&road), |explanation| explanation.to_string());
    Answer { number, text, differ: None }
}

/// What is said where the two differ: on standard error and with the answer.
fn differing(number: u32, second: u32, explained: Option<Explanation>) -> Answer {
    let outcome = |number: u32| if number == 0 { "admits the road".into() } else { format!("refuses the job with {number}") };
    let message = format!(
        "THE LIBRARY AND THE SECOND TEXT OF ITS RULES DIFFER: the library {}, the second text {}. One of them is wrong; please \
         report this with the job.",
        outcome(number),
        outcome(second)
    );
    let reason = explained.map_or(String::new(), |explanation| format!("the second text's reason:\n{explanation}"));
    Answer { number, text: format!("{message}\n{reason}"), differ: Some(message) }
}

#[cfg(test)]
mod tests {
    use super::*;

    #[test]
    fn a_difference_is_said() {
        let answer = differing(0, 3, explain_text(b""));
        assert_eq!(
            answer.text,
            "THE LIBRARY AND THE SECOND TEXT OF ITS RULES DIFFER: the library admits the road, the second text refuses the \
             job with 3. One of them is wrong; please report this with the job.\n\
             the second text's reason:\n\
             refused 3: counts, references or order are wrong\n  \
             table road is missing or has no line: the road's length is needed\n"
        );
        assert!(answer.differ.is_some_and(|message| answer.text.starts_with(&message)));
        assert!(differing(4, 0, None).text.contains("the library refuses the job with 4, the second text admits the road"));
    }
}
