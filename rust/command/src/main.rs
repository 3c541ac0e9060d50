//! `kerb`: asks a recording, that is a link file, what the panel's book thought and why, and turns text lists into link files and
//! back. It parses its arguments and prints what the proved library gives; no rule is worked out here, but for the words that tell
//! what is wrong with a line of a text (`text`), which cells are in a dark lamp's zone (`lamps`), and how far a recording is played for
//! a moment that is asked about (`recording`).
//!
//! Answers go to standard output or to the file of `-o`, everything else to standard error. The status is 0 for done, 1 for an
//! answer "no", 2 for a refusal and 3 for wrong use, or a file that cannot be read or written.

mod answer;
mod args;
mod body;
mod help;
mod json;
mod lamps;
mod output;
mod recording;
mod standard;
mod text;
mod trouble;
mod words;

use args::Output;
use std::process::ExitCode;

fn main() -> ExitCode {
    let outcome = args::parse(std::env::args_os().skip(1)).and_then(answer::answer);
    let written = match &outcome {
        Ok(answer) => output::write(&answer.to, &answer.bytes),
        Err(trouble) => output::write(&Output::Standard, trouble.on_standard_output().as_bytes()),
    };
    let status = match (written, outcome) {
        (Err(unwritten), _) => unwritten.complain(),
        (Ok(()), Err(trouble)) => trouble.complain(),
        (Ok(()), Ok(answer)) => {
            words::aside(&answer.aside);
            answer.status
        }
    };
    ExitCode::from(status)
}
