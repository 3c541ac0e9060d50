//! From a question to the text and the status of its answer.

use crate::args::{Body, Input, Output, Question, Request, When};
use crate::body::{self, Mask};
use crate::lamps::lamps;
use crate::recording::Recording;
use crate::trouble::{About, Refused, Trouble};
use crate::{json, standard, text, words};
use kerb::{LorryCell, Mounting, Refusal, UnitCell};
use std::fs::File;
use std::io::{self, IsTerminal, Read};

/// What goes out and where to, and the status: 0 for done, 1 for an answer "no".
pub struct Answer {
    pub bytes: Vec<u8>,
    pub to: Output,
    /// What is said on standard error once the answer is written.
    pub aside: String,
    pub status: u8,
}

impl Answer {
    /// An answer on standard output.
    fn of(bytes: impl Into<Vec<u8>>) -> Answer {
        Answer {
            bytes: bytes.into(),
            to: Output::Standard,
            aside: String::new(),
            status: 0,
        }
    }
}

pub fn answer(Request { question, as_json }: Request) -> Result<Answer, Trouble> {
    match question {
        Question::Help(text) => Ok(Answer::of(text)),
        Question::Version => Ok(Answer::of(words::version())),
        Question::List(input) => list(&recording(&input)?, as_json),
        Question::Why {
            input,
            one,
            other,
            when,
        } => {
            let recording =
                Recording::played(&recording(&input)?, when).map_err(refused(as_json))?;
            let why = recording.why(one, other).map_err(refused(as_json))?;
            let said = if as_json { json::why } else { words::why };
            Ok(Answer {
                status: if why.is_some() { 0 } else { 1 },
                ..Answer::of(said(&recording, (one, other), why.as_ref()))
            })
        }
        Question::Groups { input, when } => {
            let recording =
                Recording::played(&recording(&input)?, when).map_err(refused(as_json))?;
            let groups = recording.groups().map_err(refused(as_json))?;
            let said = if as_json { json::groups } else { words::groups };
            Ok(Answer::of(said(&recording, &groups)))
        }
        Question::Lamps { input, body, when } => {
            let body = mask(body)?;
            let recording =
                Recording::played(&recording(&input)?, when).map_err(refused(as_json))?;
            let lamps = lamps(&recording, &body).map_err(refused(as_json))?;
            let said = if as_json { json::lamps } else { words::lamps };
            Ok(Answer::of(said(&recording, &body, &lamps)))
        }
        Question::Cell { number, mounting } => {
            let mountings = mountings(number, mounting).map_err(refused(as_json))?;
            let said = if as_json { json::cell } else { words::cell };
            Ok(Answer::of(said(number, &mountings)))
        }
        Question::MirrorTable => {
            let said = if as_json {
                json::mirror_table
            } else {
                words::mirror_table
            };
            Ok(Answer::of(said(&mirror_table())))
        }
        Question::ToFile {
            input,
            settings,
            output,
        } => {
            if output == Output::Standard && io::stdout().is_terminal() {
                let words =
                    "a link file is nothing for a terminal: -o FILE names the file to write";
                return Err(Trouble::Use(words.to_string()));
            }
            let text = bytes(&input, "a text", u64::MAX)?;
            let file = text::to_file(settings, &text).map_err(refused(as_json))?;
            Ok(Answer {
                to: output,
                ..Answer::of(file)
            })
        }
        Question::ToText { input, output } => {
            let file = recording(&input)?;
            let (text, settings) = text::to_text(&file).map_err(refused(as_json))?;
            Ok(Answer {
                to: output,
                aside: words::settings(settings),
                ..Answer::of(text)
            })
        }
    }
}

/// A refusal, with its line on standard output where JSON is wanted.
fn refused(as_json: bool) -> impl Fn(Refused) -> Trouble {
    move |refused| {
        let line = as_json.then(|| refused.json().line());
        Trouble::Refused(refused, line.unwrap_or_default())
    }
}

/// What kerblist prints, which for a refusal is a line too.
fn list(file: &[u8], as_json: bool) -> Result<Answer, Trouble> {
    let played = Recording::played(file, When::AtTheEnd);
    if as_json {
        let recording = played.map_err(refused(as_json))?;
        let groups = recording.groups().map_err(refused(as_json))?;
        return Ok(Answer::of(json::list(&recording, &groups)));
    }
    match played {
        Ok(_) => Ok(Answer::of(listing(file))),
        Err(refused) => Err(Trouble::Refused(refused, listing(file))),
    }
}

/// The library's own text.
fn listing(file: &[u8]) -> String {
    let mut text = vec![0; kerb::LISTING_BYTES];
    let length =
        kerb::list(file, &mut text).expect("the output has the bytes that a listing needs");
    text.truncate(length);
    String::from_utf8(text).expect("a listing is words and numbers")
}

/// The mountings to tell of for a cell: the one that is asked for, or both, since none is a default.
fn mountings(number: u16, mounting: Option<u8>) -> Result<Vec<Mounting>, Refused> {
    let refused = Refused::of(About::CommandLine);
    if usize::from(number) >= kerb::CELLS {
        return Err(refused(Refusal::NoCell));
    }
    match mounting {
        None => Ok(vec![Mounting::Plain, Mounting::Mirrored]),
        Some(mounting) => Ok(vec![Mounting::try_from(mounting).map_err(refused)?]),
    }
}

/// Each cell of a mirrored unit, and which of the lorry it is.
fn mirror_table() -> Vec<(UnitCell, LorryCell)> {
    let cells = (0..kerb::CELLS as u16).map(UnitCell);
    cells
        .map(|cell| (cell, cell.to_lorry(Mounting::Mirrored)))
        .collect()
}

/// The mask of the bodywork, whose list may be in a file.
fn mask(body: Body) -> Result<Mask, Trouble> {
    let input = match body {
        Body::Cells(mask) => return Ok(mask),
        Body::In(input) => input,
    };
    let name = name(&input);
    let list = read(&input, "a list of cells", u64::MAX).map_err(|error| {
        let name = format!("{name}, taken for the file of --body,"); // who mistyped a list has named no file
        Trouble::Unread(name, error)
    })?;
    body::mask(&String::from_utf8_lossy(&list)).map_err(|fault| {
        let (line, what) = (fault.line, fault.what);
        Trouble::Use(format!("{name}, line {line} (counted from 1): {what}"))
    })
}

/// The recording's bytes, at most one more than the longest link file has: enough to tell that a file is too long.
fn recording(input: &Input) -> Result<Vec<u8>, Trouble> {
    bytes(input, "a recording", kerb::FILE_BYTES as u64 + 1)
}

/// The first bytes of what is read, as many as there are up to `most`.
fn bytes(input: &Input, what: &str, most: u64) -> Result<Vec<u8>, Trouble> {
    read(input, what, most).map_err(|error| Trouble::Unread(name(input), error))
}

fn read(input: &Input, what: &str, most: u64) -> io::Result<Vec<u8>> {
    match input {
        Input::Standard => front(standard::input()?, what, most),
        Input::File(path) => front(File::open(path)?, what, most),
    }
}

fn name(input: &Input) -> String {
    match input {
        Input::Standard => "standard input".to_string(),
        Input::File(path) => path.display().to_string(),
    }
}

fn front(from: impl Read + IsTerminal, what: &str, most: u64) -> io::Result<Vec<u8>> {
    if from.is_terminal() {
        words::reading_a_terminal(what);
    }
    let mut bytes = Vec::new();
    from.take(most).read_to_end(&mut bytes)?;
    Ok(bytes)
}
