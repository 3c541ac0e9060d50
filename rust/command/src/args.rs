//! The command line: which question, of which recording or text.

use crate::body::{self, Mask};
use crate::help;
use crate::recording::REACH;
use crate::trouble::Trouble;
use kerb::calls::Settings;
use kerb::{LorryCell, Mounting};
use std::ffi::{OsStr, OsString};
use std::path::PathBuf;

/// Where the recording, or the text, comes from.
#[derive(Debug, PartialEq)]
pub enum Input {
    Standard,
    File(PathBuf),
}

/// The lorry's own bodywork, as `--body` tells it.
#[derive(Debug, PartialEq)]
pub enum Body {
    Cells(Mask),
    /// A list that is still to be read.
    In(Input),
}

/// Which moment of a recording is asked about.
#[derive(Clone, Copy, Debug, PartialEq)]
pub enum When {
    /// The last record's.
    AtTheEnd,
    /// The first since T0 at which the counter stands at this tick.
    Tick(u32),
    /// So many ticks after T0.
    Total(u64),
}

/// Where the answer goes.
#[derive(Debug, PartialEq)]
pub enum Output {
    Standard,
    File(PathBuf),
}

/// A question, and whether the answer is wanted as JSON.
#[derive(Debug, PartialEq)]
pub struct Request {
    pub question: Question,
    pub as_json: bool,
}

#[derive(Debug, PartialEq)]
pub enum Question {
    /// A text of `help`.
    Help(&'static str),
    Version,
    List(Input),
    Why {
        input: Input,
        one: LorryCell,
        other: LorryCell,
        when: When,
    },
    Groups {
        input: Input,
        when: When,
    },
    Lamps {
        input: Input,
        body: Body,
        when: When,
    },
    Cell {
        number: u16,
        /// The number of a mounting, whether or not there is such a one.
        mounting: Option<u8>,
    },
    MirrorTable,
    ToFile {
        input: Input,
        /// Whether or not they are within their values.
        settings: Settings,
        output: Output,
    },
    ToText {
        input: Input,
        output: Output,
    },
}

/// The commands whose answers can be had as JSON.
const ANSWERS: &[&str] = &["list", "why", "groups", "lamps", "cell", "mirror-table"];

/// The commands that ask about a moment.
const OF_A_MOMENT: &[&str] = &["why", "groups", "lamps"];

/// The largest total that there is.
const LAST_TOTAL: u64 = 9_223_372_036_854_775_807;

/// How many clock calls may be made to reach a total: half a second's work, and 6,800 years of milliseconds.
const MOST_CALLS: u64 = 100_000;

/// The words of a command line, options apart from the rest.
#[derive(Default)]
struct Words {
    plain: Vec<OsString>,
    at: Option<OsString>,
    total: Option<OsString>,
    body: Option<OsString>,
    n: Option<OsString>,
    b: Option<OsString>,
    mounting: Option<OsString>,
    t0: Option<OsString>,
    output: Option<OsString>,
    json: bool,
    help: bool,
    version: bool,
}

pub fn parse(words: impl Iterator<Item = OsString>) -> Result<Request, Trouble> {
    let mut words = sorted(words)?;
    let as_json = words.json;
    let question = if words.version {
        Question::Version
    } else if words.plain.is_empty() {
        if !words.help {
            return Err(wrong(
                "which command? list, why, groups, lamps, cell, mirror-table, to-file, to-text or help",
            ));
        }
        Question::Help(help::ALL)
    } else {
        let command = words.plain.remove(0);
        question(&command, words)?
    };
    Ok(Request { question, as_json })
}

/// What is asked by a command and the words that follow it.
fn question(command: &OsStr, mut words: Words) -> Result<Question, Trouble> {
    let (name, text) = known(command)?;
    if words.help {
        return Ok(Question::Help(text));
    }
    takes(name, "--at", words.at.is_some(), OF_A_MOMENT)?;
    takes(name, "--total", words.total.is_some(), OF_A_MOMENT)?;
    takes(name, "--body", words.body.is_some(), &["lamps"])?;
    let mounted = words.mounting.is_some();
    takes(name, "--mounting", mounted, &["cell", "to-file"])?;
    takes(name, "--n", words.n.is_some(), &["to-file"])?;
    takes(name, "--b", words.b.is_some(), &["to-file"])?;
    takes(name, "--t0", words.t0.is_some(), &["to-file"])?;
    takes(name, "-o", words.output.is_some(), &["to-file", "to-text"])?;
    takes(name, "--json", words.json, ANSWERS)?;
    let plain = &mut words.plain;
    match name {
        "list" => Ok(Question::List(only_input(name, plain)?)),
        "groups" => Ok(Question::Groups {
            input: only_input(name, plain)?,
            when: when(words.at, words.total)?,
        }),
        "why" => {
            let (Some(other), Some(one)) = (plain.pop(), plain.pop()) else {
                return Err(wrong("why wants two cells: kerb why FILE ONE OTHER"));
            };
            Ok(Question::Why {
                one: LorryCell(cell(&one)?),
                other: LorryCell(cell(&other)?),
                input: only_input(name, plain)?,
                when: when(words.at, words.total)?,
            })
        }
        "lamps" => {
            let (input, body) = (only_input(name, plain)?, body(words.body)?);
            if input == Input::Standard && body == Body::In(Input::Standard) {
                return Err(wrong(
                    "the recording and the bodywork cannot both be standard input",
                ));
            }
            let when = when(words.at, words.total)?;
            Ok(Question::Lamps { input, body, when })
        }
        "cell" => {
            let [number] = plain.as_slice() else {
                return Err(wrong("cell wants one number: kerb cell N"));
            };
            Ok(Question::Cell {
                number: cell(number)?,
                mounting: words.mounting.map(mounting).transpose()?,
            })
        }
        "mirror-table" if plain.is_empty() => Ok(Question::MirrorTable),
        "mirror-table" => Err(wrong(
            "mirror-table prints all cells and takes none; kerb cell N tells of one",
        )),
        "to-file" => Ok(Question::ToFile {
            input: only_input(name, plain)?,
            settings: settings(words.n, words.b, words.mounting, words.t0)?,
            output: output(words.output),
        }),
        "to-text" => Ok(Question::ToText {
            input: only_input(name, plain)?,
            output: output(words.output),
        }),
        _ => match plain.as_slice() {
            [] => Ok(Question::Help(help::ALL)),
            [about] => Ok(Question::Help(known(about)?.1)),
            _ => Err(wrong("help is about one command: kerb help COMMAND")),
        },
    }
}

/// A command's name and its help.
fn known(command: &OsStr) -> Result<(&'static str, &'static str), Trouble> {
    let word = command.to_string_lossy();
    help::of(command).ok_or_else(|| wrong(&format!("there is no command {word}")))
}

/// Parts options from plain words. What follows `--` is plain, and `-` is: it names standard input.
fn sorted(mut all: impl Iterator<Item = OsString>) -> Result<Words, Trouble> {
    let mut words = Words::default();
    while let Some(word) = all.next() {
        let text = word.to_str().unwrap_or("");
        if !text.starts_with('-') || text == "-" {
            words.plain.push(word);
            continue;
        }
        let (name, joined) = match text.split_once('=') {
            Some((name, value)) => (name, Some(OsString::from(value))),
            None => (text, None),
        };
        match (name, &joined) {
            ("--", None) => words.plain.extend(all.by_ref()),
            ("--help" | "-h", None) => words.help = true,
            ("--version" | "-V", None) => words.version = true,
            ("--json", None) => words.json = true,
            ("--at", _) => once(&mut words.at, name, joined.or_else(|| all.next()))?,
            ("--total", _) => once(&mut words.total, name, joined.or_else(|| all.next()))?,
            ("--body", _) => once(&mut words.body, name, joined.or_else(|| all.next()))?,
            ("--n", _) => once(&mut words.n, name, joined.or_else(|| all.next()))?,
            ("--b", _) => once(&mut words.b, name, joined.or_else(|| all.next()))?,
            ("--mounting", _) => once(&mut words.mounting, name, joined.or_else(|| all.next()))?,
            ("--t0", _) => once(&mut words.t0, name, joined.or_else(|| all.next()))?,
            ("-o", None) => once(&mut words.output, name, all.next())?,
            _ => return Err(wrong(&format!("there is no option {text}"))),
        }
    }
    Ok(words)
}

/// The value of an option, which has one and stands once.
fn once(place: &mut Option<OsString>, name: &str, value: Option<OsString>) -> Result<(), Trouble> {
    let value = value.ok_or_else(|| wrong(&format!("{name} wants a value")))?;
    match place.replace(value) {
        None => Ok(()),
        Some(_) => Err(wrong(&format!("{name} stands twice"))),
    }
}

fn takes(command: &str, option: &str, given: bool, by: &[&str]) -> Result<(), Trouble> {
    if !given || by.contains(&command) {
        return Ok(());
    }
    Err(wrong(&format!("{command} takes no {option}")))
}

/// The one word that is left, which names the file to read; none, or `-`, is standard input.
fn only_input(command: &str, plain: &mut Vec<OsString>) -> Result<Input, Trouble> {
    let word = plain.pop();
    if !plain.is_empty() {
        return Err(wrong(&format!("{command} takes one file")));
    }
    Ok(input(word))
}

fn input(word: Option<OsString>) -> Input {
    match word {
        Some(name) if name != "-" => Input::File(name.into()),
        _ => Input::Standard,
    }
}

/// The value of `--body`: `none`, a list, which has nothing but digits, commas, minus signs and blanks, or else the name of a file.
fn body(word: Option<OsString>) -> Result<Body, Trouble> {
    let Some(word) = word else {
        return Err(wrong(
            "lamps wants --body LIST, the cells of the lorry's own bodywork; --body none says that there are none",
        ));
    };
    let of_list = |of: char| of.is_ascii_digit() || of == ',' || of == '-' || of.is_whitespace();
    let list = match word.to_str() {
        Some("none") => return Ok(Body::Cells(body::nothing())),
        Some(list) if list != "-" && list.chars().all(of_list) => list,
        _ => return Ok(Body::In(input(Some(word)))),
    };
    let mask = body::mask(list).map_err(|fault| wrong(&format!("--body: {}", fault.what)))?;
    if mask == body::nothing() {
        return Err(wrong(
            "--body has no cell; --body none says that there is no bodywork",
        ));
    }
    Ok(Body::Cells(mask))
}

/// The value of `-o`; none, or `-`, is standard output.
fn output(word: Option<OsString>) -> Output {
    match word {
        Some(name) if name != "-" => Output::File(name.into()),
        _ => Output::Standard,
    }
}

/// The settings, all four: none has a default.
fn settings(
    n: Option<OsString>,
    b: Option<OsString>,
    mounted: Option<OsString>,
    t0: Option<OsString>,
) -> Result<Settings, Trouble> {
    let given = [
        ("--n", n.is_some()),
        ("--b", b.is_some()),
        ("--mounting", mounted.is_some()),
        ("--t0", t0.is_some()),
    ];
    let (Some(n), Some(b), Some(mounted), Some(t0)) = (n, b, mounted, t0) else {
        let missing = given.iter().filter(|(_, given)| !given);
        let names: Vec<&str> = missing.map(|(name, _)| *name).collect();
        let names = names.join(", ");
        return Err(wrong(&format!(
            "to-file wants all four settings; missing: {names}"
        )));
    };
    Ok(Settings {
        n: slides(&n)?,
        b: slide_length(&b)?,
        mounting: mounting(mounted)?,
        t0: tick(t0)?,
    })
}

/// A number of digits alone. One that passes 64 bits is given as the largest of these: nothing here takes it either.
pub fn digits(text: &str) -> Option<u64> {
    let good = !text.is_empty() && text.bytes().all(|byte| byte.is_ascii_digit());
    good.then(|| text.parse().unwrap_or(u64::MAX))
}

fn number(word: &OsStr, what: &str) -> Result<u64, Trouble> {
    word.to_str().and_then(digits).ok_or_else(|| {
        let word = word.to_string_lossy();
        wrong(&format!("{word} is not a number: {what} is wanted here"))
    })
}

/// A number for a cell. What a cell is, the library judges: a number beyond 16 bits is put to it as the largest that it takes.
fn cell(word: &OsStr) -> Result<u16, Trouble> {
    let number = number(word, "a cell")?;
    Ok(u16::try_from(number).unwrap_or(u16::MAX))
}

/// The moment that `--at` or `--total` names; without either it is the last record's.
fn when(at: Option<OsString>, of_total: Option<OsString>) -> Result<When, Trouble> {
    match (at, of_total) {
        (None, None) => Ok(When::AtTheEnd),
        (Some(at), None) => Ok(When::Tick(tick(at)?)),
        (None, Some(of_total)) => Ok(When::Total(total(of_total)?)),
        (Some(_), Some(_)) => Err(wrong(
            "--at and --total name a moment each: one of them is enough",
        )),
    }
}

/// A total, as far as clock calls may go.
fn total(word: OsString) -> Result<u64, Trouble> {
    let number = number(&word, "a total")?;
    let word = word.to_string_lossy();
    if number > LAST_TOTAL {
        return Err(wrong(&format!(
            "{word} is no total: totals go from 0 to {LAST_TOTAL}"
        )));
    }
    let most = MOST_CALLS * u64::from(REACH);
    if number > most {
        return Err(wrong(&format!(
            "{word} is too far ahead: a clock call reaches {REACH} ticks, and kerb makes {MOST_CALLS} of them at most, up to the total {most}"
        )));
    }
    Ok(number)
}

fn tick(word: OsString) -> Result<u32, Trouble> {
    let number = number(&word, "a tick")?;
    u32::try_from(number).map_err(|_| {
        let (word, most) = (word.to_string_lossy(), u32::MAX);
        wrong(&format!("{word} is no tick: ticks go from 0 to {most}"))
    })
}

/// n. A number beyond 8 bits is put to the library as the largest that it takes, which it refuses.
fn slides(word: &OsStr) -> Result<u8, Trouble> {
    let number = number(word, "n")?;
    Ok(u8::try_from(number).unwrap_or(u8::MAX))
}

/// B. A number beyond 32 bits is put to the library as 0, the one that it refuses.
fn slide_length(word: &OsStr) -> Result<u32, Trouble> {
    let number = number(word, "B")?;
    Ok(u32::try_from(number).unwrap_or(0))
}

/// 1 or plain, 2 or mirrored. Other numbers are the library's to refuse.
fn mounting(word: OsString) -> Result<u8, Trouble> {
    match word.to_str() {
        Some("plain") => return Ok(Mounting::Plain.number()),
        Some("mirrored") => return Ok(Mounting::Mirrored.number()),
        _ => (),
    }
    let number = number(&word, "a mounting")?;
    Ok(u8::try_from(number).unwrap_or(u8::MAX))
}

fn wrong(what: &str) -> Trouble {
    Trouble::Use(format!("{what}\nkerb help says how it is used"))
}
