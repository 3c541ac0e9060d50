//! Text lists into link files, and link files into text lists. The library judges. Where it refuses a text, this looks again at
//! what it refused, and only for the words.

use crate::trouble::{About, Refused};
use crate::words;
use kerb::{calls, Refusal, Settings};

const SETTINGS: u8 = Refusal::Settings as u8;
const LENGTH: u8 = Refusal::Length as u8;
const LINE: u8 = Refusal::Line as u8;

/// A link file of these settings and the links of the text.
pub fn to_file(settings: calls::Settings, text: &[u8]) -> Result<Vec<u8>, Refused> {
    let mut file = vec![0; kerb::FILE_BYTES];
    let answer = calls::text_in(settings, text, &mut file);
    let (refusal, about) = match answer.number {
        0 => {
            file.truncate(answer.length);
            return Ok(file);
        }
        LINE => {
            let line = lines(text).nth(answer.line as usize);
            let meaning = || Refusal::Line.meaning().to_string();
            let fault = line.and_then(fault).unwrap_or_else(meaning);
            (Refusal::Line, About::Line(answer.line, fault))
        }
        SETTINGS => (Refusal::Settings, About::CommandLine),
        LENGTH => {
            let most = (kerb::FILE_BYTES - kerb::ENDING_BYTES) / kerb::RECORD_BYTES;
            let count = lines(text).count();
            let fault = format!("it has {count} lines, and a link file takes at most {most}");
            (Refusal::Length, About::Text(fault))
        }
        number => unreachable!("with room for the longest file there is no number {number}"),
    };
    Err(Refused { refusal, about })
}

/// The links of a link file as text, and its settings.
pub fn to_text(file: &[u8]) -> Result<(Vec<u8>, Settings), Refused> {
    let in_file = Refused::of(About::File);
    let mut text = vec![0; kerb::TEXT_BYTES];
    let length = kerb::text_out(file, &mut text).map_err(&in_file)?;
    text.truncate(length);
    let (settings, _) = kerb::read(file).map_err(&in_file)?;
    Ok((text, settings))
}

/// The lines, each with its line feed.
fn lines(text: &[u8]) -> impl Iterator<Item = &[u8]> {
    text.split_inclusive(|&byte| byte == b'\n')
}

/// The byte order marks of UTF-8 and UTF-16.
const MARKS: [&[u8]; 3] = [b"\xEF\xBB\xBF", b"\xFF\xFE", b"\xFE\xFF"];

/// The numbers of a line: what each is, of which kind, and the largest there is.
const FIELDS: [(&str, &str, u64); 3] = [
    ("first cell", "a cell", u16::MAX as u64),
    ("second cell", "a cell", u16::MAX as u64),
    ("tick", "a tick", u32::MAX as u64),
];

/// What is wrong with a line, the first that is found; none where nothing is.
fn fault(line: &[u8]) -> Option<String> {
    let ended = line.strip_suffix(b"\n");
    let line = ended.unwrap_or(line);
    let words = if MARKS.iter().any(|mark| line.starts_with(mark)) {
        "the line begins with a byte order mark: save the text without one"
    } else if line.ends_with(b"\r") {
        "the line ends with a carriage return, as Windows has it: save the text with line feeds alone"
    } else if ended.is_none() {
        "the line has no line feed after it, and the last line needs one too"
    } else if line.is_empty() {
        "the line is empty"
    } else if line.contains(&b'\t') {
        "the line has a tab: between two numbers stands one blank"
    } else if line.starts_with(b" ") {
        "the line begins with a blank"
    } else if line.ends_with(b" ") {
        "the line ends with a blank"
    } else if line.windows(2).any(|two| two == b"  ") {
        "the line has two blanks together: between two numbers stands one"
    } else {
        return fault_of_numbers(line);
    };
    Some(words.to_string())
}

/// The same of a line with single blanks and no others.
fn fault_of_numbers(line: &[u8]) -> Option<String> {
    if let Some(stray) = stray(line) {
        return Some(format!(
            "the line has {stray:?}: digits, and a blank between two numbers, are all it may have"
        ));
    }
    let numbers = || line.split(|&byte| byte == b' ');
    let count = numbers().count();
    if count != FIELDS.len() {
        let count = words::counted(count, "number");
        return Some(format!(
            "the line has {count}: a link is two cells and a tick"
        ));
    }
    numbers()
        .zip(FIELDS)
        .find_map(|(digits, (name, kind, most))| {
            if is_signed(digits) {
                return Some(format!("the {name} has a sign"));
            }
            if digits.len() > 1 && digits.starts_with(b"0") {
                return Some(format!("the {name} has a leading zero"));
            }
            let number = std::str::from_utf8(digits).ok()?.parse();
            let words = format!("the {name} is too large: {kind} is a number up to {most}");
            (number.unwrap_or(u64::MAX) > most).then_some(words)
        })
}

/// The first character that is no digit, no blank and no sign before a number.
fn stray(line: &[u8]) -> Option<char> {
    let mut before = b' ';
    let place = line.iter().position(|&byte| {
        let sign = before == b' ' && is_signed(&[byte]);
        before = byte;
        !(byte.is_ascii_digit() || byte == b' ' || sign)
    })?;
    let longest = 4; // bytes that a character has
    let front = line[place..].chunks(longest).next()?;
    String::from_utf8_lossy(front).chars().next()
}

fn is_signed(number: &[u8]) -> bool {
    number.starts_with(b"+") || number.starts_with(b"-")
}

#[cfg(test)]
mod tests {
    use super::*;
    use streams::Dice;

    /// Drawn texts, most of them with a fault: words are found first for the line that the library refuses.
    #[test]
    fn there_are_words_for_what_the_library_refuses() {
        let settings = calls::Settings {
            t0: 0,
            b: 10,
            n: 3,
            mounting: 1,
        };
        let powers = [1, 10, 1 << 16, 100_000, 1 << 32, 10_000_000_000];
        let bytes = b"0123456789  +-\r\n\t,.\"a\0\xA0\xC2\xEF\xBB\xBF\xFF\xFE";
        let mut dice = Dice::new(13);
        let number = |dice: &mut Dice| dice.pick(&powers) - dice.below(2);
        let (mut good, mut bad) = (0, 0);
        for _ in 0..20_000 {
            let [one, other, tick] = [0; 3].map(|_| number(&mut dice));
            let mut text = format!("{one} {other} {tick}\n7 8 9\n").into_bytes();
            while !text.is_empty() && dice.one_in(2) {
                let place = dice.below(text.len() as u64) as usize;
                match dice.below(8) {
                    0 => text.truncate(place + 1),
                    1 | 2 => drop(text.remove(place)),
                    _ => text.insert(place, dice.pick(bytes)),
                }
            }
            let refused = match to_file(settings, &text) {
                Ok(_) => None,
                Err(refused) => match refused.about {
                    About::Line(line, _) => Some(line as usize),
                    _ => panic!("{refused}"),
                },
            };
            let found = lines(&text).position(|line| fault(line).is_some());
            assert_eq!(found, refused, "{}", text.escape_ascii());
            good += u32::from(refused.is_none());
            bad += u32::from(refused.is_some());
        }
        assert!(good > 1_000 && bad > 10_000, "{good} good, {bad} bad");
    }
}
