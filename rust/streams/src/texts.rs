//! Texts of links, good and with every flaw of their form, and calls that bring
//! them into link files and put link files out, with every fault.

use crate::call::Call;
use crate::dice::Dice;
use crate::files::{damage_field, file_of, Field};
use crate::random::{draw_settings, spoil_settings};
use oracle::{file_length, line_of, Record, LONGEST_FILE, MOST_RECORDS, TAIL_BYTES};

/// An endless stream of calls with texts: text in and text out.
#[derive(Clone, Debug)]
pub struct Texts {
    dice: Dice,
}

impl Texts {
    pub fn new(seed: u64) -> Texts {
        Texts {
            dice: Dice::new(seed),
        }
    }
}

impl Iterator for Texts {
    type Item = Call;

    fn next(&mut self) -> Option<Call> {
        let dice = &mut self.dice;
        if dice.one_in(2) {
            let faults = draw_faults(dice);
            return Some(text_out_call(dice, faults));
        }
        let faults = draw_faults(dice);
        let mut call = text_in_call(dice, faults);
        if let Call::TextIn { text, .. } = &mut call {
            if dice.one_in(6) && !text.is_empty() {
                // It may leave the text good.
                let byte = dice.below(text.len() as u64) as usize;
                text[byte] ^= 1 << dice.below(8);
            }
        }
        Some(call)
    }
}

/// No fault, mostly; else each with an even chance.
fn draw_faults<const N: usize>(dice: &mut Dice) -> [bool; N] {
    let faulty = dice.one_in(3);
    [(); N].map(|()| faulty && dice.one_in(2))
}

/// Text in with these faults and no others, in the order of its checks: a line that
/// breaks the form, settings, too many lines, a short output.
pub fn text_in_call(dice: &mut Dice, faults: [bool; 4]) -> Call {
    let [bad_line, bad_settings, too_many, short] = faults;
    let mut settings = draw_settings(dice);
    if bad_settings {
        settings = spoil_settings(dice, settings);
    }
    let lines = if too_many {
        let any = dice.between(8_001, 9_000) as usize;
        dice.pick(&[8_001, 8_001, any, 16_000])
    } else {
        draw_lines(dice, usize::from(bad_line))
    };
    let mut text = draw_text(dice, lines);
    if bad_line {
        let flaw = dice.pick(&FLAWS);
        spoil(dice, &mut text, flaw);
    }
    Call::TextIn {
        settings,
        text,
        output_bytes: room(dice, file_length(lines), short),
    }
}

/// Text out with these faults and no others, in the order of its checks: length,
/// letters, offset or m, pad, settings, a short output.
pub fn text_out_call(dice: &mut Dice, faults: [bool; 6]) -> Call {
    let [length, letters, offset_and_m, pad, settings, short] = faults;
    let lines = draw_lines(dice, usize::from(short));
    let records = draw_records(dice, lines);
    let text = text_of(&records).len();
    let mut file = file_of(draw_settings(dice), &records);
    for (fault, fields) in [
        (letters, &[Field::Letters][..]),
        (
            offset_and_m,
            &[Field::Offset, Field::M, Field::OffsetAndM][..],
        ),
        (pad, &[Field::Pad][..]),
        (settings, &[Field::N, Field::B, Field::Mounting][..]),
    ] {
        if fault {
            let field = dice.pick(fields);
            damage_field(dice, &mut file, field);
        }
    }
    if length {
        spoil_length(dice, &mut file);
    }
    Call::TextOut {
        file,
        output_bytes: room(dice, text, short),
    }
}

/// A length that is no file's, by bytes at the front: the rest is as it was.
fn spoil_length(dice: &mut Dice, file: &mut Vec<u8>) {
    match dice.below(3) {
        0 => {
            let kept = dice.below(TAIL_BYTES as u64) as usize;
            file.drain(..file.len() - kept);
        }
        1 => {
            let more = dice.between(1, 7) as usize;
            file.splice(0..0, vec![0; more]);
        }
        _ => {
            let more = LONGEST_FILE + 8 - file.len();
            file.splice(0..0, vec![0; more]);
        }
    }
}

/// Room for so many bytes: just enough or more, or too little.
fn room(dice: &mut Dice, needed: usize, short: bool) -> usize {
    if short {
        let any = dice.below(needed as u64) as usize;
        dice.pick(&[0, needed - 1, any])
    } else {
        needed + dice.pick(&[0, 0, 1, 40])
    }
}

/// How many lines a text has that is not too long; at least so many.
fn draw_lines(dice: &mut Dice, least: usize) -> usize {
    let lines = match dice.below(16) {
        0 => 0,
        1 => 1,
        2..=10 => dice.between(2, 30),
        11..=14 => dice.between(31, 1_000),
        _ => MOST_RECORDS as u64 - dice.below(2),
    };
    least.max(lines as usize)
}

/// A good text of so many lines.
pub fn draw_text(dice: &mut Dice, lines: usize) -> Vec<u8> {
    text_of(&draw_records(dice, lines))
}

/// Any records, whatever a book says to them.
pub fn draw_records(dice: &mut Dice, m: usize) -> Vec<Record> {
    let any = |_| Record {
        tick: draw_number(dice, u64::from(u32::MAX)) as u32,
        a: draw_number(dice, u64::from(u16::MAX)) as u16,
        b: draw_number(dice, u64::from(u16::MAX)) as u16,
    };
    (0..m).map(any).collect()
}

/// A number up to the most of its field: of any number of digits, and often the
/// first or the last that has so many.
fn draw_number(dice: &mut Dice, most: u64) -> u64 {
    let digits = dice.between(1, most.to_string().len() as u64);
    let beyond = 10u64.pow(digits as u32);
    let any = dice.below(beyond);
    let number = dice.pick(&[any, any, any, beyond / 10, beyond - 1, most]);
    number.min(most)
}

/// The text of some records, however many they are.
pub fn text_of(records: &[Record]) -> Vec<u8> {
    let text: String = records.iter().map(|&of| line_of(of)).collect();
    text.into_bytes()
}

/// The ways in which a line can break the form.
#[derive(Clone, Copy, Debug, PartialEq, Eq)]
pub enum Flaw {
    EmptyLine,
    Sign,
    LeadingZero,
    LargeCell,
    LargeTick,
    TwoBlanks,
    BlankBefore,
    BlankAfter,
    Tab,
    Return,
    FieldMissing,
    FieldMore,
    NoDigit,
    LineFeedMissing,
    LineFeedMore,
}

impl Flaw {
    pub fn name(self) -> &'static str {
        match self {
            Flaw::EmptyLine => "empty line",
            Flaw::Sign => "sign",
            Flaw::LeadingZero => "leading zero",
            Flaw::LargeCell => "large cell",
            Flaw::LargeTick => "large tick",
            Flaw::TwoBlanks => "two blanks",
            Flaw::BlankBefore => "blank before",
            Flaw::BlankAfter => "blank after",
            Flaw::Tab => "tab",
            Flaw::Return => "return",
            Flaw::FieldMissing => "field missing",
            Flaw::FieldMore => "field more",
            Flaw::NoDigit => "no digit",
            Flaw::LineFeedMissing => "line feed missing",
            Flaw::LineFeedMore => "line feed more",
        }
    }
}

/// All of them.
pub const FLAWS: [Flaw; 15] = [
    Flaw::EmptyLine,
    Flaw::Sign,
    Flaw::LeadingZero,
    Flaw::LargeCell,
    Flaw::LargeTick,
    Flaw::TwoBlanks,
    Flaw::BlankBefore,
    Flaw::BlankAfter,
    Flaw::Tab,
    Flaw::Return,
    Flaw::FieldMissing,
    Flaw::FieldMore,
    Flaw::NoDigit,
    Flaw::LineFeedMissing,
    Flaw::LineFeedMore,
];

/// Lets one line of a text break the form: the first, the last or any.
pub fn spoil(dice: &mut Dice, text: &mut Vec<u8>, flaw: Flaw) {
    let lines = text.split_inclusive(|&byte| byte == b'\n');
    let mut lines: Vec<Vec<u8>> = lines.map(<[u8]>::to_vec).collect();
    if lines.is_empty() {
        return;
    }
    let any = dice.below(lines.len() as u64) as usize;
    let place = dice.pick(&[0, any, any, lines.len() - 1]);
    spoil_line(dice, &mut lines[place], flaw);
    *text = lines.concat();
}

/// The line may have a flaw already, so that fields or the line feed are missing.
fn spoil_line(dice: &mut Dice, line: &mut Vec<u8>, flaw: Flaw) {
    let ended = line.ends_with(b"\n");
    line.truncate(line.len() - usize::from(ended));
    let parts = line.split(|&byte| byte == b' ');
    let mut fields: Vec<Vec<u8>> = parts.map(<[u8]>::to_vec).collect();
    let last = fields.len() - 1;
    let any = dice.below(fields.len() as u64) as usize;
    match flaw {
        Flaw::EmptyLine => fields.clear(),
        Flaw::Sign => fields[any].insert(0, dice.pick(b"+-")),
        Flaw::LeadingZero => {
            let zeros = dice.pick(&[1, 1, 2, 30]);
            fields[any].splice(0..0, vec![b'0'; zeros]);
        }
        Flaw::LargeCell => fields[any.min(1)] = too_large(dice, u64::from(u16::MAX)),
        Flaw::LargeTick => fields[last] = too_large(dice, u64::from(u32::MAX)),
        Flaw::TwoBlanks => fields.insert(any.max(1), Vec::new()),
        Flaw::BlankBefore => fields.insert(0, Vec::new()),
        Flaw::BlankAfter => fields.push(Vec::new()),
        Flaw::Tab => {
            let after = fields.split_off(any.max(1)).join(&b' ');
            fields = vec![[fields.join(&b' '), after].join(&b'\t')];
        }
        Flaw::Return => fields[last].push(b'\r'),
        Flaw::FieldMissing => drop(fields.remove(any)),
        Flaw::FieldMore => fields.insert(any, b"0".to_vec()),
        Flaw::NoDigit => {
            let at = dice.below(fields[any].len() as u64 + 1) as usize;
            fields[any].insert(at, dice.pick(b"aO.,/:-\0\x0B\x7F\x80\xA0\xB2\xFF"));
        }
        Flaw::LineFeedMore => {
            let at = dice.below(fields[any].len() as u64 + 1) as usize;
            fields[any].insert(at, b'\n');
        }
        Flaw::LineFeedMissing => {}
    }
    *line = fields.join(&b' ');
    if ended && flaw != Flaw::LineFeedMissing {
        line.push(b'\n');
    }
}

/// A number over the most of its field: by one, by so much that its lower bits
/// say a good one, or of up to thirty digits.
fn too_large(dice: &mut Dice, most: u64) -> Vec<u8> {
    let (most, some) = (u128::from(most), u128::from(dice.below(1_000)));
    let number = dice.pick(&[
        most + 1,
        most + 1 + some,
        10 * most,
        (1 << 32) + some,
        (1 << 64) + some,
        10u128.pow(29) + some,
    ]);
    number.to_string().into_bytes()
}

/// A good text with each flaw in turn, many times over.
pub fn every_flaw(seed: u64) -> Vec<(Flaw, Vec<u8>)> {
    let mut dice = Dice::new(seed);
    let mut texts = Vec::new();
    for flaw in FLAWS {
        for _ in 0..40 {
            texts.push((flaw, with_flaws(&mut dice, &[flaw])));
        }
    }
    texts
}

/// A good text with each flaw and after it each other, a few times over. The
/// second may undo the first.
pub fn every_two_flaws(seed: u64) -> Vec<([Flaw; 2], Vec<u8>)> {
    let mut dice = Dice::new(seed);
    let mut texts = Vec::new();
    for one in FLAWS {
        for other in FLAWS {
            for _ in 0..4 {
                texts.push(([one, other], with_flaws(&mut dice, &[one, other])));
            }
        }
    }
    texts
}

/// Mostly a short text, so that two flaws often fall on one line.
fn with_flaws(dice: &mut Dice, flaws: &[Flaw]) -> Vec<u8> {
    let few = dice.between(1, 3) as usize;
    let many = draw_lines(dice, 1);
    let lines = dice.pick(&[few, few, many, 8_100]);
    let mut text = draw_text(dice, lines);
    for &flaw in flaws {
        spoil(dice, &mut text, flaw);
    }
    text
}
