//! Which classes a call with a text falls in, by what was asked and the oracle's
//! answer.

use crate::seen::number_row;
use crate::tally::{names, number, span, Spans, Tally, NUMBERS};
use oracle::{file_length, record, text_out, RECORD_BYTES, TAIL_BYTES};
use streams::texts::{Flaw, FLAWS};
use streams::{Answer, Call};

const LINES: &Spans = &[
    (0, "0"),
    (1, "1"),
    (2, "2 to 7,999"),
    (8_000, "8,000"),
    (8_001, "8,001"),
    (8_002, "more"),
];
/// The line of number 13, counted from 0.
const BAD_LINES: &Spans = &[
    (0, "the first"),
    (1, "up to the 8,000th"),
    (8_000, "past the 8,000th"),
];
const ROOMS: [&str; 5] = ["none", "less", "one byte less", "exact", "more"];
const ENDS: [&str; 5] = [
    "cell 0",
    "cell 1,024 and more",
    "cell 65,535",
    "tick 0",
    "tick 4,294,967,295",
];

/// The round trips there are.
pub const ROUND_TRIPS: [&str; 2] = ["text to file to text", "file to text to file"];

/// The row of a fault, which has it alone and with each later one; and what the
/// fault is called there.
pub type Fault = (&'static str, &'static str);

/// The faults of text in, in the order of its checks.
pub const TEXT_IN_FAULTS: [Fault; 4] = [
    ("text in, bad line", "bad line"),
    ("text in, bad settings", "bad settings"),
    ("text in, too many lines", "too many lines"),
    ("text in, short output", "short output"),
];

/// The faults of text out, in the order of its checks.
pub const TEXT_OUT_FAULTS: [Fault; 6] = [
    ("text out, length", "length"),
    ("text out, letters", "letters"),
    ("text out, offset or m", "offset or m"),
    ("text out, pad", "pad"),
    ("text out, settings", "settings"),
    ("text out, short output", "short output"),
];

/// The rows that the functions of this module fill.
pub fn tally() -> Tally {
    let flaws = FLAWS.map(Flaw::name).to_vec();
    let mut rows = vec![
        ("text in, number", vec!["0", "2", "6", "9", "13"]),
        (
            "text out, number",
            vec!["0", "2", "6", "9", "10", "11", "12"],
        ),
        ("text in, lines", names(LINES)),
        ("text in, the bad line", names(BAD_LINES)),
        ("text in, room", ROOMS.to_vec()),
        ("text out, room", ROOMS.to_vec()),
        ("digits of a cell", NUMBERS[1..=5].to_vec()),
        ("digits of a tick", NUMBERS[1..=10].to_vec()),
        ("a text with", ENDS.to_vec()),
        ("a flaw alone", flaws.clone()),
        ("the first of two flaws", flaws.clone()),
        ("the second of two flaws", flaws),
    ];
    for faults in [&TEXT_IN_FAULTS[..], &TEXT_OUT_FAULTS] {
        for (place, fault) in faults.iter().enumerate() {
            let later = faults[place + 1..].iter().map(|of| of.1);
            rows.push((fault.0, ["alone"].into_iter().chain(later).collect()));
        }
    }
    rows.push(("round trip", ROUND_TRIPS.to_vec()));
    let rows: Vec<_> = rows.iter().map(|of| (of.0, &of.1[..])).collect();
    Tally::of(&rows)
}

/// Counts a call of text in or of text out.
pub fn count(tally: &mut Tally, call: &Call, answer: &Answer) {
    tally.count(number_row(call), number(answer.number()));
    match (call, answer) {
        (
            Call::TextIn {
                text, output_bytes, ..
            },
            Answer::TextIn {
                number,
                length,
                line,
                output,
            },
        ) => {
            let lines = text.iter().filter(|&&byte| byte == b'\n').count();
            tally.count("text in, lines", span(LINES, lines as u64));
            if *number == 13 {
                tally.count("text in, the bad line", span(BAD_LINES, *line));
            }
            if [0, 6].contains(number) {
                let needed = file_length(lines);
                tally.count("text in, room", room(*output_bytes, needed));
            }
            if *number == 0 {
                count_records(tally, &output[..*length]);
            }
        }
        (Call::TextOut { file, output_bytes }, Answer::TextOut { number, .. }) => {
            if [0, 6].contains(number) {
                let needed = text_out(file, &mut [0; kerb::TEXT_BYTES]);
                let needed = needed.expect("an output for any text");
                tally.count("text out, room", room(*output_bytes, needed));
            }
            if *number == 0 {
                count_records(tally, file);
            }
        }
        _ => unreachable!("a call without a text"),
    }
}

/// The class of an output of so many bytes where so many are needed.
fn room(bytes: usize, needed: usize) -> &'static str {
    let place = match bytes {
        _ if bytes == needed => 3,
        _ if bytes > needed => 4,
        0 => 0,
        _ if bytes + 1 == needed => 2,
        _ => 1,
    };
    ROOMS[place]
}

/// Counts the numbers that a text has, each class once.
fn count_records(tally: &mut Tally, file: &[u8]) {
    let (mut of_cell, mut of_tick) = ([false; 11], [false; 11]);
    let mut ends = [false; ENDS.len()];
    let digits = |number: u32| number.checked_ilog10().unwrap_or(0) as usize + 1;
    for place in 0..(file.len() - TAIL_BYTES) / RECORD_BYTES {
        let of = record(file, place);
        for cell in [of.a, of.b] {
            of_cell[digits(u32::from(cell))] = true;
            ends[0] |= cell == 0;
            ends[1] |= u32::from(cell) >= oracle::CELLS;
            ends[2] |= cell == u16::MAX;
        }
        of_tick[digits(of.tick)] = true;
        ends[3] |= of.tick == 0;
        ends[4] |= of.tick == u32::MAX;
    }
    let mut count = |row, seen: &[bool], classes: &[&'static str]| {
        let both = classes.iter().zip(seen);
        both.filter(|of| *of.1)
            .for_each(|of| tally.count(row, of.0));
    };
    count("digits of a cell", &of_cell, &NUMBERS);
    count("digits of a tick", &of_tick, &NUMBERS);
    count("a text with", &ends, &ENDS);
}

/// Counts the faults of a call where it has one or two.
pub fn count_faults<const N: usize>(tally: &mut Tally, all: [Fault; N], had: [bool; N]) {
    let had: Vec<Fault> = all
        .into_iter()
        .zip(had)
        .filter(|of| of.1)
        .map(|of| of.0)
        .collect();
    match had[..] {
        [one] => tally.count(one.0, "alone"),
        [one, other] => tally.count(one.0, other.1),
        _ => {}
    }
}
