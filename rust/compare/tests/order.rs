//! "Order of checks": each call with every set of the faults that it can have,
//! and it gives the number of the first. [`Lockstep`] sees to the rest of a
//! refusal: the other fields are 0, the book, the log and lent buffers as before.
//!
//! [`Lockstep`]: compare::Lockstep

mod common;
use common::*;
use compare::Lockstep;
use oracle::{CHAIN_PLACES, LOG_PLACES, MASK_BYTES};
use streams::files::file_of;
use streams::{Answer, Call, LISTING_BYTES};

/// The number of the first fault, in the order of the checks.
fn first<const N: usize>(order: [u32; N], faults: [bool; N]) -> u32 {
    let mut both = order.iter().zip(faults);
    both.find(|of| of.1).map_or(0, |of| *of.0)
}

/// A book of slides of 10 ticks from tick 5 on, time 50, slide 4 full; or one
/// that was never opened.
fn book(never_opened: bool) -> Lockstep {
    if never_opened {
        return Lockstep::new();
    }
    let mut books = opened(settings(3, 10, 1, 5));
    for _ in 0..256 {
        assert_eq!(link(&mut books, 45, 1, 2), 0);
    }
    assert_eq!(clock(&mut books, 50), 0);
    books
}

fn log_places(short: bool) -> usize {
    LOG_PLACES - usize::from(short)
}

#[test]
fn opening_2_6() {
    for faults in all_sets() {
        let [bad_n, short] = faults;
        for never_opened in [true, false] {
            let call = Call::Opening {
                settings: settings(if bad_n { 17 } else { 16 }, 10, 1, 5),
                log_places: log_places(short),
            };
            let given = number(&mut book(never_opened), call);
            assert_eq!(given, first([2, 6], faults));
        }
    }
}

/// Half a turn of the counter after tick 50.
const HALF_A_TURN_ON: u32 = 50 + (1 << 31);

/// Number 4 by a tick that lies back, in the full slide or before it, and by one that
/// lies half a turn ahead.
#[test]
fn link_1_6_3_14_4_5() {
    for faults in all_sets() {
        let [never_opened, short, bad_cell, apart, early, full] = faults;
        let ticks = match (early, full) {
            (false, false) => vec![55],
            (false, true) => vec![54],
            (true, false) => vec![44, HALF_A_TURN_ON],
            (true, true) => vec![49],
        };
        for tick in ticks {
            let call = Call::Link {
                tick,
                a: if apart { 63 } else { 1022 },
                b: if bad_cell { 1024 } else { 1023 },
                log_places: log_places(short),
            };
            let given = number(&mut book(never_opened), call);
            assert_eq!(given, first([1, 6, 3, 14, 4, 5], faults));
        }
    }
}

/// Number 4 by a tick that lies back and by one that lies half a turn ahead.
#[test]
fn clock_1_6_4() {
    for faults in all_sets() {
        let [never_opened, short, early] = faults;
        let ticks = if early {
            vec![49, HALF_A_TURN_ON]
        } else {
            vec![50]
        };
        for tick in ticks {
            let call = Call::Clock {
                tick,
                log_places: log_places(short),
            };
            let given = number(&mut book(never_opened), call);
            assert_eq!(given, first([1, 6, 4], faults));
        }
    }
}

#[test]
fn joined_1_3() {
    for faults in all_sets() {
        let [never_opened, bad_cell] = faults;
        let cell = if bad_cell { 1024 } else { 1023 };
        let given = joined(&mut book(never_opened), cell, 7).0;
        assert_eq!(given, first([1, 3], faults));
    }
}

/// Number 6 by the log and by the chain buffer.
#[test]
fn chain_1_6_3_7() {
    for faults in all_sets() {
        let [never_opened, short_log, short_chain, bad_cell, no_trail] = faults;
        let call = Call::Chain {
            first: if no_trail { 9 } else { 1 },
            second: if bad_cell { 1024 } else { 2 },
            log_places: log_places(short_log),
            chain_places: CHAIN_PLACES - usize::from(short_chain),
        };
        let given = number(&mut book(never_opened), call);
        assert_eq!(given, first([1, 6, 6, 3, 7], faults));
    }
}

#[test]
fn logs_and_chain_buffers_of_every_kind_of_length() {
    for (places, expected) in [(0, 6), (1, 6), (16_383, 6), (16_384, 0), (16_385, 0)] {
        let call = Call::Chain {
            first: 1,
            second: 2,
            log_places: places,
            chain_places: CHAIN_PLACES,
        };
        assert_eq!(number(&mut book(false), call), expected);
    }
    for (places, expected) in [(0, 6), (1, 6), (1_023, 6), (1_024, 0), (1_025, 0)] {
        let call = Call::Chain {
            first: 1,
            second: 2,
            log_places: LOG_PLACES,
            chain_places: places,
        };
        assert_eq!(number(&mut book(false), call), expected);
    }
}

/// Number 15 by the mask's length and by a value in it.
#[test]
fn lamps_1_6_15() {
    for faults in all_sets() {
        let [never_opened, short_log, short_mask, value] = faults;
        let mut mask = vec![0; MASK_BYTES - usize::from(short_mask)];
        mask[1_000] = if value { 2 } else { 1 };
        let call = Call::Lamps {
            log_places: log_places(short_log),
            mask,
        };
        let given = number(&mut book(never_opened), call);
        assert_eq!(given, first([1, 6, 15, 15], faults));
    }
}

#[test]
fn masks_of_every_kind_of_length() {
    let mut books = book(false);
    for (bytes, expected) in [(0, 15), (1, 15), (1_023, 15), (1_024, 0), (1_025, 0)] {
        for value in [0, 1] {
            let number = lamps(&mut books, vec![value; bytes]).0;
            assert_eq!(number, expected, "{bytes} bytes {value}");
        }
    }
}

/// At every place that counts, and at some that do not.
#[test]
fn masks_with_every_value() {
    let mut books = book(false);
    for place in (0..MASK_BYTES).chain([1_024, 1_025, 2_047]) {
        let values: Vec<u8> = match place {
            0 | 1_023 | 1_024 => (0..=255).collect(),
            _ => vec![0, 1, 2, 255],
        };
        for value in values {
            let mut mask = vec![0; 2 * MASK_BYTES];
            mask[place] = value;
            let bad = value > 1 && place < MASK_BYTES;
            let number = lamps(&mut books, mask).0;
            assert_eq!(number, if bad { 15 } else { 0 }, "{value} at {place}");
        }
    }
}

/// A file of two records with these faults.
fn file_with([length, letters, offset, pad, n]: [bool; 5]) -> Vec<u8> {
    let mut file = file_of(settings(3, 10, 1, 5), &records(&[(5, 1, 2), (6, 3, 4)]));
    let end = file.len();
    file[end - 1] ^= u8::from(letters);
    file[end - 8] ^= u8::from(offset);
    file[end - 13] ^= u8::from(pad);
    if n {
        file[end - 16] = 17;
    }
    if length {
        file.insert(0, 0);
    }
    file
}

#[test]
fn reader_9_10_11_12_2() {
    for faults in all_sets() {
        let file = file_with(faults);
        let given = number(&mut Lockstep::new(), Call::Read { file });
        assert_eq!(given, first([9, 10, 11, 12, 2], faults));
    }
}

#[test]
fn writer_2_9_6() {
    for faults in all_sets() {
        let [mounting, length, short] = faults;
        let call = Call::Write {
            settings: settings(3, 10, if mounting { 0 } else { 1 }, 5),
            records: vec![1; if length { 15 } else { 16 }],
            output_bytes: if short { 10 } else { 45 },
        };
        let given = number(&mut Lockstep::new(), call);
        assert_eq!(given, first([2, 9, 6], faults));
    }
}

/// The listing's own number 6 comes before anything that its text could say.
#[test]
fn listing_6() {
    for file in [vec![], file_of(settings(3, 10, 1, 0), &records(&LISTING))] {
        for (output_bytes, short) in [
            (0, true),
            (LISTING_BYTES - 1, true),
            (LISTING_BYTES, false),
            (LISTING_BYTES + 1, false),
        ] {
            let call = Call::List {
                file: file.clone(),
                output_bytes,
            };
            let given = number(&mut Lockstep::new(), call);
            assert_eq!(given == 6, short);
        }
    }
}

#[test]
fn text_in_13_2_9_6() {
    for faults in all_sets() {
        let [bad_line, mounting, too_many, short] = faults;
        let mut text = b"1 2 3\n".repeat(if too_many { 8_001 } else { 2 });
        if bad_line {
            text.extend(b"4 5\n");
        }
        let call = Call::TextIn {
            settings: settings(3, 10, if mounting { 0 } else { 1 }, 5),
            text,
            output_bytes: if short { 39 } else { 64_040 },
        };
        let given = number(&mut Lockstep::new(), call);
        assert_eq!(given, first([13, 2, 9, 6], faults));
    }
}

#[test]
fn text_out_9_10_11_12_2_6() {
    let text = "1 2 5\n3 4 6\n";
    for faults in all_sets::<6>() {
        let [of_file @ .., short] = faults;
        let call = Call::TextOut {
            file: file_with(of_file),
            output_bytes: text.len() - usize::from(short),
        };
        let given = number(&mut Lockstep::new(), call);
        assert_eq!(given, first([9, 10, 11, 12, 2, 6], faults));
    }
}

/// 8,000 lines are taken and 8,001 are not; the lines past the 8,000th are judged.
#[test]
fn texts_of_8000_lines_and_more() {
    for (lines, end, expected) in [
        (8_000, "", (0, 0)),
        (8_001, "", (9, 0)),
        (7_999, "1 2\n", (13, 7_999)),
        (8_000, "1 2 3", (13, 8_000)),
        (8_000, "\n", (13, 8_000)),
        (8_001, "1 2 03\n1\n", (13, 8_001)),
        (100_000, "", (9, 0)),
        (100_000, "65536 2 3\n", (13, 100_000)),
    ] {
        let call = Call::TextIn {
            settings: settings(3, 10, 1, 5),
            text: ("1 2 3\n".repeat(lines) + end).into_bytes(),
            output_bytes: 64_024,
        };
        let given = match put(&mut Lockstep::new(), call) {
            Answer::TextIn { number, line, .. } => (number, line),
            other => unreachable!("{:?}", other),
        };
        assert_eq!(given, expected, "{lines} lines and {end:?}");
    }
}
