//! Calls put to the proved library. The answers are those of the streams, so
//! that they can be compared with the oracle's by `==`.

use crate::state::State;
use kerb::{calls, RawBook};
use oracle::Settings;
use streams::{lent_bytes, lent_places, Answer, Call};

/// Puts a call to the library; the state becomes what the call gives back.
pub fn ask(state: &mut State, call: &Call) -> Answer {
    match call {
        Call::Opening {
            settings,
            log_places,
        } => {
            let log = &mut state.log[..*log_places];
            answered(calls::opening(&mut state.book, log, narrow(*settings)))
        }
        Call::Link {
            tick,
            a,
            b,
            log_places,
        } => {
            let log = &mut state.log[..*log_places];
            let (one, other) = (*a as u16, *b as u16);
            answered(calls::link(&mut state.book, log, *tick, one, other))
        }
        Call::Clock { tick, log_places } => {
            let log = &state.log[..*log_places];
            answered(calls::clock(&mut state.book, log, *tick))
        }
        Call::Joined { first, second } => ask_joined(state, *first, *second),
        Call::Chain {
            first,
            second,
            log_places,
            chain_places,
        } => ask_chain(state, *first, *second, *log_places, *chain_places),
        Call::Lamps { log_places, mask } => ask_lamps(state, *log_places, mask),
        Call::Read { file } => ask_read(file),
        Call::Write {
            settings,
            records,
            output_bytes,
        } => ask_write(*settings, records, *output_bytes),
        Call::List { file, output_bytes } => ask_list(file, *output_bytes),
        Call::TextIn {
            settings,
            text,
            output_bytes,
        } => ask_text_in(*settings, text, *output_bytes),
        Call::TextOut { file, output_bytes } => ask_text_out(file, *output_bytes),
    }
}

/// What a book's clock tells: the time and the open slide. Both are 0 for a book that
/// was never opened.
#[derive(Clone, Copy, Debug, Default, PartialEq, Eq)]
pub struct Told {
    pub time: u32,
    pub open_slide: u64,
}

/// Asks the library for the time and the open slide.
pub fn told(book: &RawBook) -> Told {
    Told {
        time: calls::time(book),
        open_slide: calls::open_slide(book),
    }
}

/// The library's widths; the streams keep to them.
fn narrow(settings: Settings) -> calls::Settings {
    calls::Settings {
        t0: settings.t0,
        b: settings.b,
        n: settings.n as u8,
        mounting: settings.mounting as u8,
    }
}

fn answered(number: u8) -> Answer {
    Answer::Number {
        number: u32::from(number),
    }
}

fn ask_joined(state: &State, first: u32, second: u32) -> Answer {
    let answer = calls::joined(&state.book, first as u16, second as u16);
    Answer::Joined {
        number: u32::from(answer.number),
        joined: answer.yes,
        steps: u32::from(answer.steps),
    }
}

fn ask_chain(
    state: &State,
    first: u32,
    second: u32,
    log_places: usize,
    chain_places: usize,
) -> Answer {
    let log = &state.log[..log_places];
    let mut lent = lent_places(chain_places);
    let answer = calls::chain(&state.book, log, first as u16, second as u16, &mut lent);
    Answer::Chain {
        number: u32::from(answer.number),
        l: answer.newest,
        hold: u32::from(answer.hold),
        cells: u32::from(answer.cells),
        lent,
    }
}

fn ask_lamps(state: &State, log_places: usize, mask: &[u8]) -> Answer {
    let answer = calls::lamps(&state.book, &state.log[..log_places], mask);
    Answer::Lamps {
        number: u32::from(answer.number),
        left: answer.left,
        right: answer.right,
        left_cell: u32::from(answer.left_cell),
        right_cell: u32::from(answer.right_cell),
    }
}

fn ask_read(file: &[u8]) -> Answer {
    let reading = calls::read(file);
    Answer::Read {
        number: u32::from(reading.number),
        settings: Settings {
            n: u32::from(reading.settings.n),
            b: reading.settings.b,
            mounting: u32::from(reading.settings.mounting),
            t0: reading.settings.t0,
        },
        m: reading.m,
    }
}

fn ask_write(settings: Settings, records: &[u8], bytes: usize) -> Answer {
    let mut output = lent_bytes(bytes);
    let number = u32::from(calls::write(narrow(settings), records, &mut output));
    Answer::Write { number, output }
}

fn ask_list(file: &[u8], bytes: usize) -> Answer {
    let mut output = lent_bytes(bytes);
    let listed = calls::list(file, &mut output);
    Answer::List {
        number: u32::from(listed.number),
        length: listed.length,
        output,
    }
}

fn ask_text_in(settings: Settings, text: &[u8], bytes: usize) -> Answer {
    let mut output = lent_bytes(bytes);
    let answer = calls::text_in(narrow(settings), text, &mut output);
    Answer::TextIn {
        number: u32::from(answer.number),
        length: answer.length,
        line: answer.line,
        output,
    }
}

fn ask_text_out(file: &[u8], bytes: usize) -> Answer {
    let mut output = lent_bytes(bytes);
    let answer = calls::text_out(file, &mut output);
    Answer::TextOut {
        number: u32::from(answer.number),
        length: answer.length,
        output,
    }
}
