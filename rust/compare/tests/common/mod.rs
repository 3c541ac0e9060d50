//! Helpers of the named tests: short calls, put to the oracle and to the library
//! at once, with buffers that are long enough.
#![allow(dead_code)]

use compare::Lockstep;
use oracle::{Record, Settings, CHAIN_PLACES, LOG_PLACES};
use streams::{Answer, Call};

pub fn settings(n: u32, b: u32, mounting: u32, t0: u32) -> Settings {
    Settings { n, b, mounting, t0 }
}

/// What a call gives, and that the library and the oracle agree on it.
pub fn put(books: &mut Lockstep, call: Call) -> Answer {
    books
        .put(&call)
        .unwrap_or_else(|difference| panic!("{difference}"))
}

pub fn number(books: &mut Lockstep, call: Call) -> u32 {
    put(books, call).number()
}

pub fn opening(books: &mut Lockstep, settings: Settings) -> u32 {
    let log_places = LOG_PLACES;
    number(
        books,
        Call::Opening {
            settings,
            log_places,
        },
    )
}

pub fn opened(settings: Settings) -> Lockstep {
    let mut books = Lockstep::new();
    assert_eq!(opening(&mut books, settings), 0);
    books
}

pub fn link(books: &mut Lockstep, tick: u32, a: u32, b: u32) -> u32 {
    let log_places = LOG_PLACES;
    number(
        books,
        Call::Link {
            tick,
            a,
            b,
            log_places,
        },
    )
}

pub fn clock(books: &mut Lockstep, tick: u32) -> u32 {
    let log_places = LOG_PLACES;
    number(books, Call::Clock { tick, log_places })
}

/// (number, yes or no, steps).
pub fn joined(books: &mut Lockstep, first: u32, second: u32) -> (u32, bool, u32) {
    match put(books, Call::Joined { first, second }) {
        Answer::Joined {
            number,
            joined,
            steps,
        } => (number, joined, steps),
        other => unreachable!("{:?}", other),
    }
}

/// (number, L, hold, the cells of the chain).
pub fn chain(books: &mut Lockstep, first: u32, second: u32) -> (u32, u64, u32, Vec<u16>) {
    let call = Call::Chain {
        first,
        second,
        log_places: LOG_PLACES,
        chain_places: CHAIN_PLACES,
    };
    match put(books, call) {
        Answer::Chain {
            number,
            l,
            hold,
            cells,
            lent,
        } => (number, l, hold, lent[..cells as usize].to_vec()),
        other => unreachable!("{:?}", other),
    }
}

/// (number, the cell that lights the left lamp, the cell that lights the right one).
pub fn lamps(books: &mut Lockstep, mask: Vec<u8>) -> (u32, Option<u32>, Option<u32>) {
    let log_places = LOG_PLACES;
    match put(books, Call::Lamps { log_places, mask }) {
        Answer::Lamps {
            number,
            left,
            right,
            left_cell,
            right_cell,
        } => (
            number,
            left.then_some(left_cell),
            right.then_some(right_cell),
        ),
        other => unreachable!("{:?}", other),
    }
}

/// The text that kerblist prints for a file.
pub fn listing(file: &[u8]) -> String {
    let call = Call::List {
        file: file.to_vec(),
        output_bytes: streams::LISTING_BYTES,
    };
    match put(&mut Lockstep::new(), call) {
        Answer::List { length, output, .. } => {
            String::from_utf8(output[..length].to_vec()).unwrap()
        }
        other => unreachable!("{:?}", other),
    }
}

/// The records (tick, cell, cell) as a file's.
pub fn records(of: &[(u32, u16, u16)]) -> Vec<Record> {
    let record = |&(tick, a, b): &(u32, u16, u16)| Record { tick, a, b };
    of.iter().map(record).collect()
}

/// The records of the document's listing; its settings are 3, 10, 1, 0.
pub const LISTING: [(u32, u16, u16); 5] =
    [(0, 1, 2), (10, 2, 3), (20, 3, 4), (30, 5, 6), (45, 4, 5)];

/// The book of the document's listing.
pub fn listing_book() -> Lockstep {
    let mut books = opened(settings(3, 10, 1, 0));
    for (tick, a, b) in LISTING {
        assert_eq!(link(&mut books, tick, u32::from(a), u32::from(b)), 0);
    }
    books
}

/// Every choice of yes or no for so many faults.
pub fn all_sets<const N: usize>() -> Vec<[bool; N]> {
    let set = |bits: u32| {
        let mut faults = [false; N];
        for (place, fault) in faults.iter_mut().enumerate() {
            *fault = bits >> place & 1 == 1;
        }
        faults
    };
    (0..1 << N).map(set).collect()
}
