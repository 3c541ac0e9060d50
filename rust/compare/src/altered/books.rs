//! Altered books, drawn: most of them in range, so that calls get past number 1.

use super::ranges::*;
use crate::fields::settings_of;
use crate::library;
use crate::state::State;
use kerb::calls::{Clock, Fitting};
use kerb::RawBook;
use oracle::CELLS;
use streams::{draw_settings, Dice, Kind, Random, MOST_LOG_PLACES};

/// The kinds of altered books.
pub const KINDS: [&str; 6] = [
    "left by calls, changed",
    "in range",
    "all cells in one chain",
    "too deep or in a circle",
    "one field outside",
    "any bytes",
];

/// An altered book and its log.
#[derive(Clone, Debug)]
pub struct Altered {
    /// One of [`KINDS`].
    pub kind: &'static str,
    pub state: State,
    /// Cells that its forests and its log have to do with.
    pub cells: Vec<u32>,
}

/// Draws an altered book. Some are made from `left`, states that calls left.
pub fn draw(dice: &mut Dice, left: &[State]) -> Altered {
    match dice.below(20) {
        0..=3 => changed(dice, left),
        4..=12 => in_range(dice),
        13 => all_in_one_chain(dice),
        14 | 15 => too_deep(dice),
        16..=18 => one_field_outside(dice),
        _ => any_bytes(dice),
    }
}

/// States that the calls of random streams left, one from every 100 calls.
pub fn left_by_calls(seed: u64) -> Vec<State> {
    let mut left = Vec::new();
    for kind in [Kind::Few, Kind::All, Kind::Touching] {
        let mut state = State::with_new_log(RawBook::never_opened());
        for (place, call) in Random::new(seed, kind).take(4_000).enumerate() {
            library::ask(&mut state, &call);
            if place % 100 == 99 && state.book.clock.n != 0 {
                left.push(state.clone());
            }
        }
    }
    left
}

// A book that calls left, with something changed.

fn changed(dice: &mut Dice, left: &[State]) -> Altered {
    let some = |dice: &mut Dice| &left[dice.below(left.len() as u64) as usize];
    let mut state = some(dice).clone();
    if dice.one_in(4) {
        state.log.clone_from(&some(dice).log);
    }
    for _ in 0..dice.below(4) {
        change(dice, &mut state);
    }
    let mut cells: Vec<u32> = (0..12).map(|_| dice.cell()).collect();
    let entries = state.log.iter().filter(|&&entry| entry != 0);
    cells.extend(entries.map(|&entry| u32::from(entry) % CELLS).take(30));
    Altered {
        kind: "left by calls, changed",
        state,
        cells,
    }
}

/// One field gets another value of its range, or some of the log.
fn change(dice: &mut Dice, state: &mut State) {
    let book = &mut state.book;
    let cell = dice.cell() as usize;
    match dice.below(13) {
        0 => book.forward_parent[cell] = dice.cell() as u16,
        1 => book.forward_size[cell] = any_size(dice),
        2 => book.backward_parent[cell] = dice.cell() as u16,
        3 => book.backward_size[cell] = any_size(dice),
        4 => book.backward_label[cell] = dice.below(16) as u8,
        5 => book.counts[dice.below(32) as usize] = any_count(dice),
        6 => book.fitting.mounting = 3 - book.fitting.mounting,
        7 => book.clock.n = dice.between(1, 16) as u8,
        8 => book.clock.b = draw_settings(dice).b,
        9 => book.clock.total = draw_total(dice, settings_of(book)),
        10 => book.clock.t0 = dice.bits() as u32,
        11 => {
            book.clock.pad = draw_pad(dice);
            book.fitting.pad = draw_pad(dice);
        }
        _ => {
            for _ in 0..dice.between(1, 2_000) {
                let place = dice.below(MOST_LOG_PLACES as u64) as usize;
                state.log[place] = dice.bits() as u16 % 1_100;
            }
        }
    }
}

// Every field drawn from its range.

fn in_range(dice: &mut Dice) -> Altered {
    let cells = draw_cells(dice);
    let steps = dice.pick(&[1, 2, 2, 3, 4, 6, 9, 10]);
    let settings = draw_settings(dice);
    let forward_parent = trees(dice, &cells, steps);
    let backward_parent = trees(dice, &cells, steps);
    let book = RawBook {
        forward_size: draw_sizes(dice, &forward_parent),
        forward_parent,
        backward_size: draw_sizes(dice, &backward_parent),
        backward_parent,
        counts: draw_counts(dice),
        clock: Clock {
            total: draw_total(dice, settings),
            t0: settings.t0,
            b: settings.b,
            n: settings.n as u8,
            pad: draw_pad(dice),
        },
        backward_label: draw_labels(dice),
        fitting: Fitting {
            mounting: settings.mounting as u8,
            pad: draw_pad(dice),
        },
    };
    let log = draw_log(dice, &cells);
    Altered {
        kind: "in range",
        state: State { book, log },
        cells,
    }
}

/// Slides of 256 links each that lead through all cells, in any order, and then
/// again: the longest chain that a log can hold. In the first slides of chunk 0 the
/// window does not have all of it.
fn all_in_one_chain(dice: &mut Dice) -> Altered {
    let mut altered = in_range(dice);
    let cells = dice.shuffled_cells();
    let State { book, log } = &mut altered.state;
    book.clock.n = 16;
    book.counts = [256; 32];
    let links = cells.windows(2).cycle();
    for (pair, link) in log.chunks_exact_mut(2).zip(links) {
        pair.copy_from_slice(&[link[0] as u16, link[1] as u16]);
    }
    altered.kind = "all cells in one chain";
    altered.cells = vec![cells[0], cells[cells.len() - 1]];
    altered
}

// Fields in their ranges, and number 1 all the same.

/// A walk of 11 steps or more, or a circle, in one of the forests.
fn too_deep(dice: &mut Dice) -> Altered {
    let mut altered = in_range(dice);
    let mut cells = dice.shuffled_cells();
    let parents = if dice.one_in(2) {
        let steps = dice.pick(&[11, 11, 12, 20, 1_023]);
        cells.truncate(steps + dice.between(1, 20) as usize);
        trees(dice, &cells, steps)
    } else {
        let steps = dice.between(0, 4) as usize;
        let mut parents = trees(dice, &cells, steps);
        cells.truncate(dice.pick(&[2, 3, 5, 11, 1_024]));
        for (place, &cell) in cells.iter().enumerate() {
            parents[cell as usize] = cells[(place + 1) % cells.len()] as u16;
        }
        parents
    };
    let book = &mut altered.state.book;
    let (parent, size) = if dice.one_in(2) {
        (&mut book.forward_parent, &mut book.forward_size)
    } else {
        (&mut book.backward_parent, &mut book.backward_size)
    };
    *parent = parents;
    if dice.one_in(2) {
        *size = doubling_sizes(&parents);
    }
    altered.kind = "too deep or in a circle";
    altered.cells = cells;
    altered
}

// Fields outside their ranges.

/// One field of a book in range gets a value next to its range, or far off.
fn one_field_outside(dice: &mut Dice) -> Altered {
    let mut altered = in_range(dice);
    let book = &mut altered.state.book;
    let cell = dice.cell() as usize;
    match dice.below(10) {
        0 => book.clock.b = 0,
        1 => book.clock.total = draw_total_outside(dice),
        2 => book.clock.n = dice.pick(&[0, 17, 255]),
        3 => book.fitting.mounting = dice.pick(&[0, 3, 255]),
        4 => book.counts[dice.below(32) as usize] = dice.pick(&[257, 65_535]),
        5 => book.forward_parent[cell] = dice.pick(&[1024, 65_535]),
        6 => book.forward_size[cell] = dice.pick(&[0, 1025, 65_535]),
        7 => book.backward_parent[cell] = dice.pick(&[1024, 65_535]),
        8 => book.backward_size[cell] = dice.pick(&[0, 1025, 65_535]),
        _ => book.backward_label[cell] = dice.pick(&[16, 255]),
    }
    altered.kind = "one field outside";
    altered
}

fn any_bytes(dice: &mut Dice) -> Altered {
    let cells = draw_cells(dice);
    let mut any = || dice.bits() as u16;
    let book = RawBook {
        forward_parent: [0; 1024].map(|_| any()),
        forward_size: [0; 1024].map(|_| any()),
        backward_parent: [0; 1024].map(|_| any()),
        backward_size: [0; 1024].map(|_| any()),
        counts: [0; 32].map(|_| any()),
        backward_label: [0; 1024].map(|_| any() as u8),
        fitting: Fitting {
            mounting: any() as u8,
            pad: [0; 7].map(|_| any() as u8),
        },
        clock: Clock {
            n: any() as u8,
            pad: [0; 7].map(|_| any() as u8),
            t0: dice.bits() as u32,
            b: dice.bits() as u32,
            total: dice.bits(),
        },
    };
    let log = (0..MOST_LOG_PLACES).map(|_| dice.bits() as u16).collect();
    Altered {
        kind: "any bytes",
        state: State { book, log },
        cells,
    }
}
