//! The call lorry_cell on a mirrored unit: the library, plain Rust that works the number out as well, and plain Rust that takes it from a
//! table. A call takes a nanosecond or two, so whether it is a call counts: the baselines are timed as functions that are called, as the
//! library's is, and the first of them also where the compiler puts it in line.

use crate::any_book::lorry_cell;
use crate::clocks::taken;
use kerb::{Mounting, CELLS};
use std::hint::black_box;

const MIRRORED: u8 = Mounting::Mirrored as u8;

/// Everyone's name, the library first, and what the cells of all passes take.
type Contender = (&'static str, fn(&mut [u16]) -> u64);

const CONTENDERS: [Contender; 4] = [
    ("library", |out| passes(kerb::calls::lorry_cell, out)),
    ("(a)", |out| passes(called, out)),
    ("(a), in line", |out| passes(lorry_cell, out)),
    ("from a table", |out| passes(looked_up, out)),
];

/// (a) as a call.
#[inline(never)]
fn called(mounting: u8, cell: u16) -> u16 {
    lorry_cell(mounting, cell)
}

/// The mirrored numbers, made by the compiler.
static TABLE: [u16; CELLS] = {
    let mut table = [0; CELLS];
    let mut cell = 0;
    while cell < CELLS {
        table[cell] = lorry_cell(MIRRORED, cell as u16);
        cell += 1;
    }
    table
};

#[inline(never)]
fn looked_up(mounting: u8, cell: u16) -> u16 {
    if mounting != MIRRORED {
        return cell;
    }
    TABLE.get(usize::from(cell)).copied().unwrap_or(cell)
}

/// Passes over all cells that are timed together, so that the clock itself hardly counts.
const PASSES: usize = 16;

fn passes(call: impl Fn(u8, u16) -> u16, out: &mut [u16]) -> u64 {
    taken(|| {
        for _ in 0..PASSES {
            for (cell, out) in (0..).zip(&mut *out) {
                *out = black_box(call(black_box(MIRRORED), black_box(cell)));
            }
        }
    })
}

/// Rounds in which all take turns.
const ROUNDS: usize = 2_000;

/// Nanoseconds a call, for everyone the least of all rounds.
pub fn times() -> Vec<(&'static str, f64)> {
    let mut least = [u64::MAX; CONTENDERS.len()];
    for _ in 0..ROUNDS {
        take_turns(&mut least);
    }
    let calls = (PASSES * CELLS) as f64;
    let times = CONTENDERS.iter().zip(least);
    times
        .map(|((name, _), least)| (*name, least as f64 / calls))
        .collect()
}

/// Everyone makes the calls. Stops where someone's numbers are not the library's.
fn take_turns(least: &mut [u64; CONTENDERS.len()]) {
    let (mut expected, mut out) = ([0; CELLS], [0; CELLS]);
    CONTENDERS[0].1(&mut expected);
    for ((name, passes), least) in CONTENDERS.iter().zip(least) {
        *least = passes(&mut out).min(*least);
        assert!(out == expected, "{name} has not the library's cells");
    }
}

#[cfg(test)]
mod tests {
    use super::*;

    #[test]
    fn all_have_the_cells_of_the_library() {
        take_turns(&mut [0; CONTENDERS.len()]);
    }
}
