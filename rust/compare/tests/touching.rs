//! All 1,024 × 1,024 pairs of cells, linked on a plain unit and on a mirrored one: a pair is taken exactly where the
//! oracle says that the two touch, and every other is refused with 14 and changes nothing.

mod common;
use common::*;
use oracle::{touch, CELLS};

/// A tick for each pair, and a slide for each 16 ticks, so that old links leave the window.
fn every_pair_of_cells(mounting: u32) {
    let mut taken = 0;
    for first in 0..CELLS {
        let mut books = opened(settings(2, 16, mounting, 0));
        for second in 0..CELLS {
            let number = link(&mut books, second, first, second);
            assert_eq!(number, if touch(first, second) { 0 } else { 14 });
            taken += u32::from(number == 0);
        }
    }
    // 8 neighbours of each cell, and 5 of those in the first ring and in the last.
    assert_eq!(taken, 14 * 64 * 8 + 2 * 64 * 5);
}

#[test]
fn every_pair_of_cells_on_a_plain_unit() {
    every_pair_of_cells(1);
}

#[test]
fn every_pair_of_cells_on_a_mirrored_unit() {
    every_pair_of_cells(2);
}
