//! Cells that touch, by the oracle's rule. Links are drawn from these; only the
//! streams that are named for far links or for self links have others, which are
//! refused.

use crate::dice::Dice;
use oracle::{touch, touching_cells, CELLS, SECTORS};

/// Whether a link of the two is a far one: two different cells that do not touch.
pub fn far(a: u32, b: u32) -> bool {
    a != b && !touch(a, b)
}

/// One of the cells that touch one.
pub fn touching_cell(dice: &mut Dice, cell: u32) -> u32 {
    dice.pick(&touching_cells(cell).collect::<Vec<u32>>())
}

/// One of the cells of a patch that touch one of its cells.
pub fn touching_cell_of(dice: &mut Dice, patch: &[u32], cell: u32) -> u32 {
    let beside = patch.iter().copied().filter(|&other| touch(cell, other));
    dice.pick(&beside.collect::<Vec<u32>>())
}

/// A cell that lies far from one: any, or one that a slip in the rule would take for
/// a neighbour. By the number it is up to two rings and two sectors on or back, so
/// that it may lie beyond the last ring or beyond the end of its own.
pub fn far_cell(dice: &mut Dice, cell: u32) -> u32 {
    loop {
        let (rings, sectors) = (dice.below(5) as u32, dice.below(5) as u32);
        let on = CELLS + SECTORS * rings + sectors - 2 * SECTORS - 2;
        let other = if dice.one_in(2) {
            dice.cell()
        } else {
            (cell + on) % CELLS
        };
        if far(cell, other) {
            return other;
        }
    }
}

/// So many cells, grown from the first: each touches one that was there before.
pub fn patch(dice: &mut Dice, first: u32, size: usize) -> Vec<u32> {
    let mut patch = vec![first];
    while patch.len() < size {
        let from = dice.pick(&patch);
        let cell = touching_cell(dice, from);
        if !patch.contains(&cell) {
            patch.push(cell);
        }
    }
    patch
}

/// A path through all 1,024 cells, each of which touches the next. It starts as
/// the cells in the order of their numbers, which is such a path. Then, over and
/// over, one of its ends is put behind another cell that it touches, and the
/// cells between the two are passed the other way round.
pub fn path(dice: &mut Dice) -> Vec<u32> {
    let mut path: Vec<u32> = (0..CELLS).collect();
    for _ in 0..2 * CELLS {
        if dice.one_in(2) {
            path.reverse();
        }
        let before = touching_cell(dice, path[path.len() - 1]);
        let place = path.iter().position(|&cell| cell == before);
        let place = place.expect("a path through all cells");
        path[place + 1..].reverse();
    }
    path
}

#[cfg(test)]
mod tests {
    use super::*;
    use std::collections::BTreeSet;

    #[test]
    fn a_cell_and_itself_are_not_far() {
        assert!(far(70, 72) && !far(70, 70) && !far(70, 71));
    }

    #[test]
    fn paths_meet_every_cell_once_and_are_no_two_the_same() {
        let mut dice = Dice::new(1);
        let mut met = BTreeSet::new();
        for _ in 0..20 {
            let path = path(&mut dice);
            assert!(path.windows(2).all(|two| touch(two[0], two[1])));
            assert_eq!(path.iter().collect::<BTreeSet<_>>().len(), 1024);
            met.insert(path);
        }
        assert_eq!(met.len(), 20);
    }

    #[test]
    fn a_patch_hangs_together() {
        let mut dice = Dice::new(2);
        for first in [0, 63, 500, 960, 1023] {
            let patch = patch(&mut dice, first, 40);
            for (place, &cell) in patch.iter().enumerate().skip(1) {
                assert!(patch[..place].iter().any(|&other| touch(cell, other)));
                assert!(touch(cell, touching_cell_of(&mut dice, &patch, cell)));
                assert!(far(cell, far_cell(&mut dice, cell)));
            }
        }
    }
}
