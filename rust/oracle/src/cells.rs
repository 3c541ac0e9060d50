//! "Cells and mounting".

use crate::refusal::{refuse_if, Refusal};

/// 16 rings.
pub const RINGS: u32 = 16;
/// Of 64 sectors.
pub const SECTORS: u32 = 64;
/// So 1,024 cells, 0 to 1023.
pub const CELLS: u32 = RINGS * SECTORS;

/// Mounting 1: the unit numbers cells as the lorry does.
pub const PLAIN: u32 = 1;
/// Mounting 2: sector s of the unit is sector (64 - s) mod 64 of the lorry.
pub const MIRRORED: u32 = 2;

/// Whether the number is one of a cell.
pub fn is_cell(number: u32) -> bool {
    number < CELLS
}

/// Number 3: a cell is 1024 or more.
pub(crate) fn both_are_cells(first: u32, second: u32) -> Result<(), Refusal> {
    refuse_if(!is_cell(first) || !is_cell(second), Refusal::Cell)
}

/// Sector s becomes sector (64 - s) mod 64, in the same ring: 0 stays, and any
/// other is as far before the ring's end as it was after its start.
pub fn mirrored(cell: u32) -> u32 {
    let (ring, sector) = (cell / SECTORS, cell % SECTORS);
    if sector == 0 {
        cell
    } else {
        SECTORS * (ring + 1) - sector
    }
}

/// The lorry's number of a cell that came in the unit's numbers.
pub fn in_lorrys_numbers(cell: u32, mounting: u32) -> u32 {
    if mounting == MIRRORED {
        mirrored(cell)
    } else {
        cell
    }
}

/// The cells that touch one: the rings next to its own, as far as there are, with
/// the sectors next to its own round the circle, and not the cell itself. So 8 of
/// them, or 5 in the first and the last ring.
pub fn touching_cells(cell: u32) -> impl Iterator<Item = u32> {
    let (ring, sector) = (cell / SECTORS, cell % SECTORS);
    let rings = ring.saturating_sub(1)..=(ring + 1).min(RINGS - 1);
    let beside = [SECTORS - 1, 0, 1].map(|more| (sector + more) % SECTORS);
    rings
        .flat_map(move |ring| beside.map(|sector| SECTORS * ring + sector))
        .filter(move |&other| other != cell)
}

/// Whether two cells touch.
pub fn touch(first: u32, second: u32) -> bool {
    touching_cells(first).any(|cell| cell == second)
}

/// Number 14: two cells that don't touch.
pub(crate) fn both_touch(first: u32, second: u32) -> Result<(), Refusal> {
    refuse_if(!touch(first, second), Refusal::Apart)
}

#[cfg(test)]
mod tests {
    use super::*;

    #[test]
    fn the_mirror_examples() {
        assert_eq!(mirrored(0), 0);
        assert_eq!(mirrored(64), 64);
        assert_eq!(mirrored(63), 1);
        assert_eq!(mirrored(1023), 961);
    }

    #[test]
    fn the_mirror_rule_at_every_cell() {
        for ring in 0..16 {
            for s in 0..64 {
                assert_eq!(mirrored(64 * ring + s), 64 * ring + (64 - s) % 64);
            }
        }
    }

    #[test]
    fn sectors_0_and_32_alone_mirror_to_themselves() {
        for cell in 0..CELLS {
            assert_eq!(mirrored(cell) == cell, [0, 32].contains(&(cell % 64)));
        }
    }

    #[test]
    fn mirroring_twice_changes_nothing() {
        for cell in 0..CELLS {
            assert!(is_cell(mirrored(cell)));
            assert_eq!(mirrored(mirrored(cell)), cell);
        }
    }

    #[test]
    fn only_mounting_2_mirrors() {
        assert_eq!(in_lorrys_numbers(5, PLAIN), 5);
        assert_eq!(in_lorrys_numbers(5, MIRRORED), 59);
    }

    #[test]
    fn rings_end_and_sectors_go_round() {
        assert!(touch(70, 71) && touch(70, 6) && touch(70, 133) && touch(70, 135));
        assert!(touch(0, 63) && touch(0, 127) && touch(63, 64));
        assert!(!touch(70, 70) && !touch(70, 72) && !touch(6, 134));
        assert!(!touch(0, 960) && !touch(5, 1023) && !touch(1023, 0));
    }

    /// The request's words, with the differences that it speaks of: different cells,
    /// rings that differ by at most 1, sectors that do round the circle.
    #[test]
    fn the_words_of_the_request_at_every_pair() {
        for a in 0..CELLS {
            for b in 0..CELLS {
                let rings = (a / SECTORS).abs_diff(b / SECTORS);
                let sectors = (a % SECTORS).abs_diff(b % SECTORS);
                let near = sectors <= 1 || sectors == 63;
                assert_eq!(touch(a, b), a != b && rings <= 1 && near);
            }
        }
    }

    #[test]
    fn touching_goes_both_ways_and_through_the_mirror() {
        for a in 0..CELLS {
            for b in 0..CELLS {
                assert_eq!(touch(a, b), touch(b, a));
                assert_eq!(touch(a, b), touch(mirrored(a), mirrored(b)));
            }
        }
    }

    #[test]
    fn a_cell_touches_8_others_and_at_the_edges_5() {
        for cell in 0..CELLS {
            let between_rings = (1..RINGS - 1).contains(&(cell / SECTORS));
            let cells = touching_cells(cell).count();
            assert_eq!(cells, if between_rings { 8 } else { 5 });
        }
    }

    #[test]
    fn there_are_1024_cells() {
        assert!(is_cell(0) && is_cell(1023));
        assert!(!is_cell(1024) && !is_cell(u32::MAX));
    }
}
