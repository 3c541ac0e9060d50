//! What the benchmark asks of the library and of everything that it is compared with.

use kerb::calls::{ChainAnswer, JoinedAnswer, LampsAnswer};
use kerb::{Mounting, Settings, CELLS};

/// A book of links, in one way or another. Each call gives the number of the table (RULES 7), 0 when it was done.
pub trait AnyBook {
    /// Whether it counts the steps of the four walks.
    const COUNTS_STEPS: bool;
    /// Whether it can say by which chain two cells are joined.
    const FINDS_CHAINS: bool;

    /// A book that was just opened; the settings are good ones.
    fn opened(settings: Settings) -> Self;

    /// A link, in the unit's numbers.
    fn link(&mut self, tick: u32, one: u16, other: u16) -> u8;

    /// The time moves to the tick.
    fn clock(&mut self, tick: u32) -> u8;

    fn joined(&mut self, one: u16, other: u16) -> JoinedAnswer;

    /// The chain goes to the front of the lent buffer.
    fn chain(&mut self, one: u16, other: u16, lent: &mut [u16]) -> ChainAnswer;

    /// The mask is in the lorry's numbers.
    fn lamps(&mut self, mask: &[u8]) -> LampsAnswer;
}

/// The lorry's number of a unit's cell, for the baselines: on a mirrored unit sector s is sector (64 - s) mod 64, in the same ring.
pub const fn lorry_cell(mounting: u8, cell: u16) -> u16 {
    if mounting != Mounting::Mirrored as u8 {
        return cell;
    }
    let sector = cell % 64;
    cell - sector + (64 - sector) % 64
}

/// Whether two cells touch, for the baselines: rings end, and sectors go round.
pub fn touch(one: u16, other: u16) -> bool {
    let rings = (one / 64).abs_diff(other / 64);
    let sectors = (one % 64).abs_diff(other % 64);
    one != other && rings <= 1 && (sectors <= 1 || sectors == 63)
}

/// The largest total of a book.
pub const MOST_TOTAL: u64 = i64::MAX as u64;

/// The total that a tick makes, for the baselines: none where it is half a turn of the counter or more ahead of the time, or where the
/// total has run out.
pub fn total_after(total: u64, time: u32, tick: u32) -> Option<u64> {
    let ticks = tick.wrapping_sub(time);
    let after = total + u64::from(ticks);
    (ticks < 1 << 31 && after <= MOST_TOTAL).then_some(after)
}

/// The answer of a refused joined call.
pub fn joined_refused(number: u8) -> JoinedAnswer {
    JoinedAnswer {
        number,
        yes: false,
        steps: 0,
    }
}

/// The answer of a refused chain call.
pub fn chain_refused(number: u8) -> ChainAnswer {
    ChainAnswer {
        newest: 0,
        cells: 0,
        hold: 0,
        number,
    }
}

/// The answer of a refused lamps call.
pub fn lamps_refused(number: u8) -> LampsAnswer {
    LampsAnswer {
        left_cell: 0,
        right_cell: 0,
        left: false,
        right: false,
        number,
    }
}

/// The mask's bytes of the cells, for the baselines; none where the mask is refused.
pub fn of_cells(mask: &[u8]) -> Option<&[u8; CELLS]> {
    let bytes = mask.first_chunk()?;
    let fine = bytes.iter().fold(true, |fine, &byte| fine & (byte <= 1));
    fine.then_some(bytes)
}

/// Rings of both zones, and the first sector of each with the one after its last.
const ZONE_RINGS: u16 = 6;
const LEFT: (u16, u16) = (33, 64);
const RIGHT: (u16, u16) = (1, 32);

/// The lamps, for the baselines, by whether a cell lights one.
pub fn lamps_by(mut lights: impl FnMut(u16) -> bool) -> LampsAnswer {
    let left = smallest(LEFT, &mut lights);
    let right = smallest(RIGHT, &mut lights);
    LampsAnswer {
        left_cell: left.unwrap_or(0),
        right_cell: right.unwrap_or(0),
        left: left.is_some(),
        right: right.is_some(),
        number: 0,
    }
}

/// The smallest cell of a zone that lights its lamp.
fn smallest((first, end): (u16, u16), mut lights: impl FnMut(u16) -> bool) -> Option<u16> {
    for ring in 0..ZONE_RINGS {
        for cell in 64 * ring + first..64 * ring + end {
            if lights(cell) {
                return Some(cell);
            }
        }
    }
    None
}

#[cfg(test)]
mod tests {
    use super::*;

    /// Every cell: the workloads need not have all.
    #[test]
    fn cells_are_mirrored_as_the_library_does() {
        for mounting in [Mounting::Plain, Mounting::Mirrored] {
            for cell in 0..CELLS as u16 {
                let ours = kerb::calls::lorry_cell(mounting.number(), cell);
                assert_eq!(lorry_cell(mounting.number(), cell), ours);
            }
        }
    }

    /// One cell that lights, and each cell once.
    #[test]
    fn zones_are_the_oracles() {
        for one in 0..CELLS as u16 {
            let lamps = lamps_by(|cell| cell == one);
            let side = oracle::zone_of(u32::from(one));
            assert_eq!(lamps.left, side == Some(oracle::Side::Left));
            assert_eq!(lamps.right, side == Some(oracle::Side::Right));
            let cell = if side.is_some() { one } else { 0 };
            assert_eq!(lamps.left_cell + lamps.right_cell, cell);
        }
        let all = lamps_by(|_| true);
        assert_eq!((all.left_cell, all.right_cell), (33, 1));
    }

    /// The workloads have good masks alone, so this is where it would show.
    #[test]
    fn masks_are_judged_as_the_library_does() {
        let settings = Settings {
            t0: 0,
            b: 10,
            n: 3,
            mounting: Mounting::Plain,
        };
        let book = kerb::Book::open(settings).expect("good settings");
        let mut dice = streams::Dice::new(1);
        for _ in 0..400 {
            let mask = streams::masks::draw_mask(&mut dice, &[]);
            assert_eq!(of_cells(&mask).is_some(), book.lamps(&mask).is_ok());
        }
    }

    /// No workload brings the total near its limit, so this is where it would show.
    #[test]
    fn ticks_make_the_oracles_totals() {
        let limit = MOST_TOTAL;
        for total in [0, 1, 7 << 32, limit - (1 << 31), limit - 1, limit] {
            for t0 in [0, 77, 1 << 31, u32::MAX] {
                let settings = oracle::Settings {
                    n: 3,
                    b: 10,
                    mounting: 1,
                    t0,
                };
                let history = oracle::History::at_total(settings, total.into());
                for ticks in [0, 1, 2, (1 << 31) - 1, 1 << 31, u32::MAX] {
                    let tick = history.time.wrapping_add(ticks);
                    let theirs = history.total_at(tick).ok();
                    let ours = total_after(total, history.time, tick);
                    assert_eq!(ours.map(u128::from), theirs);
                }
            }
        }
    }

    /// The workloads link touching cells alone, so this is where it would show.
    #[test]
    fn cells_touch_as_the_oracle_says() {
        for one in 0..CELLS as u16 {
            for other in 0..CELLS as u16 {
                let theirs = oracle::touch(u32::from(one), u32::from(other));
                assert_eq!(touch(one, other), theirs);
            }
        }
    }
}
