//! The two lamps, and of a dark one what keeps it dark. Which lamp is lit, and by which cell, is the library's answer. For a dark one
//! the linked cells of its zone are looked through, by the library's groups and chains.

use crate::body;
use crate::recording::{Groups, Moment, Recording, Why};
use crate::trouble::Refused;
use kerb::LorryCell;

/// A side of the lorry: its lamp, and the zone that the lamp is for.
#[derive(Clone, Copy, Debug)]
pub enum Side {
    Left,
    Right,
}

impl Side {
    pub const BOTH: [Side; 2] = [Side::Left, Side::Right];

    pub fn name(self) -> &'static str {
        match self {
            Side::Left => "left",
            Side::Right => "right",
        }
    }

    /// Whether the zone has this cell (RULES 11.1).
    fn has(self, cell: LorryCell) -> bool {
        let sectors = match self {
            Side::Left => 33..=63,
            Side::Right => 1..=31,
        };
        cell.ring() <= 5 && sectors.contains(&cell.sector())
    }

    fn of(self, lamps: kerb::Lamps) -> Option<LorryCell> {
        match self {
            Side::Left => lamps.left,
            Side::Right => lamps.right,
        }
    }
}

pub enum Lamp {
    /// Lit, by the smallest cell that lights it.
    Lit(LorryCell),
    /// Dark, with the linked cells of its zone: those that are bodywork, and those that are tied to it.
    Dark {
        bodywork: Vec<LorryCell>,
        tied: Option<Box<Tied>>,
    },
}

/// Cells of a zone that are no bodywork, but joined with some.
pub struct Tied {
    pub cells: Vec<LorryCell>,
    /// Why the smallest of them is, by the chain that ties it to bodywork.
    pub why: Why,
    /// When the lamp is lit if nothing more is seen, and by which cell; none where it stays dark.
    pub lights: Option<(Moment, LorryCell)>,
}

/// The lamps of `Side::BOTH`.
pub fn lamps(recording: &Recording, body: &[u8]) -> Result<[Lamp; 2], Refused> {
    let lit = recording.lit(body)?;
    let groups = recording.groups()?;
    Ok(Side::BOTH.map(|side| match side.of(lit) {
        Some(cell) => Lamp::Lit(cell),
        None => dark(recording, body, side, &groups),
    }))
}

fn dark(recording: &Recording, body: &[u8], side: Side, groups: &Groups) -> Lamp {
    let all = groups.groups.iter().flat_map(|group| &group.cells);
    let mut linked: Vec<LorryCell> = all.copied().filter(|&cell| side.has(cell)).collect();
    linked.sort();
    let is_body = |cell: &LorryCell| body[usize::from(cell.0)] == 1;
    let (bodywork, cells): (Vec<_>, Vec<_>) = linked.into_iter().partition(is_body);
    let tied = cells.first().copied().map(|smallest| {
        let why = recording.why_any(smallest, body::cells(body));
        Box::new(Tied {
            why: why.expect("a linked cell of a dark zone is joined with bodywork"),
            lights: lights(recording, body, side),
            cells,
        })
    });
    Lamp::Dark { bodywork, tied }
}

/// The first slide, of those that are open while the window runs out, in which the lamp is lit if nothing more is seen.
fn lights(recording: &Recording, body: &[u8], side: Side) -> Option<(Moment, LorryCell)> {
    (1..recording.settings.n).find_map(|closings| {
        let later = recording.after(closings);
        let cell = side.of(later.lit(body).ok()?)?;
        Some((later.now(), cell))
    })
}

#[cfg(test)]
mod tests {
    use super::*;
    use crate::args::When;
    use crate::recording::tests::with_totals;
    use kerb::{Book, Mounting, Settings, UnitCell};
    use std::cmp::Reverse;
    use std::collections::BTreeSet;
    use streams::files::valid_file;
    use streams::Dice;

    /// One link in a book, for each cell those with the next and the last one, inwards and outwards: with no bodywork the smaller
    /// end that is in a zone lights its lamp.
    #[test]
    fn the_zones_are_those_of_the_library() {
        let settings = Settings {
            t0: 0,
            b: 10,
            n: 3,
            mounting: Mounting::Plain,
        };
        let mut seen = [0; 2];
        for one in 0..kerb::CELLS as u16 {
            for other in [one + 1, one + 64, one.wrapping_sub(1), one.wrapping_sub(64)] {
                let mut book = Book::open(settings).unwrap();
                if book.link(0, UnitCell(one), UnitCell(other)).is_err() {
                    continue; // no cell, or none that touches
                }
                let lamps = book.lamps(&body::nothing()).unwrap();
                for (side, seen) in Side::BOTH.into_iter().zip(&mut seen) {
                    let ends = [one, other].map(LorryCell);
                    let smallest = ends.into_iter().filter(|&cell| side.has(cell)).min();
                    assert_eq!(side.of(lamps), smallest, "{side:?}, {one} and {other}");
                    *seen += u32::from(smallest.is_some());
                }
            }
        }
        assert!(seen.iter().all(|&seen| seen > 700), "{seen:?}");
    }

    /// A mask with cells of most groups, and some others.
    fn draw_mask(dice: &mut Dice, groups: &Groups) -> Vec<u8> {
        let mut mask = body::nothing();
        for group in &groups.groups {
            let none = dice.one_in(8);
            for _ in 0..if none { 0 } else { dice.between(1, 4) } {
                mask[usize::from(dice.pick(&group.cells).0)] = 1;
            }
        }
        while dice.one_in(2) {
            mask[dice.below(kerb::CELLS as u64) as usize] = 1;
        }
        mask
    }

    /// The total at the first tick of a slide, by the arithmetic of the rules.
    fn first_total(settings: Settings, slide: u64) -> u64 {
        slide * u64::from(settings.b)
    }

    /// The cells that are an end of a link of the window, by all records of the file and the window's first total.
    fn linked(file: &[u8], recording: &Recording) -> BTreeSet<LorryCell> {
        let settings = recording.settings;
        let window = (recording.now().slide + 1).saturating_sub(settings.n.into());
        let records = with_totals(file).into_iter();
        let of_window = records.filter(|&(_, total)| total >= first_total(settings, window));
        let ends = of_window.flat_map(|(record, _)| [record.one, record.other]);
        ends.map(|cell| cell.to_lorry(settings.mounting)).collect()
    }

    /// The chain from a cell to the bodywork, by those to all cells of it.
    fn best_chain(recording: &Recording, mask: &[u8], cell: LorryCell) -> Vec<LorryCell> {
        let all = body::cells(mask).filter_map(|of| recording.why(cell, of).unwrap());
        let best = all.map(|why| (Reverse(why.hold), why.links.len(), why.chain));
        best.min().expect("it is joined with bodywork").2
    }

    /// When the lamp comes on, by the recording as it is at the first total of each later slide.
    fn comes_on(file: &[u8], mask: &[u8], side: Side) -> Option<(u64, LorryCell)> {
        let recording = Recording::played(file, When::AtTheEnd).unwrap();
        // after n closings the window has nothing of the recording
        (1..=recording.settings.n).find_map(|closings| {
            let slide = recording.now().slide + u64::from(closings);
            let total = first_total(recording.settings, slide);
            let then = Recording::played(file, When::Total(total)).unwrap();
            Some((total, side.of(then.lit(mask).unwrap())?))
        })
    }

    /// Drawn recordings and masks: all linked cells of a dark zone are told, and those that are no bodywork are joined with some; the
    /// chain is the best there is; and the lamp comes on when it is said to.
    #[test]
    fn what_keeps_a_lamp_dark_is_what_the_book_says() {
        let mut dice = Dice::new(18);
        let (mut lit, mut dark, mut long, mut coming_on) = (0, 0, 0, 0);
        for _ in 0..300 {
            let file = valid_file(&mut dice);
            let recording = Recording::played(&file, When::AtTheEnd).unwrap();
            let mask = draw_mask(&mut dice, &recording.groups().unwrap());
            let both = lamps(&recording, &mask).unwrap();
            for (side, lamp) in Side::BOTH.into_iter().zip(both) {
                let Lamp::Dark { bodywork, tied } = lamp else {
                    lit += 1;
                    continue;
                };
                let tied_cells = tied.as_ref().map_or(&[][..], |tied| &tied.cells);
                let told = BTreeSet::from_iter([&bodywork[..], tied_cells].concat());
                let mut linked = linked(&file, &recording);
                linked.retain(|&cell| side.has(cell));
                assert_eq!(told, linked);
                let Some(tied) = tied else { continue };
                for &cell in &tied.cells {
                    assert!(best_chain(&recording, &mask, cell).len() > 1);
                }
                let smallest = tied.cells[0];
                assert_eq!(tied.why.chain, best_chain(&recording, &mask, smallest));
                let lights = tied.lights.map(|(at, cell)| (at.total, cell));
                assert_eq!(lights, comes_on(&file, &mask, side));
                dark += 1;
                long += u32::from(tied.why.chain.len() > 2);
                coming_on += u32::from(lights.is_some());
            }
        }
        let seen = [lit, dark, long, coming_on];
        assert!(seen.iter().all(|&times| times > 5), "{seen:?}");
    }
}
