//! The workloads, drawn from seeds. All links are of cells that touch.

use crate::script::{for_oracle, Script};
use crate::table::whole;
use crate::workload::{Calls, Pair, Workload};
use kerb::{LorryCell, Mounting};
use oracle::Record;
use streams::files::file_of;
use streams::Dice;

const RINGS: u16 = 16;
const SECTORS: u16 = 64;
/// Links that a slide takes.
const FULL: usize = 256;
/// Questions after a slide.
const QUESTIONS: usize = 32;

/// Random links of touching cells all over the ground, so many in each slide: in a full window nearly all cells are one group. Two
/// chunks fill up, two are timed; asked about are any two cells.
pub fn dense(n: u8, links: usize) -> Workload {
    let mut script = Script::opened(format!("dense, n {n}, {links} links a slide"), n);
    for slide in 0..4 * u32::from(n) {
        let timed = slide >= 2 * u32::from(n);
        let drawn = (0..links).map(|_| script.touching_pair()).collect();
        script.slide(slide, drawn, timed);
        if timed {
            let asked = (0..QUESTIONS).map(|_| script.any_pair()).collect();
            script.ask(asked);
        }
    }
    script.workload
}

/// A lidar-like sweep: ten things on the ground, most of them drifting, and links between neighbouring cells of a thing, sector by
/// sector, of which half get lost. Two chunks fill up; asked about are two cells of links.
pub fn lidar(n: u8, slides: u32) -> Workload {
    let mut script = Script::opened(format!("lidar, n {n}"), n);
    let mut things: Vec<Thing> = (0..10).map(|_| Thing::drawn(&mut script.dice)).collect();
    for slide in 0..slides {
        let timed = slide >= 2 * u32::from(n);
        let links = sweep(&things, &mut script.dice);
        script.slide(slide, links, timed);
        if timed {
            let asked = (0..QUESTIONS).map(|_| script.linked_pair()).collect();
            script.ask(asked);
        }
        for thing in &mut things {
            thing.drift(slide);
        }
    }
    script.workload
}

/// One chain through so many cells of a path, its links in any order over the slides of a window that lies across a chunk's end; asked
/// about are its ends.
pub fn long_chain(cells: usize) -> Workload {
    let n = 16;
    let links = whole((cells - 1) as f64);
    let mut script = Script::opened(format!("chain of {links} links, n {n}"), n);
    let cells = &script.path()[..cells];
    let mut links: Vec<Pair> = cells.windows(2).map(|two| (two[0], two[1])).collect();
    script.dice.shuffle(&mut links);
    script.spread(24, 16, &links);
    script.ask_ends(cells[0], cells[cells.len() - 1]);
    script.workload
}

/// A zigzag through so many cells of a path: pairs 2 3, 4 5, .. before a chunk's end and 1 2, 3 4, .. after it. From the first cell, which is
/// alone in the backward forest, the crossing goes from group to group, each inside the one before, one group more than there
/// are cells: no crossing over so many cells is deeper.
pub fn deep_crossing(cells: usize) -> Workload {
    let n = 4;
    let groups = whole((cells + 1) as f64);
    let mut script = Script::opened(format!("crossing of {groups} groups, n {n}"), n);
    let cells = &script.path()[..cells];
    let pairs = |from: usize| -> Vec<Pair> {
        let twos = cells[from..].chunks_exact(2);
        twos.map(|two| (two[0], two[1])).collect()
    };
    script.spread(6, 2, &pairs(1));
    script.spread(8, 2, &pairs(0));
    script.ask_ends(cells[0], cells[cells.len() - 1]);
    script.workload
}

/// A workload as a mirrored unit would send it: all that the lorry sees is the same. The links alone are timed; what else there is takes
/// no cell of the unit.
pub fn mirrored(mut workload: Workload) -> Workload {
    workload.name += ", mirrored";
    workload.settings.mounting = Mounting::Mirrored;
    for batch in &mut workload.batches {
        if let Calls::Links(_, pairs) = &mut batch.calls {
            for (one, other) in pairs {
                *one = of_mirrored_unit(*one);
                *other = of_mirrored_unit(*other);
            }
        } else {
            batch.kind = None;
        }
    }
    workload
}

fn of_mirrored_unit(cell: u16) -> u16 {
    LorryCell(cell).to_unit(Mounting::Mirrored).0
}

/// The first links of a workload as a link file.
pub fn file(workload: &Workload, m: usize) -> Vec<u8> {
    let mut records = Vec::new();
    for batch in &workload.batches {
        if let Calls::Links(tick, pairs) = &batch.calls {
            records.extend(pairs.iter().map(|&(a, b)| Record { tick: *tick, a, b }));
        }
    }
    assert!(m <= records.len(), "{} has too few links", workload.name);
    file_of(for_oracle(workload.settings), &records[..m])
}

/// Something on the ground: touching cells, some rings by some sectors.
struct Thing {
    ring: u16,
    sector: u16,
    rings: u16,
    sectors: u16,
    /// It moves on by a sector once in so many slides.
    pace: u32,
}

impl Thing {
    fn drawn(dice: &mut Dice) -> Thing {
        let rings = dice.between(2, 4) as u16;
        Thing {
            ring: dice.below(u64::from(RINGS - rings)) as u16,
            sector: dice.below(u64::from(SECTORS)) as u16,
            rings,
            sectors: dice.between(3, 8) as u16,
            pace: dice.between(1, 8) as u32,
        }
    }

    fn drift(&mut self, slide: u32) {
        if slide % self.pace == 0 {
            self.sector = (self.sector + 1) % SECTORS;
        }
    }

    fn covers(&self, ring: u16, sector: u16) -> bool {
        let away = (sector + SECTORS - self.sector) % SECTORS;
        self.ring <= ring && ring < self.ring + self.rings && away < self.sectors
    }
}

/// The links of one turn of the beam.
fn sweep(things: &[Thing], dice: &mut Dice) -> Vec<Pair> {
    let mut links = Vec::new();
    for sector in 0..SECTORS {
        for ring in 0..RINGS {
            for (ring_beside, sector_beside) in [(ring + 1, sector), (ring, (sector + 1) % SECTORS)]
            {
                let one_thing = things.iter().any(|thing| {
                    thing.covers(ring, sector) && thing.covers(ring_beside, sector_beside)
                });
                if one_thing && dice.one_in(2) {
                    links.push((cell(ring, sector), cell(ring_beside, sector_beside)));
                }
            }
        }
    }
    links.truncate(FULL);
    links
}

fn cell(ring: u16, sector: u16) -> u16 {
    SECTORS * ring + sector
}

#[cfg(test)]
mod tests {
    use super::*;
    use oracle::touch;

    #[test]
    fn all_links_are_of_cells_that_touch() {
        for workload in [
            lidar(8, 80),
            dense(16, 256),
            long_chain(1024),
            deep_crossing(1024),
        ] {
            for batch in &workload.batches {
                if let Calls::Links(_, pairs) = &batch.calls {
                    let mut pairs = pairs.iter();
                    assert!(pairs.all(|&(a, b)| touch(u32::from(a), u32::from(b))));
                }
            }
        }
    }
}
