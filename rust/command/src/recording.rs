//! A recording played into a book, and what is asked of it. Every answer is the library's; what is worked out here is which record is
//! the first that comes after the moment asked about.

use crate::args::When;
use crate::trouble::{About, Refused};
use kerb::{Book, LorryCell, Record, Refusal, Settings, SlideTicks};
use std::cmp::Reverse;

/// How far ahead of the book's time a tick may be, as the counter goes.
pub const REACH: u32 = 2_147_483_647;

#[derive(Clone)]
pub struct Recording {
    book: Book,
    pub settings: Settings,
    played: Vec<Played>,
}

/// A record, and the moment that it made: its tick alone does not tell its slide.
#[derive(Clone, Copy)]
struct Played {
    record: Record,
    at: Moment,
}

/// A moment of the book: its time, the total, and the open slide.
#[derive(Clone, Copy)]
pub struct Moment {
    pub tick: u32,
    pub total: u64,
    pub slide: u64,
}

/// A link of a chain, and when it was seen last.
pub struct Seen {
    pub one: LorryCell,
    pub other: LorryCell,
    pub last: Moment,
}

/// Why two cells are joined.
pub struct Why {
    pub chain: Vec<LorryCell>,
    /// The links between neighbours of the chain.
    pub links: Vec<Seen>,
    /// L, and what it has of time.
    pub newest: u64,
    pub newest_ticks: SlideTicks,
    pub hold: u8,
    /// The last moment at which the two are still joined if nothing more is seen; none for a cell and itself, which never part.
    pub until: Option<Moment>,
}

impl Why {
    /// The two cells: the first of the chain, and the last.
    pub fn ends(&self) -> (LorryCell, LorryCell) {
        (self.chain[0], self.chain[self.chain.len() - 1])
    }
}

/// A group of two cells or more.
pub struct Group {
    pub cells: Vec<LorryCell>,
    pub hold: u8,
    /// The last moment at which all of them are still together if nothing more is seen.
    pub until: Moment,
}

pub struct Groups {
    pub groups: Vec<Group>,
    pub links: u32,
}

impl Recording {
    /// The file played into a book of its settings, record by record, up to the first that comes after what is asked about; and
    /// then the time moves there.
    pub fn played(file: &[u8], when: When) -> Result<Recording, Refused> {
        let in_file = Refused::of(About::File);
        let (settings, m) = kerb::read(file).map_err(&in_file)?;
        let mut recording = Recording {
            book: Book::open(settings).map_err(&in_file)?,
            settings,
            played: Vec::new(),
        };
        let asked = match when {
            When::AtTheEnd => u64::MAX,
            When::Tick(tick) => tick.wrapping_sub(settings.t0).into(),
            When::Total(total) => total,
        };
        for place in 0..m {
            let record = kerb::unpack(file, place).map_err(&in_file)?;
            if recording.comes_after(record.tick, asked) {
                break;
            }
            let Record { tick, one, other } = record;
            let at_record = Refused::of(About::Record(place, [one, other]));
            recording.book.link(tick, one, other).map_err(at_record)?;
            let at = recording.now();
            recording.played.push(Played { record, at });
        }
        match when {
            When::AtTheEnd => (),
            When::Tick(tick) => {
                let moved = recording.book.clock(tick);
                moved.map_err(Refused::of(About::Tick(tick)))?;
            }
            When::Total(total) => recording.move_to(total),
        }
        Ok(recording)
    }

    /// Whether the next record, which has this tick, makes a larger total. One before the book's time makes none: it is played, and
    /// refused.
    fn comes_after(&self, tick: u32, total: u64) -> bool {
        let ahead = tick.wrapping_sub(self.book.time());
        ahead <= REACH && self.book.total() + u64::from(ahead) > total
    }

    /// The time moves until the total is this one, by as many clock calls as it takes.
    fn move_to(&mut self, total: u64) {
        while self.book.total() < total {
            let left = total - self.book.total();
            let step = u32::try_from(left).map_or(REACH, |left| left.min(REACH));
            let moved = self.book.clock(self.book.time().wrapping_add(step));
            moved.expect("a tick within reach, and a total below the limit");
        }
    }

    /// Now, for the book.
    pub fn now(&self) -> Moment {
        Moment {
            tick: self.book.time(),
            total: self.book.total(),
            slide: self.book.open_slide(),
        }
    }

    /// Why two cells are joined; none where nothing in the window ties them.
    pub fn why(&self, one: LorryCell, other: LorryCell) -> Result<Option<Why>, Refused> {
        let asked = self.book.why(one, other);
        if asked == Err(Refusal::NoTrail) {
            return Ok(None);
        }
        let (answer, chain) = asked.map_err(Refused::of(About::CommandLine))?;
        Ok(Some(self.told(answer, chain)))
    }

    /// Why a cell is joined with one of these; none where it is with none. The chain is chosen as that of two cells is (RULES 5): by
    /// the newest L, then the fewest links, then the first cell numbers. So no other of them stays joined with the cell for longer.
    pub fn why_any(&self, cell: LorryCell, these: impl Iterator<Item = LorryCell>) -> Option<Why> {
        let asked = these.filter_map(|other| self.book.why(cell, other).ok());
        let (answer, chain) = asked
            .min_by_key(|(answer, chain)| (Reverse(answer.newest), chain.len(), chain.clone()))?;
        Some(self.told(answer, chain))
    }

    /// What the library says of a chain, with when each of its links was seen.
    fn told(&self, answer: kerb::Chain, chain: Vec<LorryCell>) -> Why {
        let neighbours = chain.windows(2);
        let parts = chain.len() > 1;
        Why {
            links: neighbours.map(|two| self.seen(two[0], two[1])).collect(),
            chain,
            newest: answer.newest,
            newest_ticks: self.ticks_of(answer.newest),
            hold: answer.hold,
            until: parts.then(|| self.last_moment_after(answer.hold)),
        }
    }

    /// Which lamps are lit with this bodywork, and by which cells.
    pub fn lit(&self, body: &[u8]) -> Result<kerb::Lamps, Refused> {
        let lamps = self.book.lamps(body);
        lamps.map_err(Refused::of(About::CommandLine))
    }

    /// As it is after so many closings, 1 or more, if nothing more is seen.
    pub fn after(&self, closings: u8) -> Recording {
        let slide = self.book.open_slide() + u64::from(closings);
        let mut later = self.clone();
        later.move_to(self.ticks_of(slide).first_total);
        later
    }

    pub fn groups(&self) -> Result<Groups, Refused> {
        let found = self.book.groups().map_err(Refused::of(About::File))?;
        let cells_from = |first| {
            let all = (0..kerb::CELLS as u16).map(LorryCell);
            all.filter(|&cell| found.of(cell).is_some_and(|group| group.first == first))
                .collect()
        };
        let groups = found.iter().map(|group| Group {
            cells: cells_from(group.first),
            hold: group.hold,
            until: self.last_moment_after(group.hold),
        });
        Ok(Groups {
            groups: groups.collect(),
            links: found.links(),
        })
    }

    /// The newest record of a link of a chain.
    fn seen(&self, one: LorryCell, other: LorryCell) -> Seen {
        let mounting = self.settings.mounting;
        let of_both = |played: &&Played| {
            let ends = [played.record.one, played.record.other];
            let cells = ends.map(|cell| cell.to_lorry(mounting));
            cells == [one, other] || cells == [other, one]
        };
        let newest = self.played.iter().rev().find(of_both);
        let last = newest.expect("each link of a chain was played").at;
        Seen { one, other, last }
    }

    /// The last moment of the slide that is open after so many closings.
    fn last_moment_after(&self, closings: u8) -> Moment {
        let slide = self.book.open_slide() + u64::from(closings);
        let ticks = self.ticks_of(slide);
        Moment {
            tick: ticks.last,
            total: ticks.last_total,
            slide,
        }
    }

    /// What a slide of the window, or of those that are open while it runs out, has of time.
    fn ticks_of(&self, slide: u64) -> SlideTicks {
        let ticks = self.book.slide_ticks(slide);
        ticks.expect("no recording and no --total comes near the end of totals")
    }
}

#[cfg(test)]
pub mod tests {
    use super::*;
    use streams::files::valid_file;
    use streams::Dice;

    /// The records of a file that plays to its end, each with the total that it makes, by the arithmetic of the rules.
    pub fn with_totals(file: &[u8]) -> Vec<(Record, u64)> {
        let (settings, m) = kerb::read(file).unwrap();
        let (mut time, mut total) = (settings.t0, 0);
        let made = (0..m).map(|i| {
            let record = kerb::unpack(file, i).unwrap();
            total += u64::from(record.tick.wrapping_sub(time));
            time = record.tick;
            (record, total)
        });
        made.collect()
    }

    /// The newest record that links these two cells, by all records of the file: its tick, its total and its slide.
    fn newest(file: &[u8], one: LorryCell, other: LorryCell) -> Option<(u32, u64, u64)> {
        let (settings, _) = kerb::read(file).unwrap();
        let records = with_totals(file).into_iter();
        let of_both = records.filter(|(record, _)| {
            let [a, b] = [record.one, record.other].map(|cell| cell.to_lorry(settings.mounting));
            (a, b) == (one, other) || (b, a) == (one, other)
        });
        let moments =
            of_both.map(|(record, total)| (record.tick, total, total / u64::from(settings.b)));
        moments.max_by_key(|&(_, total, _)| total)
    }

    /// Drawn recordings: each cell of a group and the group's first one. Each link stands between neighbours of the chain, in the
    /// newest slide that has it, and none is older than L.
    #[test]
    fn each_link_of_a_chain_is_told_with_its_newest_slide() {
        let mut dice = Dice::new(5);
        let (mut older, mut links) = (0, 0);
        for _ in 0..20 {
            let file = valid_file(&mut dice);
            let recording = Recording::played(&file, When::AtTheEnd).unwrap();
            for group in recording.groups().unwrap().groups {
                for &cell in &group.cells[1..] {
                    let why = recording.why(group.cells[0], cell).unwrap().unwrap();
                    let ends: Vec<_> = why
                        .links
                        .iter()
                        .map(|link| [link.one, link.other])
                        .collect();
                    let neighbours: Vec<_> =
                        why.chain.windows(2).map(|two| [two[0], two[1]]).collect();
                    assert_eq!(ends, neighbours);
                    for link in why.links {
                        let last = (link.last.tick, link.last.total, link.last.slide);
                        assert_eq!(Some(last), newest(&file, link.one, link.other));
                        assert!(link.last.slide >= why.newest);
                        older += u32::from(link.last.slide < recording.now().slide);
                        links += 1;
                    }
                }
            }
        }
        assert!(
            older > 100 && links > 2 * older,
            "{older} of {links} are older than the open slide"
        );
    }

    /// The book of all records up to a total, as a file of their own, and the clock moved on from the last of them.
    fn book_at(file: &[u8], total: u64) -> Book {
        let (settings, _) = kerb::read(file).unwrap();
        let records = with_totals(file);
        let taken = records.iter().filter(|(_, made)| *made <= total).count();
        let mut part = vec![0; kerb::RECORD_BYTES * taken + kerb::ENDING_BYTES];
        kerb::write(settings, &file[..kerb::RECORD_BYTES * taken], &mut part).unwrap();
        let mut book = Book::of_file(&part).unwrap();
        // 2^30 ticks at a time, and the rest
        let left = total - records[..taken].last().map_or(0, |(_, made)| *made);
        for _ in 0..left >> 30 {
            book.clock(book.time().wrapping_add(1 << 30)).unwrap();
        }
        let rest = (left % (1 << 30)) as u32;
        book.clock(book.time().wrapping_add(rest)).unwrap();
        book
    }

    /// Drawn recordings, at the total of a record, one before it, as far ahead of it as a call reaches and one further, and others. A
    /// tick is the first moment at which the counter stands there; where the time cannot reach it in one call it is refused.
    #[test]
    fn at_a_moment_the_book_is_that_of_the_records_up_to_it() {
        let mut dice = Dice::new(7);
        let (mut within, mut after_a_turn, mut refused) = (0, 0, 0);
        for _ in 0..40 {
            let file = valid_file(&mut dice);
            let (settings, _) = kerb::read(&file).unwrap();
            let records = with_totals(&file);
            let last = records.last().map_or(0, |(_, total)| *total);
            for _ in 0..8 {
                let of_record = records.get(dice.below(records.len() as u64 + 1) as usize);
                let made = of_record.map_or(last, |(_, total)| *total);
                let more = 1 << dice.between(1, 34);
                let total = match dice.below(4) {
                    0 => made,
                    1 => made.saturating_sub(1),
                    2 => made + (1 << 31) - dice.below(2),
                    _ => dice.below(last + more),
                };
                let recording = Recording::played(&file, When::Total(total)).unwrap();
                assert_eq!(recording.book, book_at(&file, total));
                within += u32::from(total < last);
                after_a_turn += u32::from(total >= 1 << 32);

                let tick = settings.t0.wrapping_add(total as u32);
                let first = total % (1 << 32);
                let before = records.iter().rfind(|(_, made)| *made <= first);
                let reached = first - before.map_or(0, |(_, made)| *made) < 1 << 31;
                match Recording::played(&file, When::Tick(tick)) {
                    Ok(recording) => assert!(reached && recording.book == book_at(&file, first)),
                    Err(told) => {
                        assert!(!reached && told.refusal == Refusal::Early, "{told}");
                        refused += 1;
                    }
                }
            }
        }
        let seen = [within, after_a_turn, refused];
        assert!(seen.iter().all(|&times| times > 5), "{seen:?}");
    }
}
