//! The peers: the same calls on the same book in plain Rust, altered in place, each call by the quickest method that we know
//! (`contenders::METHODS`). `CHECKED` says whether number 1 is asked at every call; all other checks are always made. `BY_UNIONS` says
//! whether joined crosses by unions, or by two functions that call each other as the library's does.

mod across;
mod crossing;
mod forest;
mod lamps;
mod listing;
mod scratch;
mod text;
mod time;
mod trail;

use crate::any_book::{chain_refused, joined_refused, lamps_refused, lorry_cell};
use crate::any_book::{of_cells, touch, AnyBook, MOST_TOTAL};
use crate::neighbours::Neighbours;
use forest::{every, Forest, Labelled, CELLS};
use kerb::calls::{ChainAnswer, Clock, JoinedAnswer, LampsAnswer};
use kerb::{Settings, CHAIN_PLACES, LOG_PLACES};
pub use listing::list;
pub use text::{text_in, text_out};

/// Places of a chunk's half in the counts and in the log, and links of a place.
const PLACES: usize = 16;
const LINKS: u16 = 256;

pub struct Peer<const CHECKED: bool, const BY_UNIONS: bool> {
    clock: Clock,
    mounting: u8,
    /// Links stored, at half * 16 + place; half = chunk mod 2.
    counts: [u16; 2 * PLACES],
    /// The links of the open chunk.
    forward: Forest,
    /// The links of the chunk before, each with its place as label.
    backward: Labelled,
    log: Vec<u16>,
}

impl<const CHECKED: bool, const BY_UNIONS: bool> Peer<CHECKED, BY_UNIONS> {
    /// Number 1: every field is in its range and no walk exceeds its steps.
    fn in_order(&self) -> bool {
        let clock = &self.clock;
        (1..=16).contains(&clock.n)
            && 1 <= clock.b
            && clock.total <= MOST_TOTAL
            && (1..=2).contains(&self.mounting)
            && every(&self.counts, |count| count <= LINKS)
            && self.forward.is_sound()
            && self.backward.forest.is_sound()
            && every(&self.backward.label, |label| label < PLACES as u8)
    }

    /// The total that the link's tick makes, or the number that it is refused with.
    fn judged(&self, tick: u32, one: u16, other: u16) -> Result<u64, u8> {
        if CHECKED && !self.in_order() {
            return Err(1);
        }
        if self.log.len() < LOG_PLACES {
            return Err(6);
        }
        if CELLS as u16 <= one || CELLS as u16 <= other {
            return Err(3);
        }
        if !touch(one, other) {
            return Err(14);
        }
        let total = self.total_at(tick).ok_or(4)?;
        let slide = self.slide(total);
        let in_open_chunk = self.chunk(slide) == self.chunk(self.open_slide());
        if in_open_chunk && LINKS <= self.counts[self.spot(slide)] {
            return Err(5);
        }
        Ok(total)
    }
}

impl<const CHECKED: bool, const BY_UNIONS: bool> AnyBook for Peer<CHECKED, BY_UNIONS> {
    const COUNTS_STEPS: bool = true;
    const FINDS_CHAINS: bool = true;

    fn opened(settings: Settings) -> Self {
        Peer {
            clock: Clock {
                total: 0,
                t0: settings.t0,
                b: settings.b,
                n: settings.n,
                pad: [0; 7],
            },
            mounting: settings.mounting.number(),
            counts: [0; 2 * PLACES],
            forward: Forest::fresh(),
            backward: Labelled::fresh(),
            log: vec![0; LOG_PLACES],
        }
    }

    fn link(&mut self, tick: u32, one: u16, other: u16) -> u8 {
        let total = match self.judged(tick, one, other) {
            Ok(total) => total,
            Err(number) => return number,
        };
        let one = lorry_cell(self.mounting, one);
        let other = lorry_cell(self.mounting, other);
        self.move_to(total);
        let spot = self.spot(self.open_slide());
        let count = self.counts[spot];
        let at = 2 * (usize::from(LINKS) * spot + usize::from(count));
        self.log[at] = one;
        self.log[at + 1] = other;
        self.counts[spot] = count + 1;
        self.forward.unite(one, other);
        0
    }

    fn clock(&mut self, tick: u32) -> u8 {
        if CHECKED && !self.in_order() {
            return 1;
        }
        if self.log.len() < LOG_PLACES {
            return 6;
        }
        let Some(total) = self.total_at(tick) else {
            return 4;
        };
        self.move_to(total);
        0
    }

    fn joined(&mut self, one: u16, other: u16) -> JoinedAnswer {
        if CHECKED && !self.in_order() {
            return joined_refused(1);
        }
        if CELLS as u16 <= one || CELLS as u16 <= other {
            return joined_refused(3);
        }
        let cut = self.place(self.open_slide()) as u8 + 1;
        let backward_one = self.backward.walk_at(cut, one);
        let backward_other = self.backward.walk_at(cut, other);
        let forward_one = self.forward.walk(one);
        let forward_other = self.forward.walk(other);
        let in_one_forest =
            backward_one.root == backward_other.root || forward_one.root == forward_other.root;
        JoinedAnswer {
            number: 0,
            yes: in_one_forest || self.across(cut, one, other),
            steps: backward_one.steps
                + backward_other.steps
                + forward_one.steps
                + forward_other.steps,
        }
    }

    fn chain(&mut self, one: u16, other: u16, lent: &mut [u16]) -> ChainAnswer {
        if CHECKED && !self.in_order() {
            return chain_refused(1);
        }
        if self.log.len() < LOG_PLACES || lent.len() < CHAIN_PLACES {
            return chain_refused(6);
        }
        if CELLS as u16 <= one || CELLS as u16 <= other {
            return chain_refused(3);
        }
        match self.newest(one, other) {
            None => chain_refused(7),
            Some((newest, links)) => ChainAnswer {
                newest,
                cells: Neighbours::by(&links).write_chain(one, other, lent),
                hold: (newest + u64::from(self.clock.n) - 1 - self.open_slide()) as u8,
                number: 0,
            },
        }
    }

    fn lamps(&mut self, mask: &[u8]) -> LampsAnswer {
        if CHECKED && !self.in_order() {
            return lamps_refused(1);
        }
        if self.log.len() < LOG_PLACES {
            return lamps_refused(6);
        }
        match of_cells(mask) {
            None => lamps_refused(15),
            Some(body) => self.lit(body),
        }
    }
}

#[cfg(test)]
mod tests {
    use super::*;

    /// The number that a clock call gives for a fresh book after an alteration.
    fn number_after(alter: impl Fn(&mut Peer<true, true>)) -> u8 {
        let settings = Settings {
            t0: 0,
            b: 10,
            n: 3,
            mounting: kerb::Mounting::Plain,
        };
        let mut book = Peer::opened(settings);
        alter(&mut book);
        book.clock(5)
    }

    #[test]
    fn number_1_is_given_for_a_field_outside_its_range() {
        assert_eq!(number_after(|_| ()), 0);
        assert_eq!(number_after(|book| book.clock.n = 17), 1);
        assert_eq!(number_after(|book| book.clock.total = MOST_TOTAL + 1), 1);
        assert_eq!(number_after(|book| book.mounting = 0), 1);
        assert_eq!(number_after(|book| book.counts[31] = 257), 1);
        assert_eq!(number_after(|book| book.forward.parent[1023] = 1024), 1);
        assert_eq!(number_after(|book| book.backward.label[7] = 16), 1);
    }

    #[test]
    fn number_1_is_given_for_a_walk_over_10_steps_whatever_the_sizes() {
        let walk_of = |steps: usize| {
            number_after(|book| {
                for cell in 0..steps {
                    book.backward.forest.parent[cell] = cell as u16 + 1;
                }
            })
        };
        assert_eq!((walk_of(10), walk_of(11)), (0, 1));
    }

    #[test]
    fn number_1_is_given_for_a_circle() {
        let circle = |book: &mut Peer<true, true>| {
            book.forward.parent[3] = 4;
            book.forward.parent[4] = 3;
        };
        assert_eq!(number_after(circle), 1);
    }
}
