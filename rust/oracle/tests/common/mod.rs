//! Helpers of the tests: shorter calls with buffers that are long enough.
//!
//! Links are of cells that touch and ticks less than 2^31 ahead of the book's time or
//! a little back, but in `far_self_and_huge.rs` and `ticks.rs`. The four cells 1, 2,
//! 65 and 66 touch one another.
#![allow(dead_code)]

use oracle::*;

/// What a lent place holds before a call.
pub const KEPT: u16 = 0xABCD;

pub fn settings(n: u32, b: u32, mounting: u32, t0: u32) -> Settings {
    Settings { n, b, mounting, t0 }
}

pub fn opened(n: u32, b: u32, mounting: u32, t0: u32) -> Book {
    let mut book = Book::new();
    book.opening(settings(n, b, mounting, t0), LOG_PLACES)
        .unwrap();
    book
}

pub fn link(book: &mut Book, tick: u32, a: u32, b: u32) -> u32 {
    number(&book.link(tick, a, b, LOG_PLACES))
}

pub fn clock(book: &mut Book, tick: u32) -> u32 {
    number(&book.clock(tick, LOG_PLACES))
}

/// Logs links that must all be taken.
pub fn links(book: &mut Book, links: &[(u32, u32, u32)]) {
    for &(tick, a, b) in links {
        assert_eq!(link(book, tick, a, b), 0, "link {} {} {}", tick, a, b);
    }
}

/// (yes or no, steps).
pub fn joined(book: &Book, a: u32, b: u32) -> (bool, u32) {
    let answer = book.joined(a, b).unwrap();
    (answer.joined, answer.steps)
}

/// (L, hold, the cells of the chain), after looking at the lent buffer.
pub fn chain(book: &Book, a: u32, b: u32) -> Result<(u64, u32, Vec<u16>), Refusal> {
    let mut lent = [KEPT; CHAIN_PLACES + 3];
    let answer = book.chain(a, b, LOG_PLACES, &mut lent);
    let cells = answer.unwrap_or_default().cells as usize;
    assert!(lent[cells..].iter().all(|&place| place == KEPT));
    answer.map(|chain| (chain.l, chain.hold, lent[..cells].to_vec()))
}

pub fn history(book: &Book) -> &History {
    book.history.as_ref().unwrap()
}

/// The tick so many after the book's time.
pub fn later(book: &Book, ticks: u32) -> u32 {
    history(book).time.wrapping_add(ticks)
}

/// The records of the listing: (tick, cells).
pub const LISTING: [(u32, u32, u32); 5] =
    [(0, 1, 2), (10, 2, 3), (20, 3, 4), (30, 5, 6), (45, 4, 5)];

/// The book of the listing.
pub fn listing_book() -> Book {
    let mut book = opened(3, 10, PLAIN, 0);
    links(&mut book, &LISTING);
    book
}

/// The bytes of some records.
pub fn records(of: &[(u32, u32, u32)]) -> Vec<u8> {
    let record = |&(tick, a, b): &(u32, u32, u32)| Record {
        tick,
        a: a as u16,
        b: b as u16,
    };
    of.iter().flat_map(|of| record_bytes(record(of))).collect()
}

/// A link file.
pub fn file(settings: Settings, of: &[(u32, u32, u32)]) -> Vec<u8> {
    let mut output = vec![0; file_length(of.len())];
    write(settings, &records(of), &mut output).unwrap();
    output
}

/// A small generator of numbers for tests (Knuth's multiplier).
pub struct Dice(pub u64);

impl Dice {
    pub fn below(&mut self, limit: u32) -> u32 {
        self.0 = self
            .0
            .wrapping_mul(6364136223846793005)
            .wrapping_add(1442695040888963407);
        ((self.0 >> 33) % u64::from(limit)) as u32
    }
}

/// The cells of a random book, in the unit's numbers: a strip of the first two
/// rings, sector by sector. Each touches the next and the one after that.
pub fn strip(place: u32) -> u32 {
    SECTORS * (place % 2) + place / 2
}

/// A cell of a random book over so many, in the lorry's numbers.
pub fn cell_of(dice: &mut Dice, book: &Book, cells: u32) -> u32 {
    in_lorrys_numbers(strip(dice.below(cells)), history(book).settings.mounting)
}

/// A random book over a few cells, its time somewhere in a later chunk. T0 lies
/// on either side of the counter's end, so that some pass it.
pub fn random_book(dice: &mut Dice, cells: u32) -> Book {
    let n = 1 + dice.below(6);
    let (b, mounting) = (1 + dice.below(3), 1 + dice.below(2));
    let mut book = opened(n, b, mounting, dice.below(100).wrapping_sub(50));
    for _ in 0..dice.below(60) {
        // Mostly the same tick, else on by a little, or over a chunk.
        let moves = dice.below(6) == 0;
        let jump = if moves {
            [1, 1, 2, 3, 9][dice.below(5) as usize]
        } else {
            0
        };
        let tick = later(&book, jump);
        let first = dice.below(cells - 1);
        let second = (first + 1 + dice.below(2)).min(cells - 1);
        let (a, b) = (strip(first), strip(second));
        let (a, b) = if dice.below(2) == 0 { (a, b) } else { (b, a) };
        assert_eq!(link(&mut book, tick, a, b), 0);
    }
    book
}
