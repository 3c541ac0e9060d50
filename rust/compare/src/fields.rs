//! The book's fields and the log's places, as docs/BOOK.md lays them out.

use kerb::calls::{Clock, Fitting};
use kerb::RawBook;
use oracle::{Forest, History, Settings, LINKS_PER_SLIDE};

/// Places that each of the two halves has in the counts, whatever n is.
pub const HALF: usize = 16;

/// Where a chunk's place is counted: half × 16 + place, half = chunk mod 2.
pub fn spot(chunk: u64, place: u64) -> usize {
    (chunk % 2) as usize * HALF + place as usize
}

/// Where the log holds the first cell of link `i` of a spot; the second follows.
pub fn log_place(spot: usize, i: usize) -> usize {
    2 * (spot * LINKS_PER_SLIDE + i)
}

/// A book that was never opened: 0 in every byte.
pub fn never_opened() -> RawBook {
    RawBook {
        forward_parent: [0; 1024],
        forward_size: [0; 1024],
        backward_parent: [0; 1024],
        backward_size: [0; 1024],
        counts: [0; 2 * HALF],
        clock: Clock {
            total: 0,
            t0: 0,
            b: 0,
            n: 0,
            pad: [0; 7],
        },
        backward_label: [0; 1024],
        fitting: Fitting {
            mounting: 0,
            pad: [0; 7],
        },
    }
}

/// The book that a history has to have, each forest built anew by the rule; its pad bytes are 0.
pub fn book_of(history: &History) -> RawBook {
    let forward = history.forward_forest();
    let backward = history.backward_forest();
    RawBook {
        forward_parent: narrow(&forward.parent),
        forward_size: narrow(&forward.size),
        backward_parent: narrow(&backward.parent),
        backward_size: narrow(&backward.size),
        counts: counts_of(history),
        clock: Clock {
            total: u64::try_from(history.total).expect("a total that has not run out"),
            t0: history.settings.t0,
            b: history.settings.b,
            n: history.settings.n as u8,
            pad: [0; 7],
        },
        backward_label: labels_of(&backward),
        fitting: Fitting {
            mounting: history.settings.mounting as u8,
            pad: [0; 7],
        },
    }
}

/// What a book was opened with.
pub fn settings_of(book: &RawBook) -> Settings {
    Settings {
        n: u32::from(book.clock.n),
        b: book.clock.b,
        mounting: u32::from(book.fitting.mounting),
        t0: book.clock.t0,
    }
}

/// How many links each slide of the open chunk and of the chunk before it holds.
fn counts_of(history: &History) -> [u16; 2 * HALF] {
    let n = history.n();
    let open = history.open_chunk();
    let mut counts = [0; 2 * HALF];
    for chunk in open.saturating_sub(1)..=open {
        for place in 0..n {
            let slide = chunk * n + place;
            counts[spot(chunk, place)] = history.links_of_slides(slide, slide).len() as u16;
        }
    }
    counts
}

/// A forest's numbers in the book's width.
pub fn narrow(numbers: &[u32; 1024]) -> [u16; 1024] {
    numbers.map(|number| number as u16)
}

/// A forest's labels in the book's width.
pub fn labels_of(forest: &Forest) -> [u8; 1024] {
    forest.label.map(|label| label as u8)
}
