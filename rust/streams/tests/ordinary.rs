//! The streams link touching cells and keep their ticks within a hop of the book's
//! time, as the counter goes round. What is none of that is in the streams that are
//! named for it, and in no other.

use oracle::{is_cell, read, record, Book, LOG_PLACES};
use streams::files::{edge_files, every_field, valid_file, Field, FIELDS};
use streams::hops::is_hop;
use streams::touching::far;
use streams::{ask, built, Call, Dice, Kind, Random};

/// What of a stream is not ordinary, whether it is taken or refused.
#[derive(Debug, Default, PartialEq)]
struct Strays {
    far_links: u32,
    self_links: u32,
    huge_jumps: u32,
}

/// No link but of touching cells, no tick but within a hop.
const NONE: Strays = Strays {
    far_links: 0,
    self_links: 0,
    huge_jumps: 0,
};

impl Strays {
    fn of(calls: impl IntoIterator<Item = Call>) -> Strays {
        let mut book = Book::new();
        let mut strays = Strays::default();
        for call in calls {
            strays.look_at(&book, &call);
            if !call.is_question() {
                ask(&mut book, &call);
            }
        }
        strays
    }

    /// The book is that before the call; one that was never opened has no time.
    fn look_at(&mut self, book: &Book, call: &Call) {
        if let Call::Link { a, b, .. } = *call {
            if is_cell(a) && is_cell(b) {
                self.far_links += u32::from(far(a, b));
                self.self_links += u32::from(a == b);
            }
        }
        if let (Call::Link { tick, .. } | Call::Clock { tick, .. }, Some(history)) =
            (call, &book.history)
        {
            self.huge_jumps += u32::from(!is_hop(history.time, *tick));
        }
    }

    /// Whether there are so many far links and nothing else, and so on.
    fn are_far_links(&self, least: u32) -> bool {
        self.far_links >= least && (self.self_links, self.huge_jumps) == (0, 0)
    }

    fn are_self_links(&self, least: u32) -> bool {
        self.self_links >= least && (self.far_links, self.huge_jumps) == (0, 0)
    }

    fn are_huge_jumps(&self, least: u32) -> bool {
        self.huge_jumps >= least && (self.far_links, self.self_links) == (0, 0)
    }
}

#[test]
fn random_streams() {
    let of = |seed, kind| Strays::of(Random::new(seed, kind).take(4_000));
    for seed in 0..40 {
        for kind in [Kind::Few, Kind::All, Kind::Touching, Kind::Mixed] {
            assert_eq!(of(seed, kind), NONE, "{:?}, seed {}", kind, seed);
        }
        assert!(of(seed, Kind::FarLinks).are_far_links(50));
        assert!(of(seed, Kind::SelfLinks).are_self_links(50));
        assert!(of(seed, Kind::HugeJumps).are_huge_jumps(50));
    }
}

#[test]
fn built_streams() {
    for (name, calls) in built::all(2) {
        let strays = Strays::of(calls);
        let as_named = if name.starts_with("far links") {
            strays.are_far_links(1)
        } else if name.starts_with("self links") {
            strays.are_self_links(250)
        } else if name.starts_with("huge jumps") {
            strays.are_huge_jumps(12)
        } else {
            strays == NONE
        };
        assert!(as_named, "{}: {:?}", name, strays);
    }
}

/// The calls by which a file is played, if it can be read: up to the first that is
/// refused.
fn calls_of(file: &[u8]) -> Vec<Call> {
    let head = match read(file) {
        Ok(head) => head,
        Err(_) => return Vec::new(),
    };
    let mut calls = vec![Call::Opening {
        settings: head.settings,
        log_places: LOG_PLACES,
    }];
    let mut book = Book::new();
    ask(&mut book, &calls[0]);
    for place in 0..head.m as usize {
        let record = record(file, place);
        let link = Call::Link {
            tick: record.tick,
            a: u32::from(record.a),
            b: u32::from(record.b),
            log_places: LOG_PLACES,
        };
        let taken = ask(&mut book, &link).number() == 0;
        calls.push(link);
        if !taken {
            break;
        }
    }
    calls
}

#[test]
fn link_files() {
    let mut dice = Dice::new(3);
    let valid = (0..400).map(|_| valid_file(&mut dice));
    for file in valid.chain(edge_files()) {
        assert_eq!(Strays::of(calls_of(&file)), NONE);
    }
    let damaged = every_field(4);
    for field in FIELDS {
        let files = damaged.iter().filter(|of| of.0 == field);
        let strays = Strays::of(files.flat_map(|of| calls_of(&of.1)));
        let as_named = match field {
            Field::FarLink => strays.are_far_links(20),
            Field::SelfLink => strays.are_self_links(20),
            Field::HugeJump => strays.are_huge_jumps(20),
            // It may be one of a tick or of a cell.
            Field::AnyByte => true,
            _ => strays == NONE,
        };
        assert!(as_named, "{:?}: {:?}", field, strays);
    }
}
