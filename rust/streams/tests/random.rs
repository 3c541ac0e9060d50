//! The random streams: the same for a seed, and wide enough.

use oracle::{touch, Book, LOG_PLACES, TURN};
use std::collections::{BTreeMap, BTreeSet};
use streams::{ask, Answer, Call, Kind, Random};

const KINDS: [Kind; 7] = [
    Kind::Few,
    Kind::All,
    Kind::Touching,
    Kind::Mixed,
    Kind::FarLinks,
    Kind::SelfLinks,
    Kind::HugeJumps,
];

#[test]
fn a_seed_gives_the_same_calls() {
    for kind in KINDS {
        let first: Vec<Call> = Random::new(9, kind).take(3_000).collect();
        let again: Vec<Call> = Random::new(9, kind).take(3_000).collect();
        let other: Vec<Call> = Random::new(10, kind).take(3_000).collect();
        assert_eq!(first, again);
        assert_ne!(first, other);
    }
}

fn name(call: &Call) -> &'static str {
    match call {
        Call::Opening { .. } => "opening",
        Call::Link { .. } => "link",
        Call::Clock { .. } => "clock",
        Call::Joined { .. } => "joined",
        Call::Chain { .. } => "chain",
        Call::Lamps { .. } => "lamps",
        _ => "file",
    }
}

/// Each call gives each number it can give (8 aside, which none can earn), and
/// a refusal leaves the book equal.
#[test]
fn every_call_gives_every_number() {
    for kind in KINDS {
        let mut given: BTreeMap<&str, BTreeSet<u32>> = BTreeMap::new();
        // Several seeds: each starts with a book that was never opened.
        for seed in 0..60 {
            let mut book = Book::new();
            for call in Random::new(seed, kind).take(2_000) {
                let before = book.clone();
                let number = ask(&mut book, &call).number();
                given.entry(name(&call)).or_default().insert(number);
                if number != 0 {
                    assert_eq!(book, before);
                }
            }
        }
        assert_eq!(given["opening"], BTreeSet::from([0, 2, 6]));
        let mut of_link = BTreeSet::from([0, 1, 3, 4, 5, 6]);
        if [Kind::FarLinks, Kind::SelfLinks].contains(&kind) {
            of_link.insert(14);
        }
        assert_eq!(given["link"], of_link);
        assert_eq!(given["clock"], BTreeSet::from([0, 1, 4, 6]));
        assert_eq!(given["joined"], BTreeSet::from([0, 1, 3]));
        assert_eq!(given["chain"], BTreeSet::from([0, 1, 3, 6, 7]));
        assert_eq!(given["lamps"], BTreeSet::from([0, 1, 6, 15]));
    }
}

#[test]
fn refusals_come_together_so_that_their_order_shows() {
    // (short log, bad cell, cells apart, old tick) of links to an opened book. A
    // number that is no cell touches none; it counts as bad, and not as apart.
    let mut together = BTreeSet::new();
    let mut book = Book::new();
    for call in Random::new(3, Kind::FarLinks).take(60_000) {
        if let (
            Call::Link {
                tick,
                a,
                b,
                log_places,
            },
            Some(history),
        ) = (&call, &book.history)
        {
            let short = *log_places < LOG_PLACES;
            let bad = *a > 1023 || *b > 1023;
            let apart = !bad && !touch(*a, *b);
            let old = history.total_at(*tick).is_err();
            together.insert((short, bad, apart, old));
        }
        ask(&mut book, &call);
    }
    assert_eq!(together.len(), 12, "{:?}", together);
}

/// What a stream went through.
#[derive(Debug, Default)]
struct Seen {
    widths: BTreeSet<u32>,
    mountings: BTreeSet<u32>,
    yes: u32,
    no: u32,
    holds: BTreeSet<u32>,
    steps: BTreeSet<u32>,
    cells: BTreeSet<u32>,
    /// (left, right): which lamps were lit.
    lamps: BTreeMap<(bool, bool), u32>,
    jumps_over_slides: u32,
    jumps_over_chunks: u32,
    /// Calls that passed the end of the counter, and in how many turns.
    passes: u32,
    turns: BTreeSet<u128>,
    /// Calls with an end of the counter in the window.
    ends_in_window: u32,
    huge_slides: u32,
    repeats: u32,
    most_links_in_window: usize,
}

fn look(seed: u64, kind: Kind, calls: usize) -> Seen {
    let mut seen = Seen::default();
    let mut book = Book::new();
    for call in Random::new(seed, kind).take(calls) {
        let before = book.history.as_ref();
        let before = before.map(|history| (history.open_slide(), history.time));
        let answer = ask(&mut book, &call);
        let history = match &book.history {
            Some(history) => history,
            None => continue,
        };
        let done = answer.number() == 0;
        let n = history.n();
        match (&call, &answer) {
            (Call::Opening { settings, .. }, _) if done => {
                seen.widths.insert(settings.n);
                seen.mountings.insert(settings.mounting);
                continue;
            }
            (Call::Link { .. }, _) if done => {
                let window = history.window();
                let (last, others) = window.split_last().unwrap();
                let same = |link: &oracle::Link| (link.a, link.b) == (last.a, last.b);
                seen.repeats += u32::from(others.iter().any(same));
                seen.most_links_in_window = seen.most_links_in_window.max(window.len());
            }
            (Call::Joined { first, second }, Answer::Joined { joined, steps, .. }) if done => {
                seen.steps.insert(*steps);
                if first != second {
                    seen.yes += u32::from(*joined);
                    seen.no += u32::from(!*joined);
                }
            }
            (Call::Chain { .. }, Answer::Chain { hold, cells, .. }) if done => {
                seen.holds.insert(*hold);
                seen.cells.insert(*cells);
            }
            (Call::Lamps { .. }, Answer::Lamps { left, right, .. }) if done => {
                *seen.lamps.entry((*left, *right)).or_default() += 1;
            }
            _ => {}
        }
        let slide = history.open_slide();
        let (before, time) = before.expect("an opening goes before");
        seen.jumps_over_slides += u32::from(slide > before + 1);
        seen.jumps_over_chunks += u32::from(slide / n > before / n + 1);
        seen.passes += u32::from(history.time < time);
        let turn = |total: u128| (u128::from(history.settings.t0) + total) / TURN;
        seen.turns.insert(turn(history.total));
        let oldest = u128::from(history.oldest_slide()) * u128::from(history.settings.b);
        seen.ends_in_window += u32::from(turn(oldest) < turn(history.total));
        seen.huge_slides += u32::from(slide >= 1 << 32);
    }
    seen
}

#[test]
fn the_streams_are_wide_enough() {
    for kind in KINDS {
        let seen = look(2, kind, 80_000);
        let text = format!("{:?} {:?}", kind, seen);
        assert_eq!(seen.widths.len(), 16, "{}", text);
        assert_eq!(seen.mountings.len(), 2, "{}", text);
        assert!(seen.yes > 1_000 && seen.no > 1_000, "{}", text);
        assert_eq!(seen.holds.len(), 17, "{}", text);
        assert!(seen.steps.len() >= 8, "{}", text);
        assert!(seen.cells.len() >= 6, "{}", text);
        assert_eq!(seen.lamps.len(), 4, "{}", text);
        assert!(seen.lamps.values().all(|&times| times > 20), "{}", text);
        assert!(seen.jumps_over_slides > 200, "{}", text);
        assert!(seen.jumps_over_chunks > 80, "{}", text);
        assert!(seen.passes > 100 && seen.turns.len() >= 5, "{}", text);
        assert!(seen.ends_in_window > 1_000, "{}", text);
        assert!(seen.huge_slides > 500, "{}", text);
        assert!(seen.repeats > 1_000, "{}", text);
        assert!(seen.most_links_in_window > 1_000, "{}", text);
    }
}
