//! Those who are compared: the library first, then the baselines.

use crate::agreement;
use crate::any_book::AnyBook;
use crate::components::Components;
use crate::library::Library;
use crate::peer::Peer;
use crate::search::Search;
use crate::timing;
use crate::workload::{Kind, Workload, KINDS};

pub struct Contender {
    pub name: &'static str,
    pub what: &'static str,
    /// The calls in which it is compared.
    pub kinds: &'static [Kind],
    /// Stops the program where an answer is not the library's.
    pub check: fn(&Workload, &str),
    /// Plays a workload and lowers the least time of each batch.
    pub play: fn(&Workload, &mut [u64]),
}

fn contender<C: AnyBook>(
    name: &'static str,
    what: &'static str,
    kinds: &'static [Kind],
) -> Contender {
    Contender {
        name,
        what,
        kinds,
        check: agreement::check::<C>,
        play: timing::play::<C>,
    }
}

/// The peer of each call: the quickest method that we know, and by which (a), and (b) without number 1, make it.
pub const METHODS: [(&str, &str); 8] = [
    (
        Kind::Link.name(),
        "two walks in the forest in place; number 1 by the size test",
    ),
    (
        Kind::ChunkEnd.name(),
        "scratch parents beside the forest, shortened as they go, find the roots; the forest gets its step",
    ),
    (
        Kind::Joined.name(),
        "the backward steps united with the forward groups in scratch memory; (a') by two functions that call each other",
    ),
    (
        Kind::Chain.name(),
        "links united newest first, slide by slide, until the two meet; then a search by levels over the links from L on, up to the first cell",
    ),
    (
        Kind::Lamps.name(),
        "one pass over the links, newest first, united in scratch memory with their ends marked; then the groups of the bodywork are marked, and the zones gone through upwards",
    ),
    (
        "kerblist",
        "number 1 asked at no record; groups by links united newest first",
    ),
    (
        "text in",
        "one pass over the bytes; the records stand beside the output, and are copied once all lines are judged",
    ),
    (
        "text out",
        "one pass over the records, two digits at a time; the text is measured first only where the longest lines would not fit",
    ),
];

/// The calls of those that keep components.
const OF_COMPONENTS: [Kind; 4] = [Kind::Link, Kind::ChunkEnd, Kind::Joined, Kind::Lamps];

pub fn all() -> [Contender; 7] {
    [
        contender::<Library>(
            "library",
            "the proved library through its safe Rust wrapper",
            &KINDS,
        ),
        contender::<Peer<true, true>>(
            "(a)",
            "plain Rust with the same checks, each call by the quickest method that we know",
            &KINDS,
        ),
        contender::<Peer<true, false>>(
            "(a')",
            "(a) with a crossing by two functions that call each other, as the library's",
            &[Kind::Joined],
        ),
        contender::<Peer<false, true>>("(b)", "(a) without the check of number 1", &KINDS),
        contender::<Components<true>>(
            "(c)",
            "connected components recomputed for each change of the window (union-find); no steps, no chain, no number 1",
            &OF_COMPONENTS,
        ),
        contender::<Components<false>>(
            "(c')",
            "its sibling that adds links and rebuilds once a slide",
            &OF_COMPONENTS,
        ),
        contender::<Search>(
            "(d)",
            "a search of the window's links for each question; no steps, no number 1",
            &KINDS,
        ),
    ]
}
