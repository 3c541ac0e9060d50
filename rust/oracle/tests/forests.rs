//! "Chunks and the two forests", by hand and against the search.

mod common;
use common::*;
use oracle::*;
use std::collections::BTreeSet;

#[test]
fn the_forward_forest_takes_links_in_order_of_arrival() {
    // 1-2 and 65-66 first, then 2-66: a tree of depth 2.
    let mut book = opened(2, 10, PLAIN, 0);
    links(&mut book, &[(0, 1, 2), (0, 65, 66), (10, 2, 66)]);
    assert_eq!(joined(&book, 66, 66), (true, 4));
    assert_eq!(joined(&book, 65, 2), (true, 2));
    // 2-66 first: 66 under 2, then 1 and 65 under 2.
    let mut book = opened(2, 10, PLAIN, 0);
    links(&mut book, &[(0, 2, 66), (0, 1, 2), (10, 65, 66)]);
    assert_eq!(joined(&book, 66, 66), (true, 2));
    assert_eq!(joined(&book, 2, 1), (true, 1));
}

#[test]
fn the_backward_forest_takes_the_last_arrival_first() {
    // One place: arrivals 2-66, 65-66, 1-2. Scanned 1-2, 65-66, 2-66.
    let mut book = opened(2, 10, PLAIN, 0);
    links(&mut book, &[(10, 2, 66), (10, 65, 66), (10, 1, 2)]);
    // Forward in chunk 0: 66 under 2, 65 under 2, 1 under 2.
    assert_eq!(joined(&book, 66, 66), (true, 2));
    assert_eq!(joined(&book, 2, 1), (true, 1));
    // Backward in chunk 1: 2 under 1, 66 under 65, 65 under 1.
    assert_eq!(clock(&mut book, 20), 0);
    assert_eq!(joined(&book, 66, 66), (true, 4));
    assert_eq!(joined(&book, 65, 2), (true, 2));
    assert_eq!(joined(&book, 1, 1), (true, 0));
}

#[test]
fn the_backward_forest_goes_from_the_last_place_down() {
    // Place 1: 3-4, place 2: 1-2 and 2-3. Scanned 2-3, 1-2, 3-4.
    let mut book = opened(3, 10, PLAIN, 0);
    links(&mut book, &[(10, 3, 4), (20, 1, 2), (20, 2, 3)]);
    assert_eq!(clock(&mut book, 30), 0);
    let backward = history(&book).backward_forest();
    for (cell, root, steps) in [(1, 2, 1), (2, 2, 0), (3, 2, 1), (4, 2, 1)] {
        assert_eq!(backward.walk_at_cut(cell, 1), Walk { root, steps });
    }
    // At cut 2 the step of 4, labelled 1, is not taken.
    assert_eq!(clock(&mut book, 40), 0);
    assert_eq!(joined(&book, 4, 1), (false, 1));
    assert_eq!(joined(&book, 3, 1), (true, 2));
    // At cut 3 none is.
    assert_eq!(clock(&mut book, 50), 0);
    assert_eq!(joined(&book, 3, 1), (false, 0));
}

#[test]
fn place_0_is_never_scanned() {
    let mut book = opened(2, 10, PLAIN, 0);
    links(&mut book, &[(0, 1, 2), (10, 3, 4)]);
    assert_eq!(clock(&mut book, 20), 0);
    assert_eq!(joined(&book, 1, 2), (false, 0));
    assert_eq!(joined(&book, 3, 4), (true, 1));
    // No answer could tell: its label 0 is below every cut. The forest can.
    let backward = history(&book).backward_forest();
    assert_eq!(backward.walk(2), Walk { root: 2, steps: 0 });
    assert_eq!(backward.walk(4), Walk { root: 3, steps: 1 });
    // With n 1 there is only place 0, and nothing is ever scanned.
    let mut book = opened(1, 10, PLAIN, 0);
    links(&mut book, &[(0, 1, 2)]);
    assert_eq!(joined(&book, 1, 2), (true, 1));
    assert_eq!(clock(&mut book, 10), 0);
    assert_eq!(joined(&book, 1, 2), (false, 0));
}

#[test]
fn a_chunk_whose_predecessor_was_jumped_over_has_an_empty_one_before_it() {
    // Chunk 0 has a link in its last place; then chunk 2 opens.
    let mut book = opened(3, 10, PLAIN, 0);
    links(&mut book, &[(20, 1, 2), (60, 5, 6)]);
    assert_eq!(joined(&book, 1, 2), (false, 0));
    assert_eq!(joined(&book, 5, 6), (true, 1));
}

#[test]
fn chunk_0_has_an_empty_chunk_before_it() {
    let book = opened(3, 10, PLAIN, 0);
    let backward = history(&book).backward_forest();
    assert!((0..CELLS).all(|cell| backward.walk(cell).steps == 0));
}

#[test]
fn all_four_walks_always() {
    // 1-2 in both chunks, in the window: every walk of 2 takes one step,
    // though either forest alone decides.
    let mut book = opened(2, 10, PLAIN, 0);
    links(&mut book, &[(10, 1, 2), (20, 1, 2)]);
    assert_eq!(joined(&book, 2, 1), (true, 2));
    assert_eq!(joined(&book, 1, 2), (true, 2));
    // A cell with itself is decided at once, and still walks four times.
    assert_eq!(joined(&book, 2, 2), (true, 4));
    // And not joined counts as well.
    assert_eq!(joined(&book, 2, 7), (false, 2));
}

/// Lemma 5.6: the walk at a cut is the walk in the forest built from the
/// places from the cut on.
#[test]
fn the_cut_leaves_the_forest_of_the_places_not_below_it() {
    let mut dice = Dice(56);
    for _ in 0..400 {
        let book = random_book(&mut dice, 9);
        let history = history(&book);
        let (n, q) = (history.n(), history.open_chunk());
        let backward = history.backward_forest();
        for cut in 1..=n {
            let mut only = Forest::start();
            let scanned = |link: &&Link| link.slide / n + 1 == q && link.slide % n >= cut;
            for link in history.links.iter().rev().filter(scanned) {
                only.unite(link.a, link.b, 0);
            }
            for cell in 0..CELLS {
                assert_eq!(backward.walk_at_cut(cell, cut), only.walk(cell));
            }
        }
    }
}

/// "From a group of the backward forest one passes to each forward group that
/// shares a cell with it, and from there back again, until no new group is
/// met."
fn joined_by_crossing(history: &History, first: u32, second: u32) -> bool {
    let backward = history.backward_forest();
    let forward = history.forward_forest();
    let cut = history.open_place() + 1;
    let mut met = BTreeSet::from([first]);
    loop {
        let back: BTreeSet<u32> = met
            .iter()
            .map(|&cell| backward.walk_at_cut(cell, cut).root)
            .collect();
        let ahead: BTreeSet<u32> = met.iter().map(|&cell| forward.walk(cell).root).collect();
        let more: BTreeSet<u32> = (0..CELLS)
            .filter(|&cell| {
                back.contains(&backward.walk_at_cut(cell, cut).root)
                    || ahead.contains(&forward.walk(cell).root)
            })
            .collect();
        if more == met {
            return met.contains(&second);
        }
        met = more;
    }
}

#[test]
fn crossing_and_the_search_agree() {
    let mut dice = Dice(6);
    let mut yes = 0;
    for _ in 0..150 {
        let book = random_book(&mut dice, 12);
        let history = history(&book);
        for _ in 0..4 {
            let a = cell_of(&mut dice, &book, 12);
            let b = cell_of(&mut dice, &book, 12);
            let (answer, _) = joined(&book, a, b);
            assert_eq!(answer, joined_by_crossing(history, a, b));
            yes += u32::from(answer && a != b);
        }
    }
    assert!(yes > 30, "too few joined pairs to mean anything: {}", yes);
}

/// The window is places r + 1 to n - 1 of chunk q - 1 and 0 to r of chunk q.
#[test]
fn the_window_in_places() {
    let mut dice = Dice(7);
    for _ in 0..400 {
        let book = random_book(&mut dice, 9);
        let history = history(&book);
        let n = history.n();
        let (q, r) = (history.open_chunk(), history.open_place());
        let inside = |link: &&Link| {
            let (chunk, place) = (link.slide / n, link.slide % n);
            (chunk + 1 == q && place > r) || (chunk == q && place <= r)
        };
        let by_places: Vec<Link> = history.links.iter().filter(inside).copied().collect();
        assert_eq!(history.window(), by_places);
    }
}
