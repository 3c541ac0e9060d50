//! Number 1, as docs/BOOK.md has it: a field outside its range, or a walk without
//! a cut that would exceed 10 steps.

use kerb::RawBook;
use oracle::{CELLS, MOST_TOTAL};

/// Steps of a walk, at most.
const MOST_STEPS: usize = 10;

/// All that can be out of order with a book.
pub const REASONS: [&str; 14] = [
    "clock.b",
    "clock.total",
    "clock.n",
    "fitting.mounting",
    "counts",
    "forward_parent",
    "forward_size",
    "backward_parent",
    "backward_size",
    "backward_label",
    "forward walk over 10",
    "backward walk over 10",
    "forward circle",
    "backward circle",
];

/// Why a book is not in order: the first of the reasons that there is.
pub fn disorder(book: &RawBook) -> Option<&'static str> {
    field_outside(book).or_else(|| walk_too_long(book))
}

fn field_outside(book: &RawBook) -> Option<&'static str> {
    let cell = |&parent: &u16| u32::from(parent) < CELLS;
    let size = |&size: &u16| (1..=CELLS).contains(&u32::from(size));
    let in_range = [
        book.clock.b >= 1,
        u128::from(book.clock.total) <= MOST_TOTAL,
        (1..=16).contains(&book.clock.n),
        (1..=2).contains(&book.fitting.mounting),
        book.counts.iter().all(|&count| count <= 256),
        book.forward_parent.iter().all(cell),
        book.forward_size.iter().all(size),
        book.backward_parent.iter().all(cell),
        book.backward_size.iter().all(size),
        book.backward_label.iter().all(|&label| label <= 15),
    ];
    let outside = in_range.iter().position(|&good| !good);
    outside.map(|field| REASONS[field])
}

/// For parents that are all cells.
fn walk_too_long(book: &RawBook) -> Option<&'static str> {
    let forward = longer_than_most(&book.forward_parent);
    let backward = longer_than_most(&book.backward_parent);
    match (forward, backward) {
        (Some(Walk::Ends), _) => Some("forward walk over 10"),
        (Some(Walk::Circles), _) => Some("forward circle"),
        (None, Some(Walk::Ends)) => Some("backward walk over 10"),
        (None, Some(Walk::Circles)) => Some("backward circle"),
        (None, None) => None,
    }
}

/// How a walk goes on that is too long.
enum Walk {
    Ends,
    Circles,
}

/// The walk of the first cell that takes too many steps. One that takes as many as
/// there are cells goes in a circle.
fn longer_than_most(parents: &[u16; 1024]) -> Option<Walk> {
    let after = |cell: usize, steps: usize| (0..steps).fold(cell, |at, _| usize::from(parents[at]));
    let is_root = |cell: usize| usize::from(parents[cell]) == cell;
    let cell = (0..parents.len()).find(|&cell| !is_root(after(cell, MOST_STEPS)))?;
    if is_root(after(cell, parents.len())) {
        Some(Walk::Ends)
    } else {
        Some(Walk::Circles)
    }
}
