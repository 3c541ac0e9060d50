//! Which classes a lamps call falls in, by the oracle's history and what was asked.
//! Among them are those in which a slip would show: an end just outside a zone that
//! would light if the zone were larger, one just inside it, body that is another cell.

use crate::tally::Tally;
use oracle::{ends_of, zone_of, CellSet, History, Lamps, Linked, Side, CELLS, MASK_BYTES, SECTORS};
use streams::{Answer, Call};

const BAD_MASKS: [&str; 6] = [
    "no bytes",
    "too few bytes",
    "1,023 bytes",
    "a value at byte 0",
    "a value between",
    "a value at byte 1,023",
];
const BEFORE_THE_MASK: [&str; 4] = [
    "1, a good mask",
    "1, a bad one",
    "6, a good mask",
    "6, a bad one",
];
const BODIES: [&str; 3] = ["no cell", "under half of the cells", "half and more"];
const BEYOND: [&str; 3] = ["none", "0 and 1", "others"];
pub(crate) const LIT: [&str; 4] = ["none", "left", "right", "both"];
const LAMPS: [&str; 4] = [
    "dark, no end of a link in its zone",
    "dark, its ends are joined to body",
    "lit by the first end",
    "lit by a later end",
];
const DARK_ENDS: [&str; 4] = [
    "is body",
    "body in its zone",
    "body in the other zone",
    "body in no zone",
];
const LIGHTING: [&str; 6] = [
    "sector 1",
    "sector 31",
    "sector 33",
    "sector 63",
    "ring 5",
    "between",
];
const OUTSIDE: [&str; 6] = [
    "sector 0 as left",
    "sector 0 as right",
    "sector 32 as left",
    "sector 32 as right",
    "ring 6 as left",
    "ring 6 as right",
];

/// The rows that this module fills.
pub const ROWS: [(&str, &[&str]); 11] = [
    ("lamps, number", &["0", "1", "6", "15"]),
    ("mask of number 15", &BAD_MASKS),
    ("1 or 6 before the mask", &BEFORE_THE_MASK),
    ("body", &BODIES),
    ("bytes beyond the mask", &BEYOND),
    ("lamps lit", &LIT),
    ("a lamp", &LAMPS),
    ("the first end, where it is dark", &DARK_ENDS),
    ("the cell that lights", &LIGHTING),
    ("cells that light a lamp", &["one", "more"]),
    ("would light in a larger zone", &OUTSIDE),
];

/// The class of the lamps that are lit.
pub(crate) fn lit(lamps: Lamps) -> &'static str {
    LIT[usize::from(lamps.left.is_some()) + 2 * usize::from(lamps.right.is_some())]
}

/// The lamps of an answer of the oracle's.
pub(crate) fn lamps_of(answer: &Answer) -> Lamps {
    match *answer {
        Answer::Lamps {
            left,
            right,
            left_cell,
            right_cell,
            ..
        } => Lamps {
            left: left.then_some(left_cell),
            right: right.then_some(right_cell),
        },
        _ => unreachable!("the answer of another call"),
    }
}

/// Counts the mask of a lamps call that was refused.
pub(crate) fn count_refused(tally: &mut Tally, call: &Call, answer: &Answer) {
    if let (Call::Lamps { mask, .. }, Answer::Lamps { number, .. }) = (call, answer) {
        let fault = fault(mask);
        let bad = usize::from(fault.is_some());
        match number {
            1 => tally.count("1 or 6 before the mask", BEFORE_THE_MASK[bad]),
            6 => tally.count("1 or 6 before the mask", BEFORE_THE_MASK[2 + bad]),
            15 => tally.count("mask of number 15", fault.expect("a bad mask")),
            _ => {}
        }
    }
}

/// What number 15 is given for.
fn fault(mask: &[u8]) -> Option<&'static str> {
    let value = |byte: &u8| *byte > 1;
    let fault = match mask.len() {
        0 => 0,
        1_023 => 2,
        1..=1_022 => 1,
        _ => match mask[..MASK_BYTES].iter().position(value)? {
            0 => 3,
            1_023 => 5,
            _ => 4,
        },
    };
    Some(BAD_MASKS[fault])
}

/// Counts a lamps call that was done.
pub(crate) fn count_done(tally: &mut Tally, history: &History, mask: &[u8], answer: &Answer) {
    count_mask(tally, mask);
    let lamps = lamps_of(answer);
    tally.count("lamps lit", lit(lamps));
    let window = Window::of(history, mask);
    window.count_lamp(tally, Side::Left, lamps.left);
    window.count_lamp(tally, Side::Right, lamps.right);
}

fn count_mask(tally: &mut Tally, mask: &[u8]) {
    let (of_cells, beyond) = mask.split_at(MASK_BYTES);
    let body = of_cells.iter().filter(|&&byte| byte == 1).count();
    let class = match body {
        0 => 0,
        _ if 2 * body < MASK_BYTES => 1,
        _ => 2,
    };
    tally.count("body", BODIES[class]);
    let class = match beyond.iter().max() {
        None => 0,
        Some(0 | 1) => 1,
        Some(_) => 2,
    };
    tally.count("bytes beyond the mask", BEYOND[class]);
}

/// What a lamp goes by.
struct Window {
    linked: Linked,
    ends: CellSet,
    body: CellSet,
    /// The cells that are joined to a body cell.
    dark: CellSet,
}

impl Window {
    fn of(history: &History, mask: &[u8]) -> Window {
        let linked = Linked::by(history.window());
        let (mut body, mut dark) = (CellSet::EMPTY, CellSet::EMPTY);
        for cell in (0..CELLS).filter(|&cell| mask[cell as usize] == 1) {
            body.insert(cell);
            if !dark.contains(cell) {
                dark.insert_all(&linked.group_of(cell));
            }
        }
        Window {
            linked,
            ends: ends_of(history.window()),
            body,
            dark,
        }
    }

    fn count_lamp(&self, tally: &mut Tally, side: Side, lit: Option<u32>) {
        let in_zone = |cell: &u32| zone_of(*cell) == Some(side);
        let first = self.ends.cells().find(in_zone);
        let class = match (first, lit) {
            (None, _) => 0,
            (Some(_), None) => 1,
            (Some(_), Some(_)) if first == lit => 2,
            (Some(_), Some(_)) => 3,
        };
        tally.count("a lamp", LAMPS[class]);
        if let Some(first) = first.filter(|&first| self.dark.contains(first)) {
            let class = self.darkened_by(first, side);
            tally.count("the first end, where it is dark", class);
        }
        if let Some(cell) = lit {
            tally.count("the cell that lights", place_of(cell));
            let lighting = self.ends.without(&self.dark);
            let more = lighting.cells().filter(in_zone).count() > 1;
            let class = if more { "more" } else { "one" };
            tally.count("cells that light a lamp", class);
        }
        self.count_outside(tally, side, lit);
    }

    /// Where the body lies that an end of a zone is joined to: the nearest that there is.
    fn darkened_by(&self, end: u32, side: Side) -> &'static str {
        let group = self.linked.group_of(end);
        let body = || self.body.cells().filter(|&cell| group.contains(cell));
        let class = if self.body.contains(end) {
            0
        } else if body().any(|cell| zone_of(cell) == Some(side)) {
            1
        } else if body().any(|cell| zone_of(cell).is_some()) {
            2
        } else {
            3
        };
        DARK_ENDS[class]
    }

    /// The ends next to a zone that would change the answer if they were in it.
    fn count_outside(&self, tally: &mut Tally, side: Side, lit: Option<u32>) {
        let mut seen = [false; OUTSIDE.len()];
        for end in self.ends.without(&self.dark).cells() {
            let next_to = match (end / SECTORS, end % SECTORS) {
                (0..=5, 0) => 0,
                (0..=5, 32) => 2,
                (6, _) if zone_of(end - SECTORS) == Some(side) => 4,
                _ => continue,
            };
            if lit.is_none_or(|cell| end < cell) {
                seen[next_to + usize::from(side == Side::Right)] = true;
            }
        }
        let both = OUTSIDE.iter().zip(seen);
        both.filter(|of| of.1)
            .for_each(|of| tally.count("would light in a larger zone", of.0));
    }
}

/// Where a cell of a zone lies.
fn place_of(cell: u32) -> &'static str {
    let class = match (cell / SECTORS, cell % SECTORS) {
        (_, 1) => 0,
        (_, 31) => 1,
        (_, 33) => 2,
        (_, 63) => 3,
        (5, _) => 4,
        _ => 5,
    };
    LIGHTING[class]
}
