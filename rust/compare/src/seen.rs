//! Which classes a call falls in. Everything is computed from the oracle's
//! history and answer; the library has no say in it.

use crate::crossings::crossings;
use crate::lamps;
use crate::tally::{names, number, span, Spans, Tally, NUMBERS};
use crate::ticks;
use crate::ties::has_ties;
use oracle::{History, Link, Refusal, Settings, MIRRORED, RINGS, SECTORS};
use streams::{Answer, Call};

const B: &Spans = &[
    (1, "1"),
    (2, "2 to 999"),
    (1_000, "1,000 to 2^31 - 1"),
    (1 << 31, "2^31 and more"),
];
const T0: &Spans = &[
    (0, "0"),
    (1, "1 to 49"),
    (50, "between"),
    (u32::MAX as u64 - 5_000, "the last 5,000 ticks"),
];
const STEPS_OF_TWO: &Spans = &[
    (0, "0"),
    (1, "1 to 9"),
    (10, "10 to 19"),
    (20, "20 to 29"),
    (30, "30 to 37"),
    (38, "38"),
];
const STEPS_OF_ONE: &Spans = &[
    (0, "0"),
    (1, "1 to 9"),
    (10, "10 to 19"),
    (20, "20 to 29"),
    (30, "30 to 39"),
    (40, "40"),
];
const CROSSINGS: &Spans = &[
    (0, "0"),
    (1, "1"),
    (2, "2"),
    (3, "3 to 9"),
    (10, "10 to 99"),
    (100, "100 to 999"),
    (1_000, "1,000 and more"),
];
pub(crate) const LINKS_OF_CHAIN: &Spans = &[
    (1, "1"),
    (2, "2"),
    (3, "3 to 9"),
    (10, "10 to 99"),
    (100, "100 to 1,022"),
    (1_023, "1,023"),
];

/// The rows that [`count`] fills.
pub fn tally() -> Tally {
    let b = names(B);
    let t0 = names(T0);
    let steps_of_two = names(STEPS_OF_TWO);
    let steps_of_one = names(STEPS_OF_ONE);
    let crossings = names(CROSSINGS);
    let links_of_chain = names(LINKS_OF_CHAIN);
    let mut rows: Vec<(&str, &[&str])> = vec![
        ("stream, calls", &STREAMS),
        ("opening, number", &["0", "2", "6"]),
        ("link, number", &["0", "1", "3", "4", "5", "6", "14"]),
        ("clock, number", &["0", "1", "4", "6"]),
        ("joined, number", &["0", "1", "3"]),
        ("chain, number", &["0", "1", "3", "6", "7"]),
        ("reader, number", &["0", "2", "9", "10", "11", "12"]),
        ("writer, number", &["0", "2", "6", "9"]),
        (
            "listing, number",
            &["0", "2", "3", "4", "5", "6", "9", "10", "11", "12", "14"],
        ),
        ("opened, n", &NUMBERS[1..]),
        ("opened, mounting", &["1", "2"]),
        ("opened, B", &b),
        ("opened, T0", &t0),
        (
            "time moved",
            &["not", "within a slide", "to the next slide", "over slides"],
        ),
        ("chunk", &["the same", "the next", "chunks jumped over"]),
        ("link taken", &["new", "repeat"]),
        ("its cells", &TOUCHING),
        ("cells of number 14", &APART),
        (
            "end of a link, mirrored",
            &["dead ahead", "dead astern", "beside the axis"],
        ),
        ("two cells joined", &["yes", "no"]),
        ("their steps", &steps_of_two),
        ("crossings needed", &crossings),
        ("a cell with itself", &["yes"]),
        ("its steps", &steps_of_one),
        ("walk of 10 steps", &["backward", "forward"]),
        ("hold of two cells", &NUMBERS[..16]),
        ("hold of a cell with itself", &NUMBERS[1..]),
        ("links of a chain", &links_of_chain),
        ("shortest chains", &["one", "ties"]),
    ];
    let of_ticks = ticks::rows();
    rows.extend(of_ticks.iter().map(|(name, classes)| (*name, &classes[..])));
    rows.extend(lamps::ROWS);
    Tally::of(&rows)
}

/// The streams there are.
pub const STREAMS: [&str; 15] = [
    "few cells",
    "all cells",
    "touching cells",
    "deep walks",
    "zigzag",
    "long chain",
    "grid",
    "full log",
    "over the end",
    "longest hops",
    "far links",
    "self links",
    "huge jumps",
    "zones",
    "files",
];

/// How the two cells of a link lie that is taken.
const TOUCHING: [&str; 5] = [
    "side by side",
    "side by side, 63 and 0",
    "ring to ring",
    "diagonal",
    "diagonal, 63 and 0",
];

/// How two cells lie that do not touch.
pub(crate) const APART: [&str; 5] = [
    "the same cell",
    "two sectors on",
    "two rings on",
    "rings 0 and 15",
    "farther",
];

/// How many rings one cell lies from another, and how many sectors round the circle.
fn rings_and_sectors(a: u32, b: u32) -> (u32, u32) {
    let sectors = (a % SECTORS).abs_diff(b % SECTORS);
    (
        (a / SECTORS).abs_diff(b / SECTORS),
        sectors.min(SECTORS - sectors),
    )
}

fn touching(a: u32, b: u32) -> &'static str {
    let over_the_end = (a % SECTORS).abs_diff(b % SECTORS) == SECTORS - 1;
    match (rings_and_sectors(a, b), over_the_end) {
        ((0, 1), false) => TOUCHING[0],
        ((0, 1), true) => TOUCHING[1],
        ((1, 0), _) => TOUCHING[2],
        ((1, 1), false) => TOUCHING[3],
        ((1, 1), true) => TOUCHING[4],
        other => unreachable!("a link of cells that lie {other:?}"),
    }
}

fn apart(a: u32, b: u32) -> &'static str {
    match rings_and_sectors(a, b) {
        (0, 0) => APART[0],
        (0 | 1, 2) => APART[1],
        (2, 0 | 1) => APART[2],
        (rings, 0 | 1) if rings == RINGS - 1 => APART[3],
        _ => APART[4],
    }
}

/// Where the time stood.
#[derive(Clone, Copy, Debug)]
pub struct Moment {
    time: u32,
    slide: u64,
}

impl Moment {
    pub fn of(history: &History) -> Moment {
        Moment {
            time: history.time,
            slide: history.open_slide(),
        }
    }
}

/// Counts a call: the moment is that before it, the history that after it.
pub fn count(
    tally: &mut Tally,
    before: Option<Moment>,
    history: Option<&History>,
    call: &Call,
    answer: &Answer,
) {
    tally.count(number_row(call), number(answer.number()));
    count_apart(tally, call, answer);
    lamps::count_refused(tally, call, answer);
    ticks::count_refused(tally, before.map(|of| of.time), call, answer);
    ticks::count_listing(tally, answer);
    let history = match history {
        Some(history) if answer.number() == 0 => history,
        _ => return,
    };
    if call.is_question() {
        ticks::count_window(tally, history);
    }
    match (call, answer) {
        (Call::Opening { settings, .. }, _) => count_opening(tally, settings),
        (Call::Link { .. }, _) => {
            count_time(tally, before, history);
            count_link(tally, history);
        }
        (Call::Clock { .. }, _) => count_time(tally, before, history),
        (Call::Joined { first, second }, Answer::Joined { joined, steps, .. }) => {
            count_joined(tally, history, [*first, *second], *joined, *steps);
        }
        (
            Call::Chain { first, second, .. },
            Answer::Chain {
                l,
                hold,
                cells,
                lent,
                ..
            },
        ) => {
            ticks::count_l(tally, *l);
            if first == second {
                tally.count("hold of a cell with itself", number(*hold));
            } else {
                tally.count("hold of two cells", number(*hold));
                count_chain(tally, history, *l, &lent[..*cells as usize]);
            }
        }
        (Call::Lamps { mask, .. }, _) => lamps::count_done(tally, history, mask, answer),
        _ => {}
    }
}

/// How the cells of a link lie that is refused because they do not touch.
pub(crate) fn count_apart(tally: &mut Tally, call: &Call, answer: &Answer) {
    if let Call::Link { a, b, .. } = call {
        if answer.number() == Refusal::Apart.number() {
            tally.count("cells of number 14", apart(*a, *b));
        }
    }
}

/// The row of a call's number.
pub(crate) fn number_row(call: &Call) -> &'static str {
    match call {
        Call::Opening { .. } => "opening, number",
        Call::Link { .. } => "link, number",
        Call::Clock { .. } => "clock, number",
        Call::Joined { .. } => "joined, number",
        Call::Chain { .. } => "chain, number",
        Call::Lamps { .. } => "lamps, number",
        Call::Read { .. } => "reader, number",
        Call::Write { .. } => "writer, number",
        Call::List { .. } => "listing, number",
        Call::TextIn { .. } => "text in, number",
        Call::TextOut { .. } => "text out, number",
    }
}

fn count_opening(tally: &mut Tally, settings: &Settings) {
    tally.count("opened, n", number(settings.n));
    tally.count("opened, mounting", number(settings.mounting));
    tally.count("opened, B", span(B, u64::from(settings.b)));
    tally.count("opened, T0", span(T0, u64::from(settings.t0)));
}

fn count_time(tally: &mut Tally, before: Option<Moment>, history: &History) {
    let before = before.expect("a history that was there before the call");
    let slide = history.open_slide();
    let moved = match slide - before.slide {
        0 if history.time == before.time => "not",
        0 => "within a slide",
        1 => "to the next slide",
        _ => "over slides",
    };
    tally.count("time moved", moved);
    let chunk = match slide / history.n() - before.slide / history.n() {
        0 => "the same",
        1 => "the next",
        _ => "chunks jumped over",
    };
    tally.count("chunk", chunk);
    ticks::count_taken(tally, before.time, history);
}

fn count_link(tally: &mut Tally, history: &History) {
    let (link, others) = history
        .window()
        .split_last()
        .expect("the link that was taken");
    let pair = |of: &Link| (of.a.min(of.b), of.a.max(of.b));
    let repeat = others.iter().any(|other| pair(other) == pair(link));
    tally.count("link taken", if repeat { "repeat" } else { "new" });
    tally.count("its cells", touching(link.a, link.b));
    ticks::count_link(tally, history);
    if history.settings.mounting == MIRRORED {
        for end in [link.a, link.b] {
            let place = match end % SECTORS {
                0 => "dead ahead",
                32 => "dead astern",
                _ => "beside the axis",
            };
            tally.count("end of a link, mirrored", place);
        }
    }
}

fn count_joined(tally: &mut Tally, history: &History, cells: [u32; 2], joined: bool, steps: u32) {
    let [first, second] = cells;
    let answer = if joined { "yes" } else { "no" };
    if first == second {
        tally.count("a cell with itself", answer);
        tally.count("its steps", span(STEPS_OF_ONE, u64::from(steps)));
    } else {
        tally.count("two cells joined", answer);
        tally.count("their steps", span(STEPS_OF_TWO, u64::from(steps)));
    }
    if joined && first != second {
        let crossings = crossings(history, first, second);
        tally.count("crossings needed", span(CROSSINGS, crossings));
    }
    if steps >= 10 {
        let cut = history.open_place() + 1;
        let (backward, forward) = (history.backward_forest(), history.forward_forest());
        for cell in cells {
            if backward.walk_at_cut(cell, cut).steps == 10 {
                tally.count("walk of 10 steps", "backward");
            }
            if forward.walk(cell).steps == 10 {
                tally.count("walk of 10 steps", "forward");
            }
        }
    }
}

fn count_chain(tally: &mut Tally, history: &History, l: u64, chain: &[u16]) {
    let links = chain.len() as u64 - 1;
    tally.count("links of a chain", span(LINKS_OF_CHAIN, links));
    let ties = has_ties(history, l, chain);
    tally.count("shortest chains", if ties { "ties" } else { "one" });
    ticks::count_chain(tally, history, l);
}
