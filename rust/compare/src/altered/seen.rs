//! What came of the calls to altered books, by what docs/BOOK.md says.

use super::books::KINDS;
use super::order::{disorder, REASONS};
use super::said;
use crate::fields::spot;
use crate::lamps::{lamps_of, lit, LIT};
use crate::seen::{count_apart, number_row, APART, LINKS_OF_CHAIN};
use crate::state::State;
use crate::tally::{names, number, span, Spans, Tally, NUMBERS};
use crate::ticks;
use oracle::{steps_to, touch, Book, CellSet, Linked, Refusal};
use oracle::{CHAIN_PLACES, LOG_PLACES, MOST_TOTAL};
use streams::hops::distance;
use streams::{lamps_answer, Answer, Call};

const STEPS: &Spans = &[
    (0, "0"),
    (1, "1 to 9"),
    (10, "10 to 19"),
    (20, "20 and more"),
];

/// The largest total that is in order.
const LIMIT: u64 = MOST_TOTAL as u64;

/// Where the total of a book stands.
const TOTALS: &Spans = &[
    (0, "below 2^32"),
    (1 << 32, "2^32 and more"),
    (LIMIT - (1 << 32), "the last 2^32"),
    (LIMIT, "2^63 - 1"),
    (LIMIT + 1, "2^63"),
    (LIMIT + 2, "beyond"),
    (u64::MAX, "2^64 - 1"),
];

/// What can happen to a tick where the total stands at its limit.
const AT_THE_LIMIT: [&str; 3] = [
    "the same tick, taken",
    "the next tick, refused",
    "another tick, refused",
];

/// By what link a lamp can be lit.
const LIT_BY: [&str; 2] = ["with another cell", "with itself alone"];

/// The rows that [`count`] and [`count_book`] fill.
pub fn tally() -> Tally {
    let mut number_4 = ticks::not_later();
    number_4.push("the total has run out");
    Tally::of(&[
        ("book", &KINDS),
        ("its total", &names(TOTALS)),
        ("at first", &["in order", "not in order"]),
        ("its pad bytes", &["0", "others"]),
        ("number 1 by", &REASONS),
        ("opening, number", &["0", "2", "6"]),
        ("link, number", &["0", "1", "3", "4", "5", "6", "14"]),
        ("clock, number", &["0", "1", "4", "6"]),
        ("joined, number", &["0", "1", "3"]),
        ("chain, number", &["0", "1", "3", "6", "7"]),
        ("lamps, number", &["0", "1", "6", "15"]),
        (
            "time moved",
            &["within the chunk", "to the next", "over chunks"],
        ),
        ("ticks moved", &ticks::moved()),
        ("total afterwards", &["below its limit", "at its limit"]),
        ("tick of number 4", &number_4),
        ("the total at its limit", &AT_THE_LIMIT),
        ("cells of number 14", &APART),
        (
            "link's slide, before",
            &[
                "open, empty",
                "open",
                "later, empty",
                "later",
                "of a later chunk",
            ],
        ),
        (
            "after a link",
            &["still in order", "a size over 1,024", "a walk over 10"],
        ),
        ("two cells joined", &["yes", "no"]),
        ("steps", &["0", "1 to 9", "10 to 19", "20 and more"]),
        ("forests and log", &["agree", "disagree"]),
        ("chain, in chunk", &["0", "a later one"]),
        ("chain, by", &["links alone", "pairs that are no links"]),
        ("its links", &["touch", "do not all touch"]),
        ("hold of two cells", &NUMBERS[..16]),
        ("hold of a cell with itself", &NUMBERS[1..]),
        ("links of a chain", &names(LINKS_OF_CHAIN)),
        ("lamps lit", &LIT),
        ("a lamp is lit by a link", &LIT_BY),
        ("lamps by the forests", &["the same", "others"]),
    ])
}

/// Counts an altered book.
pub fn count_book(tally: &mut Tally, kind: &str, state: &State) {
    tally.count("book", kind);
    let in_order = disorder(&state.book).is_none();
    let order = if in_order { "in order" } else { "not in order" };
    tally.count("at first", order);
    tally.count("its total", span(TOTALS, state.book.clock.total));
    let pads = [state.book.clock.pad, state.book.fitting.pad];
    let zero = pads == [[0; 7]; 2];
    tally.count("its pad bytes", if zero { "0" } else { "others" });
}

/// Counts a call: the states are those before and after it.
pub fn count(tally: &mut Tally, before: &State, after: &State, call: &Call, answer: &Answer) {
    tally.count(number_row(call), number(answer.number()));
    count_apart(tally, call, answer);
    if let Call::Link { tick, .. } | Call::Clock { tick, .. } = call {
        count_tick(tally, before, *tick, answer.number());
    }
    match answer.number() {
        0 => count_done(tally, before, after, call, answer),
        1 => tally.count("number 1 by", disorder(&before.book).expect("a reason")),
        _ => {}
    }
}

fn count_done(tally: &mut Tally, before: &State, after: &State, call: &Call, answer: &Answer) {
    match (call, answer) {
        (Call::Link { .. }, _) => {
            count_time(tally, before, after);
            tally.count("link's slide, before", slide_before(before, after));
            let order = match disorder(&after.book) {
                None => "still in order",
                Some("forward_size") => "a size over 1,024",
                Some(_) => "a walk over 10",
            };
            tally.count("after a link", order);
        }
        (Call::Clock { .. }, _) => count_time(tally, before, after),
        (Call::Joined { first, second }, Answer::Joined { joined, steps, .. })
            if first != second =>
        {
            tally.count("steps", span(STEPS, u64::from(*steps)));
            tally.count("two cells joined", if *joined { "yes" } else { "no" });
            let chained = is_chained(after, *first, *second);
            let agree = chained == *joined;
            tally.count("forests and log", if agree { "agree" } else { "disagree" });
        }
        (Call::Chain { first, second, .. }, Answer::Chain { hold, cells, .. }) => {
            if first == second {
                tally.count("hold of a cell with itself", number(*hold));
            } else {
                tally.count("hold of two cells", number(*hold));
                let links = span(LINKS_OF_CHAIN, u64::from(*cells) - 1);
                tally.count("links of a chain", links);
            }
            count_window(tally, after);
        }
        (Call::Lamps { mask, .. }, _) => count_lamps(tally, after, mask, answer),
        _ => {}
    }
}

/// A tick that was taken, or refused with 4.
fn count_tick(tally: &mut Tally, before: &State, tick: u32, given: u32) {
    let clock = &before.book.clock;
    let time = said::time(clock);
    let refused = given == Refusal::Tick.number();
    if refused && steps_to(time, tick).is_some() {
        tally.count("tick of number 4", "the total has run out");
    } else if refused {
        ticks::count_not_later(tally, time, tick);
    }
    if clock.total == LIMIT && (refused || given == 0) {
        let class = match (refused, distance(time, tick)) {
            (false, 0) => AT_THE_LIMIT[0],
            (true, 1) => AT_THE_LIMIT[1],
            (true, _) => AT_THE_LIMIT[2],
            (false, _) => unreachable!("a total beyond its limit"),
        };
        tally.count("the total at its limit", class);
    }
}

fn count_time(tally: &mut Tally, before: &State, after: &State) {
    let open = said::open_chunk(&before.book);
    let moved = match said::open_chunk(&after.book) - open {
        0 => "within the chunk",
        1 => "to the next",
        _ => "over chunks",
    };
    tally.count("time moved", moved);
    let times = [before, after].map(|of| said::time(&of.book.clock));
    ticks::count_moved(tally, times[0], times[1]);
    let class = if after.book.clock.total == LIMIT {
        "at its limit"
    } else {
        "below its limit"
    };
    tally.count("total afterwards", class);
}

/// What the slide of a link was before it; it is open after it.
fn slide_before(before: &State, after: &State) -> &'static str {
    let total = after.book.clock.total;
    let open = said::chunk_and_place(&before.book, before.book.clock.total);
    let link = said::chunk_and_place(&before.book, total);
    match (
        link.0 == open.0,
        link.1 == open.1,
        said::held(&before.book, total),
    ) {
        (false, _, _) => "of a later chunk",
        (true, true, 0) => "open, empty",
        (true, true, _) => "open",
        (true, false, 0) => "later, empty",
        (true, false, _) => "later",
    }
}

fn count_window(tally: &mut Tally, state: &State) {
    let first = said::open_chunk(&state.book) == 0;
    let chunk = if first { "0" } else { "a later one" };
    tally.count("chain, in chunk", chunk);
    let window = said::logged_window(state);
    let spots = (window.oldest_slide()..=window.open_slide())
        .map(|slide| spot(slide / window.n(), slide % window.n()));
    let counted: usize = spots.map(|spot| usize::from(state.book.counts[spot])).sum();
    let pairs = if window.links.len() == counted {
        "links alone"
    } else {
        "pairs that are no links"
    };
    tally.count("chain, by", pairs);
    let all_touch = window.links.iter().all(|link| touch(link.a, link.b));
    let links = if all_touch {
        "touch"
    } else {
        "do not all touch"
    };
    tally.count("its links", links);
}

fn count_lamps(tally: &mut Tally, state: &State, mask: &[u8], answer: &Answer) {
    let lamps = lamps_of(answer);
    tally.count("lamps lit", lit(lamps));
    let linked = Linked::by(&said::logged_window(state).links);
    for cell in [lamps.left, lamps.right].into_iter().flatten() {
        let with_itself = *linked.with(cell) == CellSet::EMPTY;
        let class = LIT_BY[usize::from(with_itself)];
        tally.count("a lamp is lit by a link", class);
    }
    let same = lamps_by_forests(state, mask) == *answer;
    let class = if same { "the same" } else { "others" };
    tally.count("lamps by the forests", class);
}

/// What the lamps would be if they went by the forests, as joined does.
fn lamps_by_forests(state: &State, mask: &[u8]) -> Answer {
    let mut history = said::logged_window(state);
    let slide = history.open_slide();
    history.links = said::parent_steps(&state.book);
    history.links.iter_mut().for_each(|link| link.slide = slide);
    let book = Book {
        history: Some(history),
    };
    lamps_answer(book.lamps(LOG_PLACES, mask))
}

/// Whether the log chains two cells, whatever the forests say.
fn is_chained(state: &State, first: u32, second: u32) -> bool {
    let chain = Call::Chain {
        first,
        second,
        log_places: LOG_PLACES,
        chain_places: CHAIN_PLACES,
    };
    said::ask(&mut state.clone(), &chain).number() == 0
}
