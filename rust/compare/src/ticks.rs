//! Which classes a tick and a window fall in where the counter goes round, by the
//! oracle's history. Among them are those in which a slip would show: a tick whose
//! number is smaller than the time's and that is taken, one whose number is larger and
//! that is refused, half a turn and one tick less, and links on both sides of the end.

use crate::tally::{names, span, Spans, Tally};
use oracle::{History, Refusal, TURN};
use streams::hops::distance;
use streams::{Answer, Call};

const MOVED: &Spans = &[
    (0, "0"),
    (1, "1"),
    (2, "2 to 2^30"),
    ((1 << 30) + 1, "more"),
    ((1 << 31) - 1, "2^31 - 1"),
];
/// How far ahead a tick lies that is refused because of that.
const NOT_LATER: &Spans = &[
    (1 << 31, "2^31 ahead"),
    ((1 << 31) + 1, "farther"),
    (3 << 30, "back, by 2^30 at most"),
    ((1 << 32) - 1, "one tick back"),
];
const PASSES: &Spans = &[(0, "none"), (1, "one"), (2, "two"), (3, "three and more")];
const ENDS: &Spans = &[(0, "none"), (1, "one"), (2, "more")];
const SIDES: [&str; 2] = ["on one side of an end", "on both sides"];

/// The rows that this module fills for streams of calls.
pub fn rows() -> Vec<(&'static str, Vec<&'static str>)> {
    vec![
        ("ticks moved", names(MOVED)),
        ("tick of number 4", names(NOT_LATER)),
        ("its number", vec!["below the time's", "above it"]),
        ("tick taken", vec!["not over the end", "over the end"]),
        ("its number and T0", vec!["T0 or above", "below T0"]),
        ("passes of the end until then", names(PASSES)),
        ("open slide", vec!["below 2^32", "2^32 and more"]),
        ("link's slide", vec!["within a turn", "across the end"]),
        ("ends in the window of a question", names(ENDS)),
        ("links of such a window", SIDES.to_vec()),
        ("links from L on", SIDES.to_vec()),
        ("L", vec!["below 2^32", "2^32", "above"]),
        (
            "listing, open slide",
            vec!["up to 10 digits", "11 and more"],
        ),
    ]
}

/// How far the time moved.
pub(crate) fn count_moved(tally: &mut Tally, time: u32, tick: u32) {
    let ticks = u64::from(distance(time, tick));
    tally.count("ticks moved", span(MOVED, ticks));
}

/// The classes of [`count_moved`].
pub(crate) fn moved() -> Vec<&'static str> {
    names(MOVED)
}

/// Why a tick was refused that is half a turn ahead or more.
pub(crate) fn count_not_later(tally: &mut Tally, time: u32, tick: u32) {
    let ticks = u64::from(distance(time, tick));
    tally.count("tick of number 4", span(NOT_LATER, ticks));
}

/// The classes of [`count_not_later`].
pub(crate) fn not_later() -> Vec<&'static str> {
    names(NOT_LATER)
}

/// A tick that is refused with 4; the time is that of the book. In a stream no total
/// runs out.
pub(crate) fn count_refused(tally: &mut Tally, time: Option<u32>, call: &Call, answer: &Answer) {
    if let (Call::Link { tick, .. } | Call::Clock { tick, .. }, Some(time)) = (call, time) {
        if answer.number() == Refusal::Tick.number() {
            count_not_later(tally, time, *tick);
            let above = *tick > time;
            let class = if above {
                "above it"
            } else {
                "below the time's"
            };
            tally.count("its number", class);
        }
    }
}

/// A tick that was taken; the history is that after it.
pub(crate) fn count_taken(tally: &mut Tally, time: u32, history: &History) {
    count_moved(tally, time, history.time);
    let over = history.time < time;
    let class = if over {
        "over the end"
    } else {
        "not over the end"
    };
    tally.count("tick taken", class);
    let below = history.time < history.settings.t0;
    let class = if below { "below T0" } else { "T0 or above" };
    tally.count("its number and T0", class);
    let passes = passes(history, history.total) as u64;
    tally.count("passes of the end until then", span(PASSES, passes));
    let far = history.open_slide() >= 1 << 32;
    let class = if far { "2^32 and more" } else { "below 2^32" };
    tally.count("open slide", class);
}

/// The slide of a link that was taken.
pub(crate) fn count_link(tally: &mut Tally, history: &History) {
    let (before, after) = turns_of(history, history.open_slide());
    let across = before < after;
    let class = if across {
        "across the end"
    } else {
        "within a turn"
    };
    tally.count("link's slide", class);
}

/// The window of a question that was answered.
pub(crate) fn count_window(tally: &mut Tally, history: &History) {
    let (oldest, _) = turns_of(history, history.oldest_slide());
    let ends = passes(history, history.total) - oldest;
    let row = "ends in the window of a question";
    tally.count(row, span(ENDS, ends as u64));
    if ends > 0 {
        let class = side(history, history.oldest_slide());
        tally.count("links of such a window", class);
    }
}

/// The chain of two cells.
pub(crate) fn count_chain(tally: &mut Tally, history: &History, l: u64) {
    tally.count("links from L on", side(history, l));
}

pub(crate) fn count_l(tally: &mut Tally, l: u64) {
    let class = match l {
        0..=0xFFFF_FFFF => "below 2^32",
        0x1_0000_0000 => "2^32",
        _ => "above",
    };
    tally.count("L", class);
}

/// The text of a listing, where it is none of a refusal.
pub(crate) fn count_listing(tally: &mut Tally, answer: &Answer) {
    if let Answer::List { length, output, .. } = answer {
        let text = String::from_utf8_lossy(&output[..*length]);
        let window = text
            .lines()
            .next()
            .and_then(|of| of.strip_prefix("window "));
        if let Some(slide) = window.and_then(|of| of.rsplit(' ').next()) {
            let class = match slide.len() {
                0..=10 => "up to 10 digits",
                _ => "11 and more",
            };
            tally.count("listing, open slide", class);
        }
    }
}

/// How often the counter has passed its end at a total.
fn passes(history: &History, total: u128) -> u128 {
    (u128::from(history.settings.t0) + total) / TURN
}

/// The same where a slide begins and where it ends.
fn turns_of(history: &History, slide: u64) -> (u128, u128) {
    let b = u128::from(history.settings.b);
    let first = u128::from(slide) * b;
    (passes(history, first), passes(history, first + b - 1))
}

/// Whether the window has, from a slide on, a link of a slide that lies before an end
/// and one of a slide that lies after it.
fn side(history: &History, first: u64) -> &'static str {
    let links = history.links_of_slides(first, history.open_slide());
    let both = match (links.first(), links.last()) {
        (Some(oldest), Some(newest)) => {
            let (_, before) = turns_of(history, oldest.slide);
            let (after, _) = turns_of(history, newest.slide);
            before < after
        }
        _ => false,
    };
    SIDES[usize::from(both)]
}

#[cfg(test)]
mod tests {
    use super::*;
    use oracle::{Link, Settings};

    /// Slides of 10 ticks, the counter's end after the 4th tick of slide 2.
    fn history(slides: &[u64], total: u128) -> History {
        let settings = Settings {
            n: 4,
            b: 10,
            mounting: 1,
            t0: u32::MAX - 23,
        };
        let mut history = History::at_total(settings, total);
        let link = |&slide: &u64| Link { slide, a: 1, b: 2 };
        history.links = slides.iter().map(link).collect();
        history
    }

    #[test]
    fn the_end_lies_in_a_slide() {
        let turns = |slide| turns_of(&history(&[], 0), slide);
        assert_eq!([1, 2, 3].map(turns), [(0, 0), (0, 1), (1, 1)]);
        let before_and_after = [23, 24].map(|total| passes(&history(&[], 0), total));
        assert_eq!(before_and_after, [0, 1]);
    }

    #[test]
    fn links_of_the_slide_with_the_end_are_on_no_side_for_sure() {
        for (slides, expected) in [
            (&[][..], SIDES[0]),
            (&[0, 1, 2], SIDES[0]),
            (&[2, 3], SIDES[0]),
            (&[2, 2], SIDES[0]),
            (&[1, 2, 3], SIDES[1]),
            (&[1, 3], SIDES[1]),
        ] {
            assert_eq!(side(&history(slides, 35), 0), expected);
        }
        assert_eq!(side(&history(&[1, 2, 3], 35), 2), SIDES[0]);
    }
}
