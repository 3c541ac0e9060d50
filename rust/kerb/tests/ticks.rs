//! The counter goes round, and the total counts on: the ends of what a tick may be ahead, and of what a total may be.

use kerb::{Book, LorryCell, Mounting, RawBook, Refusal, Settings, SlideTicks, UnitCell};

/// How far ahead of the book's time a tick may be.
const REACH: u32 = 2_147_483_647;
const LAST_TOTAL: u64 = 9_223_372_036_854_775_807;

fn opened(t0: u32, b: u32) -> Book {
    Book::open(Settings {
        t0,
        b,
        n: 3,
        mounting: Mounting::Plain,
    })
    .unwrap()
}

/// The book with another total.
fn with_total(book: &Book, total: u64) -> RawBook {
    let mut raw = book.raw().clone();
    raw.clock.total = total;
    raw
}

#[test]
fn a_tick_is_taken_up_to_half_a_turn_ahead() {
    for t0 in [0, 1, REACH, REACH + 1, u32::MAX - 1, u32::MAX] {
        for ahead in [0, 1, REACH - 1, REACH] {
            let mut book = opened(t0, 10);
            let tick = t0.wrapping_add(ahead);
            assert_eq!(book.clock(tick), Ok(()), "{t0} and {ahead}");
            assert_eq!((book.time(), book.total()), (tick, ahead.into()));
            assert_eq!(book.open_slide(), u64::from(ahead) / 10);
            let mut linked = opened(t0, 10);
            linked.link(tick, UnitCell(1), UnitCell(2)).unwrap();
            assert_eq!(linked.raw().clock, book.raw().clock);
        }
        for ahead in [REACH + 1, REACH + 2, u32::MAX - 1, u32::MAX] {
            let mut book = opened(t0, 10);
            let before = book.clone();
            let tick = t0.wrapping_add(ahead);
            assert_eq!(book.clock(tick), Err(Refusal::Early), "{t0} and {ahead}");
            let link = book.link(tick, UnitCell(1), UnitCell(2));
            assert_eq!(link, Err(Refusal::Early));
            assert_eq!(book, before);
        }
    }
}

/// The same tick again and again, a turn apart: another total, and another slide.
#[test]
fn a_tick_is_in_another_slide_a_turn_later() {
    let mut book = opened(7, 1 << 31);
    for turn in 0..5 {
        assert_eq!((book.time(), book.total()), (7, turn << 32));
        assert_eq!(book.open_slide(), 2 * turn);
        book.link(7, UnitCell(1), UnitCell(2)).unwrap();
        for tick in [7 + REACH, 7 + REACH + 2, 7] {
            book.clock(tick).unwrap();
        }
    }
    // the newest link is two slides old, and the window has three
    let (why, _) = book.why(LorryCell(1), LorryCell(2)).unwrap();
    assert_eq!((why.newest, why.hold), (8, 0));
}

/// Up to the last total, and there the same tick alone.
#[test]
fn the_total_has_an_end() {
    let book = opened(5, 10);
    let mut log = book.log().to_vec();
    let mut last = with_total(&book, LAST_TOTAL - 1);
    let tick = last.time().wrapping_add(2);
    assert_eq!(last.clock(&log, tick), Err(Refusal::Early));
    let link = last.link(&mut log, tick, UnitCell(1), UnitCell(2));
    assert_eq!(link, Err(Refusal::Early));
    assert_eq!(last.clock(&log, tick - 1), Ok(()));
    assert_eq!(last.total(), LAST_TOTAL);
    assert_eq!(last.time(), 5_u32.wrapping_add(LAST_TOTAL as u32));
    assert_eq!(last.clock(&log, tick), Err(Refusal::Early));
    let again = last.link(&mut log, tick - 1, UnitCell(1), UnitCell(2));
    assert_eq!(again, Ok(()));
    assert_eq!(last.open_slide(), LAST_TOTAL / 10);

    let beyond = with_total(&book, LAST_TOTAL + 1);
    let answer = beyond.joined(LorryCell(1), LorryCell(1));
    assert_eq!(answer, Err(Refusal::NoBook));
    assert_eq!(beyond.open_slide(), (LAST_TOTAL + 1) / 10);
    assert_eq!(beyond.time(), 5);
}

#[test]
fn a_slide_has_totals_and_ticks() {
    let book = opened(u32::MAX - 4, 10);
    let of = |slide, first_total, last_total| {
        let tick = |total: u64| (u32::MAX - 4).wrapping_add(total as u32);
        let ticks = SlideTicks {
            first_total,
            last_total,
            first: tick(first_total),
            last: tick(last_total),
        };
        assert_eq!(book.slide_ticks(slide), Some(ticks));
    };
    of(0, 0, 9);
    assert_eq!(book.slide_ticks(0).unwrap().last, 4);
    of(1, 10, 19);
    of(1 << 32, 10 << 32, (10 << 32) + 9);
    // the last slide is cut short, and after it there is none
    let last = LAST_TOTAL / 10;
    of(last - 1, 10 * (last - 1), 10 * last - 1);
    of(last, 10 * last, LAST_TOTAL);
    assert_eq!(book.slide_ticks(last + 1), None);
    assert_eq!(book.slide_ticks(u64::MAX), None);
    assert_eq!(RawBook::never_opened().slide_ticks(0), None);
    let never = RawBook::never_opened();
    assert_eq!((never.time(), never.total()), (0, 0));
}
