//! The counter that goes round, each case a test of its own: what counts as later, windows
//! and slides over the end, and books whose total is about to run out.

mod common;
use common::*;
use compare::altered::said;
use compare::fields::book_of;
use compare::{library, Difference, Lockstep, State};
use oracle::{History, CHAIN_PLACES, LOG_PLACES, MASK_BYTES, MOST_TOTAL, TURN};
use streams::files::file_of;
use streams::hops::{ahead, LONGEST_HOP};
use streams::{Answer, Call, Dice, Kind, Random};

/// Goes on by so many ticks, hop by hop.
fn go_on(books: &mut Lockstep, ticks: u128) {
    let wanted = books.history().expect("an opened book").total + ticks;
    loop {
        let history = books.history().expect("an opened book");
        let tick = match wanted - history.total {
            0 => return,
            left => ahead(history.time, left),
        };
        assert_eq!(clock(books, tick), 0);
    }
}

#[test]
fn a_hop_of_2147483647_is_taken_and_2147483648_is_refused() {
    for t0 in [0, 45, LONGEST_HOP, 1 << 31, 3_000_000_000, u32::MAX] {
        for b in [1, 10, u32::MAX] {
            for (ticks, expected) in [
                (0, 0),
                (1, 0),
                (2_147_483_647, 0),
                (2_147_483_648, 4),
                (2_147_483_649, 4),
                (4_294_967_295, 4),
            ] {
                let tick = t0.wrapping_add(ticks);
                let mut books = opened(settings(3, b, 1, t0));
                assert_eq!(clock(&mut books, tick), expected);
                let mut books = opened(settings(3, b, 1, t0));
                assert_eq!(link(&mut books, tick, 1, 2), expected);
            }
        }
    }
}

/// Of the library's book.
fn total_and_slide(books: &Lockstep) -> (u64, u64) {
    let book = &books.library().book;
    (book.total(), book.open_slide())
}

/// RULES 9.13.
#[test]
fn o6_the_counter_goes_round() {
    let mut books = opened(settings(3, 10, 1, 4_294_967_290));
    assert_eq!(link(&mut books, 4_294_967_295, 1, 2), 0);
    assert_eq!(total_and_slide(&books), (5, 0));
    assert_eq!(link(&mut books, 4, 2, 3), 0);
    assert_eq!(total_and_slide(&books), (10, 1));
    assert_eq!(chain(&mut books, 1, 3), (0, 0, 1, vec![1, 2, 3]));
    assert_eq!(link(&mut books, 4_294_967_295, 1, 2), 4);
    assert_eq!(clock(&mut books, 2_147_483_652), 4);
    assert_eq!(total_and_slide(&books), (10, 1));
    assert_eq!(clock(&mut books, 2_147_483_651), 0);
    assert_eq!(total_and_slide(&books), (2_147_483_657, 214_748_365));
    assert_eq!(joined(&mut books, 1, 3), (0, false, 0));
    assert_eq!(clock(&mut books, 2), 0);
    assert_eq!(total_and_slide(&books), (4_294_967_304, 429_496_730));
    assert_eq!(link(&mut books, 4, 1, 2), 0);
    assert_eq!(total_and_slide(&books), (4_294_967_306, 429_496_730));
    let chained = (0, 429_496_730, 2, vec![1, 2]);
    assert_eq!(chain(&mut books, 1, 2), chained);
}

/// Slides of 10 ticks from 4,294,967,271 on: slide 2 lies across the end.
#[test]
fn a_window_on_both_sides_of_the_end() {
    let t0 = u32::MAX - 24;
    for mounting in 1..=2 {
        let mut books = opened(settings(3, 10, mounting, t0));
        for (tick, a, b) in [
            (t0, 31, 32),
            (t0 + 19, 32, 33),
            (u32::MAX, 33, 34),
            (0, 34, 35),
            (4, 35, 36),
        ] {
            assert_eq!(link(&mut books, tick, a, b), 0);
        }
        let of_unit = |cells: [u16; 6]| {
            let lorry = |cell| oracle::in_lorrys_numbers(u32::from(cell), mounting) as u16;
            cells.map(lorry)
        };
        let cells = of_unit([31, 32, 33, 34, 35, 36]);
        let [first, second, last] = [cells[0], cells[1], cells[5]].map(u32::from);
        let chained = (0, 0, 0, cells.to_vec());
        assert_eq!(chain(&mut books, first, last), chained);
        assert_eq!(clock(&mut books, 5), 0);
        assert_eq!(chain(&mut books, first, last).0, 7);
        let chained = (0, 1, 0, cells[1..].to_vec());
        assert_eq!(chain(&mut books, second, last), chained);
        for old in [4, 0, u32::MAX, t0, t0 - 1] {
            assert_eq!(clock(&mut books, old), 4);
            assert_eq!(link(&mut books, old, 31, 32), 4);
        }
    }
}

/// 2^32 slides of one tick, and then on; and once more, so that the slide has 11 digits.
#[test]
fn slides_beyond_2_to_the_32() {
    let mut books = opened(settings(4, 1, 1, 0));
    for turns in [1, 3] {
        let k = u64::try_from(turns * TURN).unwrap();
        let total = books.history().unwrap().total;
        go_on(&mut books, turns * TURN - 2 - total);
        for (tick, a, b) in [(u32::MAX - 1, 1, 2), (u32::MAX, 2, 3), (0, 3, 4), (1, 4, 5)] {
            assert_eq!(link(&mut books, tick, a, b), 0);
        }
        let chained = (0, k - 2, 0, vec![1, 2, 3, 4, 5]);
        assert_eq!(chain(&mut books, 1, 5), chained);
        assert_eq!(chain(&mut books, 3, 5), (0, k, 2, vec![3, 4, 5]));
        assert_eq!(chain(&mut books, 5, 5), (0, k + 2, 4, vec![5]));
        let book = &books.library().book;
        assert_eq!((book.time(), book.open_slide()), (1, k + 1));
        let ticks = book.slide_ticks(k - 1).unwrap();
        assert_eq!((ticks.first, ticks.last), (u32::MAX, u32::MAX));
        assert_eq!((ticks.first_total, ticks.last_total), (k - 1, k - 1));
    }
}

/// The same settings and the same time, and another slide.
#[test]
fn a_ticks_slide_does_not_follow_from_the_tick_alone() {
    let after = |turns: u128| {
        let mut books = opened(settings(3, 10, 1, 3));
        go_on(&mut books, turns * TURN);
        assert_eq!(link(&mut books, 17, 1, 2), 0);
        let book = &books.library().book;
        (book.time(), book.open_slide())
    };
    let times_and_slides = [0, 1, 2].map(after);
    assert_eq!(
        times_and_slides,
        [(17, 1), (17, 429_496_731), (17, 858_993_460)]
    );
}

/// Playing and listing go by the same rule.
#[test]
fn a_file_whose_records_pass_the_end() {
    let t0 = u32::MAX - 1;
    let mut ticks = vec![t0];
    for hop in 0..6 {
        ticks.push(ahead(ticks[hop], LONGEST_HOP.into()));
    }
    let latest = ticks[6];
    let mut links: Vec<(u32, u16, u16)> = ticks.iter().map(|&tick| (tick, 1, 2)).collect();
    links.extend([(latest, 2, 3), (latest.wrapping_add(1), 3, 4)]);
    let file = file_of(settings(2, 1, 1, t0), &records(&links));
    let text = "window 2 1 1 12884901883\ngroup 1 4 0\nlinks 3\n";
    assert_eq!(listing(&file), text);
    let mut refused = links.clone();
    refused.push((latest.wrapping_add(1 << 31).wrapping_add(1), 1, 2));
    let file = file_of(settings(2, 1, 1, t0), &records(&refused));
    assert_eq!(listing(&file), "refused 4 9\n");
}

/// Where T0 lies makes no difference. All ticks of a stream shifted round the counter: every call gives what it gave, and leaves the
/// same book but for T0.
#[test]
fn all_ticks_shifted() {
    let shifted = |call: &Call, by: u32| {
        let mut call = call.clone();
        match &mut call {
            Call::Opening { settings, .. } => settings.t0 = settings.t0.wrapping_add(by),
            Call::Link { tick, .. } | Call::Clock { tick, .. } => *tick = tick.wrapping_add(by),
            _ => {}
        }
        call
    };
    let mut dice = Dice::new(compare::run::seed());
    for kind in [Kind::Few, Kind::Touching, Kind::HugeJumps] {
        let by = dice.bits() as u32;
        let mut here = State::with_new_log(kerb::RawBook::never_opened());
        let mut there = here.clone();
        for call in Random::new(dice.bits(), kind).take(4_000) {
            let answer = library::ask(&mut here, &call);
            let moved = shifted(&call, by);
            assert_eq!(library::ask(&mut there, &moved), answer, "{moved:?}");
            let mut expected = here.clone();
            if expected.book.clock.n != 0 {
                expected.book.clock.t0 = expected.book.clock.t0.wrapping_add(by);
            }
            Difference::of_states(&call, &expected, &there)
                .unwrap_or_else(|difference| panic!("{difference}"));
        }
    }
}

/// A book that no calls of a test would come to, and its log: nothing is stored.
fn state_at(n: u32, b: u32, t0: u32, total: u64) -> State {
    let fresh = History::at_total(settings(n, b, 1, t0), 0);
    let mut state = State::with_new_log(book_of(&fresh));
    state.book.clock.total = total;
    state
}

/// What a call gives, and that it is what docs/BOOK.md says, for the state afterwards too.
fn put_to(state: &mut State, call: Call) -> Answer {
    let mut expected = state.clone();
    let answer = library::ask(state, &call);
    let said = said::ask(&mut expected, &call);
    let told = said::told(&expected.book);
    Difference::of_answers(&call, &said, &answer)
        .and_then(|()| Difference::of_states(&call, &expected, state))
        .and_then(|()| Difference::of_clocks(&call, told, library::told(&state.book)))
        .unwrap_or_else(|difference| panic!("{difference}"));
    answer
}

fn clock_of(tick: u32) -> Call {
    let log_places = LOG_PLACES;
    Call::Clock { tick, log_places }
}

fn link_of(tick: u32, a: u32, b: u32) -> Call {
    Call::Link {
        tick,
        a,
        b,
        log_places: LOG_PLACES,
    }
}

fn chain_of(first: u32, second: u32) -> Call {
    Call::Chain {
        first,
        second,
        log_places: LOG_PLACES,
        chain_places: CHAIN_PLACES,
    }
}

const LIMIT: u64 = MOST_TOTAL as u64;

#[test]
fn the_total_runs_out() {
    for t0 in [0, 7, 1 << 31, u32::MAX] {
        for b in [1, 10, LONGEST_HOP, u32::MAX] {
            for left in [0, 1, 5, LONGEST_HOP - 1] {
                let mut state = state_at(3, b, t0, LIMIT - u64::from(left));
                let time = state.book.time();
                let (last, beyond) = (time.wrapping_add(left), time.wrapping_add(left + 1));
                assert_eq!(put_to(&mut state, clock_of(beyond)).number(), 4);
                assert_eq!(put_to(&mut state, link_of(beyond, 1, 2)).number(), 4);
                assert_eq!(put_to(&mut state, link_of(last, 1, 2)).number(), 0);
                assert_eq!(state.book.total(), LIMIT);
                // The same tick again, and no other.
                assert_eq!(put_to(&mut state, clock_of(last)).number(), 0);
                assert_eq!(put_to(&mut state, link_of(last, 2, 3)).number(), 0);
                for ticks in [1, 2, LONGEST_HOP, LONGEST_HOP + 1, u32::MAX] {
                    let tick = last.wrapping_add(ticks);
                    assert_eq!(put_to(&mut state, clock_of(tick)).number(), 4);
                    assert_eq!(put_to(&mut state, link_of(tick, 3, 4)).number(), 4);
                }
                assert_eq!(state.book.total(), LIMIT);
            }
        }
    }
}

/// A slide and the one after it always have a number.
#[test]
fn the_last_slides_of_all() {
    let mut state = state_at(16, 1, 7, LIMIT - 1);
    let time = state.book.time();
    assert_eq!(put_to(&mut state, link_of(time, 1, 2)).number(), 0);
    let last = time.wrapping_add(1);
    assert_eq!(put_to(&mut state, link_of(last, 2, 3)).number(), 0);
    let expected = [
        (1, 3, LIMIT - 1, 14),
        (2, 3, LIMIT, 15),
        (2, 2, LIMIT + 1, 16),
    ];
    for (first, second, newest, still) in expected {
        match put_to(&mut state, chain_of(first, second)) {
            Answer::Chain { l, hold, .. } => assert_eq!((l, hold), (newest, still)),
            other => unreachable!("{other:?}"),
        }
    }
    let book = &state.book;
    assert_eq!(book.open_slide(), LIMIT);
    let ticks = book.slide_ticks(LIMIT).unwrap();
    assert_eq!((ticks.first_total, ticks.last_total), (LIMIT, LIMIT));
    assert_eq!((ticks.first, ticks.last), (last, last));
    assert_eq!(book.slide_ticks(LIMIT + 1), None);
}

/// A total beyond its limit: every call that asks gives 1, and the questions about the clock answer.
#[test]
fn totals_beyond_the_limit_give_1() {
    for (total, expected) in [
        (LIMIT, 0),
        (LIMIT + 1, 1),
        (LIMIT + 2, 1),
        (u64::MAX - 1, 1),
        (u64::MAX, 1),
    ] {
        for b in [1, 10, u32::MAX] {
            let mut state = state_at(3, b, 5, total);
            let time = (total as u32).wrapping_add(5);
            assert_eq!(state.book.time(), time);
            assert_eq!(state.book.open_slide(), total / u64::from(b));
            let lamps = Call::Lamps {
                log_places: LOG_PLACES,
                mask: vec![0; MASK_BYTES],
            };
            let joined = Call::Joined {
                first: 1,
                second: 1,
            };
            for call in [clock_of(time), joined, chain_of(1, 1), lamps] {
                assert_eq!(put_to(&mut state, call).number(), expected);
            }
            assert_eq!(put_to(&mut state, link_of(time, 1, 2)).number(), expected);
            // An opening takes any book.
            let opening = Call::Opening {
                settings: settings(3, b, 1, 5),
                log_places: LOG_PLACES,
            };
            assert_eq!(put_to(&mut state, opening).number(), 0);
            assert_eq!((state.book.time(), state.book.total()), (5, 0));
        }
    }
}
