//! "Tick counter rolls over": what counts as later, the total and the slides that
//! come from it, and where the total runs out.

mod common;
use common::*;
use oracle::*;

const LAST: u32 = u32::MAX;

/// The longest step that is taken.
const LONGEST: u32 = 2_147_483_647;

/// T0 at either end of the counter, in its middle and between.
const STARTS: [u32; 8] = [
    0,
    1,
    45,
    LONGEST,
    LONGEST + 1,
    3_000_000_000,
    LAST - 1,
    LAST,
];

/// Goes on by so many ticks, as many longest steps at first as there are.
fn go_on(book: &mut Book, ticks: u128) {
    let mut left = ticks;
    while left > 0 {
        let step = left.min(u128::from(LONGEST));
        let tick = later(book, step as u32);
        assert_eq!(clock(book, tick), 0);
        left -= step;
    }
}

#[test]
fn the_longest_step_is_taken_and_one_more_is_refused() {
    for t0 in STARTS {
        let fresh = opened(3, 10, PLAIN, t0);
        for by_link in [false, true] {
            let put = |book: &mut Book, tick| {
                if by_link {
                    link(book, tick, 1, 2)
                } else {
                    clock(book, tick)
                }
            };
            for (ahead, expected) in [
                (0, 0),
                (1, 0),
                (LONGEST - 1, 0),
                (LONGEST, 0),
                (LONGEST + 1, 4),
                (LONGEST + 2, 4),
                (LAST - 1, 4),
                (LAST, 4),
            ] {
                let mut book = fresh.clone();
                let tick = later(&book, ahead);
                assert_eq!(put(&mut book, tick), expected, "{} from {}", ahead, t0);
                if expected == 0 {
                    let now = history(&book);
                    assert_eq!((now.time, now.total), (tick, u128::from(ahead)));
                    assert_eq!(now.open_slide(), u64::from(ahead / 10));
                } else {
                    assert_eq!(book, fresh);
                }
            }
        }
    }
}

/// Links before the end and after it are of one window, and slides go on.
#[test]
fn the_end_is_passed() {
    let mut book = opened(3, 10, PLAIN, LAST - 24);
    links(&mut book, &[(LAST - 24, 1, 2), (LAST - 5, 2, 3)]);
    assert_eq!(history(&book).open_slide(), 1);
    // 4,294,967,295 and 0 are of slide 2.
    links(&mut book, &[(LAST, 3, 4), (0, 4, 5), (4, 5, 6)]);
    assert_eq!(history(&book).open_slide(), 2);
    assert_eq!(chain(&book, 1, 6), Ok((0, 0, vec![1, 2, 3, 4, 5, 6])));
    assert_eq!(chain(&book, 3, 6), Ok((2, 2, vec![3, 4, 5, 6])));
    // Slide 3 begins at tick 5, and slide 0 leaves the window.
    assert_eq!(clock(&mut book, 5), 0);
    assert_eq!(history(&book).open_slide(), 3);
    assert!(!joined(&book, 1, 2).0);
    assert_eq!(chain(&book, 2, 6), Ok((1, 0, vec![2, 3, 4, 5, 6])));
    for old in [4, 0, LAST, LAST - 5, LAST - 24, LAST - 25] {
        assert_eq!(clock(&mut book, old), 4);
        assert_eq!(link(&mut book, old, 1, 2), 4);
    }
    // All of the old ones have left it.
    links(&mut book, &[(35, 7, 8)]);
    assert_eq!(history(&book).window().len(), 1);
}

/// 256 links are full on both sides of the end together.
#[test]
fn a_slide_across_the_end_takes_256_links() {
    let mut book = opened(2, 100, PLAIN, LAST - 49);
    for i in 0..256 {
        let tick = if i < 100 { LAST - 9 } else { 20 };
        assert_eq!(link(&mut book, tick, 1, 2), 0);
    }
    assert_eq!(link(&mut book, 49, 1, 2), 5);
    assert_eq!(link(&mut book, 50, 1, 2), 0);
    assert_eq!(history(&book).open_slide(), 1);
}

#[test]
fn the_end_is_passed_several_times() {
    for t0 in STARTS {
        let mut book = opened(4, 1, MIRRORED, t0);
        for turns in 1..=5 {
            let left = turns * TURN - history(&book).total;
            go_on(&mut book, left);
            let now = history(&book);
            assert_eq!((now.time, now.total), (t0, turns * TURN));
            let k = now.open_slide();
            assert_eq!(u128::from(k), turns * TURN);
            // A window of its own in every turn; that of the turn before is gone.
            let [first, second, third] = [0, 1, 2].map(|ticks| later(&book, ticks));
            links(&mut book, &[(first, 1, 2), (second, 2, 3), (third, 3, 4)]);
            assert_eq!(chain(&book, 63, 60), Ok((k, 1, vec![63, 62, 61, 60])));
            assert_eq!(chain(&book, 62, 62), Ok((k + 3, 4, vec![62])));
            assert_eq!(history(&book).window().len(), 3);
            assert_eq!(clock(&mut book, first), 4);
        }
    }
}

#[test]
fn the_same_tick_again_takes_no_time() {
    for t0 in STARTS {
        let mut book = opened(3, 10, PLAIN, t0);
        go_on(&mut book, 3 * TURN / 4);
        let tick = history(&book).time;
        let before = book.clone();
        for _ in 0..3 {
            assert_eq!(clock(&mut book, tick), 0);
            assert_eq!(book, before);
        }
        links(&mut book, &[(tick, 1, 2), (tick, 2, 3)]);
        assert_eq!(history(&book).total, 3 * TURN / 4);
    }
}

/// It is not the number that counts.
#[test]
fn ticks_before_t0_where_t0_is_high() {
    let t0 = LAST - 5;
    let mut book = opened(3, 10, PLAIN, t0);
    assert_eq!(clock(&mut book, t0 - 1), 4);
    assert_eq!(link(&mut book, 0, 1, 2), 0);
    assert_eq!((history(&book).total, history(&book).open_slide()), (6, 0));
    assert_eq!(link(&mut book, 4, 2, 3), 0);
    assert_eq!(history(&book).open_slide(), 1);
    assert_eq!(clock(&mut book, t0), 4);
    // More than half a turn later the tick before T0 lies ahead.
    go_on(&mut book, TURN / 2 + 10);
    assert_eq!(clock(&mut book, t0 - 1), 0);
    assert_eq!(history(&book).total, TURN - 1);
    assert_eq!(clock(&mut book, t0), 0);
    assert_eq!(history(&book).open_slide(), 429_496_729);
}

/// The same settings and the same latest tick, and other slides.
#[test]
fn a_ticks_slide_does_not_follow_from_the_tick_alone() {
    let slide_after = |turns: u128| {
        let mut book = opened(3, 10, PLAIN, 3);
        go_on(&mut book, turns * TURN);
        links(&mut book, &[(17, 1, 2)]);
        assert_eq!(history(&book).time, 17);
        assert_eq!(history(&book).links[0].slide, history(&book).open_slide());
        history(&book).open_slide()
    };
    let slides = [0, 1, 2, 3].map(slide_after);
    assert_eq!(slides, [1, 429_496_731, 858_993_460, 1_288_490_190]);
}

/// By steps that are drawn first, the ticks following from them.
#[test]
fn the_total_is_the_sum_of_the_steps() {
    let mut dice = Dice(21);
    for t0 in STARTS {
        let b = 1 + dice.below(1_000_000);
        let mut book = opened(3, b, PLAIN, t0);
        let mut sum: u128 = 0;
        for _ in 0..500 {
            let any = dice.below(LONGEST + 1);
            let step = [0, 1, any, LONGEST - 1, LONGEST][dice.below(5) as usize];
            sum += u128::from(step);
            let tick = (u128::from(t0) + sum) % 4_294_967_296;
            assert_eq!(clock(&mut book, tick as u32), 0);
            let refused = later(&book, LONGEST + 1 + dice.below(LONGEST + 1));
            assert_eq!(clock(&mut book, refused), 4);
            let now = history(&book);
            assert_eq!((now.total, u128::from(now.time)), (sum, tick));
            assert_eq!(u128::from(now.open_slide()), sum / u128::from(b));
            let at_once = History::at_total(now.settings, sum);
            assert_eq!(at_once, *now);
        }
        assert!(sum > 100 * TURN);
    }
}

/// A book at a total that no calls of a test would come to.
fn book_at(n: u32, b: u32, t0: u32, total: u128) -> Book {
    Book {
        history: Some(History::at_total(settings(n, b, PLAIN, t0), total)),
    }
}

#[test]
fn the_total_runs_out() {
    for t0 in STARTS {
        for b in [1, 10, LAST] {
            for left in [0, 1, 5, LONGEST - 1] {
                let mut book = book_at(3, b, t0, MOST_TOTAL - u128::from(left));
                let (last, beyond) = (later(&book, left), later(&book, left + 1));
                let before = book.clone();
                // The steps are short enough, and the total is not.
                assert_eq!(clock(&mut book, beyond), 4);
                assert_eq!(link(&mut book, beyond, 1, 2), 4);
                assert_eq!(book, before);
                assert_eq!(link(&mut book, last, 1, 2), 0);
                assert_eq!(history(&book).total, MOST_TOTAL);
                // The same tick again, and no other.
                assert_eq!(clock(&mut book, last), 0);
                assert_eq!(link(&mut book, last, 2, 3), 0);
                for ahead in [1, 2, LONGEST, LONGEST + 1, LAST] {
                    let tick = later(&book, ahead);
                    assert_eq!(clock(&mut book, tick), 4);
                    assert_eq!(link(&mut book, tick, 1, 2), 4);
                }
                assert_eq!(history(&book).links.len(), 2);
                assert_eq!(history(&book).total, MOST_TOTAL);
            }
        }
    }
}

/// The last slide of all and the one after it have numbers.
#[test]
fn the_last_slides_of_all() {
    let k = 9_223_372_036_854_775_807;
    let mut book = book_at(16, 1, 7, MOST_TOTAL - 1);
    let ticks = [later(&book, 0), later(&book, 1)];
    links(&mut book, &[(ticks[0], 1, 2), (ticks[1], 2, 3)]);
    assert_eq!(history(&book).open_slide(), k);
    assert_eq!(chain(&book, 1, 3), Ok((k - 1, 14, vec![1, 2, 3])));
    // "A closing raises k by one, even where no tick could still reach that slide."
    assert_eq!(chain(&book, 2, 3), Ok((k, 15, vec![2, 3])));
    assert_eq!(chain(&book, 2, 2), Ok((k + 1, 16, vec![2])));
    // 2 → 1 and 3 → 1 in the forward forest: both slides are of the last chunk.
    assert_eq!(joined(&book, 1, 3), (true, 1));
}

/// Where T0 lies makes no difference: all ticks shifted round the counter, and every
/// number, slide and answer is the same.
#[test]
fn all_ticks_shifted() {
    let mut dice = Dice(22);
    for _ in 0..60 {
        let t0 = dice.below(LONGEST);
        let (n, b) = (1 + dice.below(5), 1 + dice.below(20));
        let shifts = [1, 1_000, LONGEST + 1, LAST - t0, LAST - t0 - 20];
        let mut book = opened(n, b, PLAIN, t0);
        let mut shifted = shifts.map(|by| opened(n, b, PLAIN, t0.wrapping_add(by)));
        for _ in 0..60 {
            let longest = [LONGEST, LONGEST + 1][dice.below(2) as usize];
            let ahead = [0, 1, dice.below(3 * b), b, longest, LAST];
            let tick = later(&book, ahead[dice.below(6) as usize]);
            let cell = dice.below(10);
            let number = link(&mut book, tick, cell, cell + 1);
            for (by, shifted) in shifts.into_iter().zip(&mut shifted) {
                let tick = tick.wrapping_add(by);
                assert_eq!(link(shifted, tick, cell, cell + 1), number);
                assert_eq!(history(shifted).links, history(&book).links);
                assert_eq!(history(shifted).total, history(&book).total);
                assert_eq!(chain(shifted, 0, cell), chain(&book, 0, cell));
            }
        }
    }
}

/// Playing and listing go by the same rule.
#[test]
fn files_whose_records_pass_the_end() {
    let mut ticks = vec![LAST - 1];
    for _ in 0..6 {
        let latest = ticks[ticks.len() - 1];
        ticks.push(latest.wrapping_add(LONGEST));
    }
    let latest = ticks[ticks.len() - 1];
    let records: Vec<(u32, u32, u32)> = ticks.iter().map(|&tick| (tick, 1, 2)).collect();
    let more = [(latest, 2, 3), (latest.wrapping_add(1), 3, 4)];
    let records = [&records[..], &more].concat();
    let text = listing(&file(settings(2, 1, PLAIN, LAST - 1), &records));
    // 6 × 2,147,483,647 + 1
    assert_eq!(text, "window 2 1 1 12884901883\ngroup 1 4 0\nlinks 3\n");
    // The seventh step is one too long.
    let refused = [(latest.wrapping_add(LONGEST + 2), 1, 2)];
    let records = [&records[..], &refused].concat();
    let text = listing(&file(settings(2, 1, PLAIN, LAST - 1), &records));
    assert_eq!(text, "refused 4 9\n");
}
