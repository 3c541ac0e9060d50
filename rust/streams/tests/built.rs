//! The built streams reach what they were built for, by the oracle's answers.

use oracle::{Book, History, Settings, TURN};
use streams::hops::{distance, LONGEST_HOP};
use streams::{ask, built, Answer, Call};

fn settings(n: u32, mounting: u32) -> Settings {
    Settings {
        n,
        b: 7,
        mounting,
        t0: 1_000,
    }
}

/// What a stream came to.
#[derive(Debug, Default, PartialEq)]
struct Reached {
    /// The most steps for a cell with itself.
    steps_itself: u32,
    /// The most steps for two different cells.
    steps_two: u32,
    /// The most cells of a chain.
    cells: u32,
    /// The most steps of one walk, in the backward and the forward forest.
    back: u32,
    ahead: u32,
    yes: u32,
    no: u32,
    /// Lamps that were lit, on the left and on the right, and that were dark.
    left: u32,
    right: u32,
    dark: u32,
    full_slides: u32,
    apart: u32,
    /// Ticks that were refused, and those among them that lie half a turn ahead.
    early: u32,
    half_turns: u32,
    /// Ticks that were taken as far ahead as can be.
    longest_hops: u32,
    /// Ticks that were taken and passed the end of the counter.
    passes: u32,
    /// Questions with links of the window on both sides of an end.
    both_sides: u32,
    /// The largest open slide.
    slide: u64,
}

/// Runs a stream. Only full slides, cells that do not touch and ticks may be refused in
/// it, and they are counted.
fn run(calls: &[Call]) -> Reached {
    let mut book = Book::new();
    let mut reached = Reached::default();
    for call in calls {
        let before = book.history.as_ref().map(|history| history.time);
        let answer = ask(&mut book, call);
        let number = answer.number();
        if let (Call::Link { tick, .. } | Call::Clock { tick, .. }, Some(time)) = (call, before) {
            let ticks = distance(time, *tick);
            reached.half_turns += u32::from(number == 4 && ticks == 1 << 31);
            reached.longest_hops += u32::from(number == 0 && ticks == LONGEST_HOP);
            reached.passes += u32::from(number == 0 && *tick < time);
        }
        let history = book.history.as_ref().expect("a stream opens first");
        reached.slide = reached.slide.max(history.open_slide());
        if call.is_question() {
            reached.both_sides += u32::from(lies_on_both_sides(history));
        }
        match (call, answer) {
            (Call::Joined { first, second }, Answer::Joined { joined, steps, .. }) => {
                let most = if first == second {
                    &mut reached.steps_itself
                } else {
                    &mut reached.steps_two
                };
                if steps > *most {
                    *most = steps;
                    look_at_walks(&book, &[*first, *second], &mut reached);
                }
                if joined {
                    reached.yes += 1;
                } else {
                    reached.no += 1;
                }
            }
            (Call::Chain { .. }, Answer::Chain { cells, .. }) => {
                reached.cells = reached.cells.max(cells);
            }
            (
                Call::Lamps { .. },
                Answer::Lamps {
                    number,
                    left,
                    right,
                    ..
                },
            ) => {
                assert_eq!(number, 0);
                reached.left += u32::from(left);
                reached.right += u32::from(right);
                reached.dark += u32::from(!left) + u32::from(!right);
            }
            _ => {
                assert!([0, 4, 5, 14].contains(&number), "{:?}", call);
                reached.early += u32::from(number == 4);
                reached.full_slides += u32::from(number == 5);
                reached.apart += u32::from(number == 14);
            }
        }
    }
    reached
}

/// Whether the window has a link of a slide that lies before the latest pass of the
/// counter's end, and one of a slide that lies after it.
fn lies_on_both_sides(history: &History) -> bool {
    let (t0, b) = (
        u128::from(history.settings.t0),
        u128::from(history.settings.b),
    );
    let end = ((t0 + history.total) / TURN * TURN).saturating_sub(t0);
    let start = |slide: u64| u128::from(slide) * b;
    let before = |slide: u64| start(slide) + b <= end;
    let after = |slide: u64| start(slide) >= end && end > 0;
    let window = history.window();
    window.iter().any(|link| before(link.slide)) && window.iter().any(|link| after(link.slide))
}

fn look_at_walks(book: &Book, cells: &[u32], reached: &mut Reached) {
    let history = book.history.as_ref().unwrap();
    let cut = history.open_place() + 1;
    let (backward, forward) = (history.backward_forest(), history.forward_forest());
    for &cell in cells {
        reached.back = reached.back.max(backward.walk_at_cut(cell, cut).steps);
        reached.ahead = reached.ahead.max(forward.walk(cell).steps);
    }
}

#[test]
fn walks_of_10_steps_40_with_itself_and_38_for_two() {
    for n in 8..=16 {
        for mounting in 1..=2 {
            for chunk in [1, 4] {
                let calls = built::deep_walks(settings(n, mounting), chunk, 4, 4, u64::from(n));
                let reached = run(&calls);
                assert_eq!((reached.back, reached.ahead), (10, 10), "n {}", n);
                assert_eq!(reached.steps_itself, 40, "n {}", n);
                assert_eq!(reached.steps_two, 38, "n {}", n);
            }
        }
    }
}

/// 2^j cells take 2^j - 1 links, so 1 slide comes to 8 steps, 2 and 3 slides to
/// 9, 4 slides to 10; and 10 steps in one forest need n 4 or 5.
#[test]
fn walks_with_fewer_slides() {
    let steps = [0, 8, 9, 9, 10];
    for back in 0..=4u64 {
        for ahead in 1..=4u64 {
            let n = back + ahead;
            let calls = built::deep_walks(settings(n as u32, 1), 2, back, ahead, 5);
            let reached = run(&calls);
            assert!(reached.back >= steps[back as usize]);
            assert_eq!(reached.ahead, steps[ahead as usize]);
            let both = 2 * (steps[back as usize] + steps[ahead as usize]);
            if back == ahead || back == 0 {
                // The same cells, so the same deepest one, in both forests.
                assert_eq!(reached.steps_itself, both);
            }
        }
    }
}

#[test]
fn zigzags_cross_1023_groups() {
    for (n, back, ahead, cells) in [
        (2, 1, 1, 512),
        (3, 2, 1, 512),
        (3, 1, 2, 512),
        (4, 2, 2, 1024),
        (9, 3, 2, 1024),
        (16, 8, 8, 1024),
    ] {
        for mounting in 1..=2 {
            let calls = built::zigzag(settings(n, mounting), 3, back, ahead, 77);
            let reached = run(&calls);
            assert_eq!(reached.cells, cells, "n {}", n);
            assert!(reached.yes > 20 && reached.no > 20);
            assert_eq!(
                groups_met(&calls),
                (cells as usize / 2, cells as usize / 2 - 1)
            );
        }
    }
}

/// How many groups of two or more cells the backward and the forward forest
/// have when the first chain of a zigzag is asked for: all are crossed, for
/// the chain has all their cells.
fn groups_met(calls: &[Call]) -> (usize, usize) {
    let mut book = Book::new();
    for call in calls {
        if matches!(call, Call::Chain { .. }) {
            break;
        }
        ask(&mut book, call);
    }
    let history = book.history.as_ref().unwrap();
    let cut = history.open_place() + 1;
    let (backward, forward) = (history.backward_forest(), history.forward_forest());
    // Every group is a pair, so one cell of each takes a step.
    let steps_back = |cell: &u32| backward.walk_at_cut(*cell, cut).steps == 1;
    let steps_ahead = |cell: &u32| forward.walk(*cell).steps == 1;
    (
        (0..1024).filter(steps_back).count(),
        (0..1024).filter(steps_ahead).count(),
    )
}

#[test]
fn chains_of_1023_links() {
    for n in 4..=16 {
        for mounting in 1..=2 {
            let calls = built::long_chain(settings(n, mounting), 3 * u64::from(n) - 2, 8);
            let reached = run(&calls);
            assert_eq!(reached.cells, 1024, "n {}", n);
        }
    }
}

#[test]
fn grids_have_long_chains_with_ties() {
    for n in [1, 2, 8, 16] {
        let calls = built::grid(settings(n, 2), 5, 3);
        let reached = run(&calls);
        // From corner to corner: over 15 rings and all columns but one.
        let columns = match n {
            1 => 8,
            2 => 17,
            _ => 64,
        };
        assert!(reached.cells >= 15 + columns, "n {}", n);
    }
}

#[test]
fn full_logs_are_full() {
    for n in [1, 5, 16] {
        let calls = built::full_log(settings(n, 1), 4);
        let mut book = Book::new();
        let mut refused = 0;
        for call in &calls {
            let answer = ask(&mut book, call);
            refused += u32::from(answer.number() == 5);
        }
        let history = book.history.as_ref().unwrap();
        assert_eq!(u64::from(refused), history.open_slide() + 1);
        assert_eq!(history.window().len(), 256 * n as usize);
    }
}

#[test]
fn windows_over_the_end() {
    for n in [3, 7, 16] {
        for (b, t0, times) in [(1, 0, 1), (1, 0, 3), (7, 1_000, 1), (900, 4_294_960_000, 2)] {
            let settings = Settings {
                b,
                t0,
                ..settings(n, 2)
            };
            let reached = run(&built::over_the_end(settings, times, 6));
            assert_eq!(u128::from(reached.passes), times, "{:?}", reached);
            assert!(reached.both_sides > 10, "{:?}", reached);
            assert!(reached.early > 2 * n, "{:?}", reached);
            let end = times * TURN - u128::from(t0);
            let last = end / u128::from(b) + 3 * u128::from(n);
            assert_eq!(u128::from(reached.slide), last);
            assert_eq!((reached.full_slides, reached.half_turns), (0, 0));
        }
    }
}

#[test]
fn one_longest_hop_after_the_other() {
    for n in [1, 4, 16] {
        for b in [1, 1 << 30, LONGEST_HOP, u32::MAX] {
            let settings = Settings {
                b,
                ..settings(n, 1)
            };
            let reached = run(&built::longest_hops(settings, 7));
            // Every second passes the end, and so may the tick after one.
            assert!(reached.longest_hops >= 2 * n + 4, "{:?}", reached);
            assert!(reached.passes >= n + 2, "{:?}", reached);
            let total = u64::from(2 * n + 4) << 31;
            assert_eq!(reached.slide, (total / u64::from(b)).max(1), "{:?}", b);
            assert_eq!(reached.early, 0);
            if b == LONGEST_HOP && n > 1 {
                assert!(reached.both_sides > 10 * n, "{:?}", reached);
            }
        }
    }
}

#[test]
fn huge_jumps_are_refused_and_the_longest_hop_is_taken() {
    for n in [1, 16] {
        let reached = run(&built::huge_jumps(n, 2, 8));
        // 16 histories, in each three times four jumps by two calls.
        assert_eq!((reached.early, reached.half_turns), (384, 96));
        assert_eq!(reached.longest_hops, 48);
        assert!(reached.passes >= 16, "{:?}", reached);
    }
}

/// More often dark than lit: by the cell's place, by the body, and once the link is gone.
#[test]
fn zones_are_lit_and_dark() {
    for n in [1, 3, 16] {
        for mounting in 1..=2 {
            let calls = built::zones(settings(n, mounting), 5 * u64::from(n), 9);
            let reached = run(&calls);
            assert!(reached.left > 20, "{:?}", reached);
            assert!(reached.right > 20, "{:?}", reached);
            assert!(reached.dark > 200, "{:?}", reached);
        }
    }
}

#[test]
fn all_built_streams_run() {
    let streams = built::all(1);
    for (what, least) in [
        ("deep walks", 150),
        ("zigzag", 100),
        ("long chain", 26),
        ("grid", 32),
        ("full log", 32),
        ("over the end", 128),
        ("longest hops", 128),
        ("far links", 32),
        ("self links", 32),
        ("huge jumps", 32),
        ("zones", 32),
    ] {
        let of = |stream: &&(String, Vec<Call>)| stream.0.starts_with(what);
        assert!(streams.iter().filter(of).count() >= least, "{}", what);
    }
    let mut most = Reached::default();
    let (mut passing, mut on_both_sides) = (0, 0);
    for (name, calls) in &streams {
        let reached = run(calls);
        assert!(reached.yes > 0, "{}", name);
        assert!(reached.left + reached.right + reached.dark > 0, "{}", name);
        let full = name.starts_with("full log");
        assert_eq!(reached.full_slides > 0, full, "{}", name);
        let apart = name.starts_with("far links") || name.starts_with("self links");
        assert_eq!(reached.apart > 0, apart, "{}", name);
        let early = name.starts_with("over the end") || name.starts_with("huge jumps");
        assert_eq!(reached.early > 0, early, "{}", name);
        passing += u32::from(reached.passes > 0);
        on_both_sides += u32::from(reached.both_sides > 0);
        most.steps_itself = most.steps_itself.max(reached.steps_itself);
        most.steps_two = most.steps_two.max(reached.steps_two);
        most.cells = most.cells.max(reached.cells);
    }
    assert_eq!(
        (most.steps_itself, most.steps_two, most.cells),
        (40, 38, 1024)
    );
    // Beside the streams that are made for it many others pass the end.
    assert!(passing > 400, "{}", passing);
    assert!(on_both_sides > 250, "{}", on_both_sides);
    assert_eq!(streams, built::all(1));
}
