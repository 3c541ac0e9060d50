//! "Cells and mounting" as far as links are stored, and "Time, slides, window".

mod common;
use common::*;
use oracle::*;

#[test]
fn links_are_stored_in_the_lorrys_numbers() {
    let mut book = opened(3, 10, MIRRORED, 0);
    links(&mut book, &[(0, 1, 65), (0, 1023, 1022)]);
    let stored: Vec<(u32, u32)> = history(&book).links.iter().map(|l| (l.a, l.b)).collect();
    assert_eq!(stored, [(63, 127), (961, 962)]);
    // Questions and answers are always in the lorry's numbers.
    assert_eq!(joined(&book, 63, 127), (true, 1));
    assert_eq!(joined(&book, 1, 65), (false, 0));
    assert_eq!(chain(&book, 127, 63).unwrap().2, [127, 63]);
    assert_eq!(chain(&book, 961, 962).unwrap().2, [961, 962]);
}

#[test]
fn mounting_has_no_default() {
    for (mounting, expected) in [(0, 2), (1, 0), (2, 0), (3, 2), (255, 2), (256, 2), (257, 2)] {
        let answer = Book::new().opening(settings(3, 10, mounting, 0), LOG_PLACES);
        assert_eq!(number(&answer), expected, "mounting {}", mounting);
    }
}

#[test]
fn slide_lengths_from_1_to_all_ticks() {
    for (b, expected) in [(0, 2), (1, 0), (u32::MAX, 0)] {
        let answer = Book::new().opening(settings(3, b, PLAIN, 0), LOG_PLACES);
        assert_eq!(number(&answer), expected, "B {}", b);
    }
}

#[test]
fn time_starts_at_t0_and_a_tick_before_it_is_refused() {
    let mut book = opened(3, 10, PLAIN, 100);
    assert_eq!(history(&book).time, 100);
    assert_eq!(clock(&mut book, 99), 4);
    assert_eq!(link(&mut book, 99, 1, 2), 4);
    assert_eq!(clock(&mut book, 100), 0);
    assert_eq!(link(&mut book, 100, 1, 2), 0);
}

#[test]
fn slide_of_a_tick() {
    for (tick, slide) in [(7, 0), (16, 0), (17, 1), (26, 1), (27, 2)] {
        let mut book = opened(3, 10, PLAIN, 7);
        assert_eq!(clock(&mut book, tick), 0);
        assert_eq!(history(&book).open_slide(), slide);
    }
}

#[test]
fn slide_of_a_total() {
    for (b, total, slide) in [
        (1, 0, 0),
        (1, 4_294_967_296, 4_294_967_296),
        (10, 4_294_967_299, 429_496_729),
        (10, 4_294_967_300, 429_496_730),
        (u32::MAX, 4_294_967_294, 0),
        (u32::MAX, 4_294_967_295, 1),
        (1, MOST_TOTAL, 9_223_372_036_854_775_807),
        (u32::MAX, MOST_TOTAL, 2_147_483_648),
    ] {
        assert_eq!(settings(1, b, 1, 5).slide_of(total), slide);
    }
}

#[test]
fn the_window_is_n_slides_and_not_n_plus_1() {
    for n in 1..=16 {
        let mut book = opened(n, 1, PLAIN, 0);
        assert_eq!(link(&mut book, 40, 1, 2), 0);
        assert_eq!(clock(&mut book, 40 + n - 1), 0);
        assert!(joined(&book, 1, 2).0, "n {}", n);
        assert_eq!(chain(&book, 1, 2), Ok((40, 0, vec![1, 2])));
        assert_eq!(clock(&mut book, 40 + n), 0);
        assert!(!joined(&book, 1, 2).0, "n {}", n);
        assert_eq!(chain(&book, 1, 2), Err(Refusal::NoTrail));
    }
}

#[test]
fn the_window_reaches_back_only_as_far_as_slides_exist() {
    let mut book = opened(16, 10, PLAIN, 0);
    links(&mut book, &[(0, 1, 2), (10, 2, 3)]);
    assert_eq!(history(&book).oldest_slide(), 0);
    assert_eq!(history(&book).window().len(), 2);
    assert_eq!(chain(&book, 1, 3), Ok((0, 14, vec![1, 2, 3])));
}

#[test]
fn the_window_holds_the_links_logged_so_far_in_the_open_slide() {
    let mut book = opened(2, 10, PLAIN, 0);
    assert!(!joined(&book, 1, 2).0);
    links(&mut book, &[(3, 1, 2)]);
    assert!(joined(&book, 1, 2).0);
    links(&mut book, &[(3, 2, 3)]);
    assert!(joined(&book, 1, 3).0);
}

#[test]
fn a_clock_call_moves_the_time_and_logs_nothing() {
    let mut book = opened(3, 10, PLAIN, 0);
    assert_eq!(clock(&mut book, 25), 0);
    assert_eq!(history(&book).time, 25);
    assert_eq!(history(&book).open_slide(), 2);
    assert!(history(&book).links.is_empty());
    assert_eq!(link(&mut book, 24, 1, 2), 4);
}

#[test]
fn a_link_call_with_a_later_tick_first_moves_the_time() {
    let mut book = opened(3, 10, PLAIN, 0);
    links(&mut book, &[(0, 1, 2), (30, 3, 4)]);
    assert_eq!(history(&book).time, 30);
    assert!(!joined(&book, 1, 2).0);
    assert_eq!(clock(&mut book, 29), 4);
}

#[test]
fn slides_jumped_over_are_empty_however_many() {
    let mut book = opened(16, 1, PLAIN, 0);
    links(&mut book, &[(0, 1, 2), (2_000_000_000, 3, 4)]);
    assert_eq!(history(&book).window().len(), 1);
    assert_eq!(joined(&book, 1, 2), (false, 0));
    assert_eq!(chain(&book, 3, 4), Ok((2_000_000_000, 15, vec![3, 4])));
}

#[test]
fn a_second_opening_starts_a_fresh_history() {
    let mut book = listing_book();
    let fresh = settings(5, 2, MIRRORED, 1);
    assert_eq!(number(&book.opening(fresh, LOG_PLACES)), 0);
    assert_eq!(book, opened(5, 2, MIRRORED, 1));
    // The same settings again, and still a fresh history.
    let mut book = listing_book();
    assert_eq!(
        number(&book.opening(settings(3, 10, PLAIN, 0), LOG_PLACES)),
        0
    );
    assert_eq!(joined(&book, 3, 6), (false, 0));
}

#[test]
fn a_refused_opening_lets_the_old_history_go_on() {
    let mut book = listing_book();
    for bad in [
        settings(0, 10, 1, 0),
        settings(17, 10, 1, 0),
        settings(3, 0, 1, 0),
        settings(3, 10, 0, 0),
        settings(3, 10, 3, 0),
    ] {
        assert_eq!(number(&book.opening(bad, LOG_PLACES)), 2);
    }
    assert_eq!(
        number(&book.opening(settings(3, 10, 1, 0), LOG_PLACES - 1)),
        6
    );
    assert_eq!(book, listing_book());
    // A book that was never opened stays so.
    let mut never = Book::new();
    assert_eq!(number(&never.opening(settings(3, 0, 1, 0), LOG_PLACES)), 2);
    assert_eq!(never, Book::new());
}
