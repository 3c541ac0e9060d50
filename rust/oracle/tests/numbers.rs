//! "Numbers a call can give", and the order of the checks: for every call and
//! every two numbers of its order, a call that would earn both gives the first.

mod common;
use common::*;
use oracle::*;

const GOOD: Settings = Settings {
    n: 3,
    b: 10,
    mounting: 1,
    t0: 5,
};

/// The book of these tests: opened, slide 4 (ticks 45 to 54) full, time 50.
fn full_book() -> Book {
    let mut book = Book::new();
    book.opening(GOOD, LOG_PLACES).unwrap();
    for _ in 0..256 {
        assert_eq!(link(&mut book, 45, 1, 2), 0);
    }
    assert_eq!(clock(&mut book, 50), 0);
    book
}

/// The book of these tests, or with fault 1 one that was never opened.
fn book_for(order: &[u32], mask: u32) -> Book {
    if has(order, mask, 1) {
        Book::new()
    } else {
        full_book()
    }
}

/// The faults chosen by the bits of `mask`, the first of which must be given.
fn first_fault(order: &[u32], mask: u32) -> u32 {
    let chosen = (0..order.len()).filter(|i| mask >> i & 1 == 1);
    chosen.map(|i| order[i]).next().unwrap_or(0)
}

fn has(order: &[u32], mask: u32, number: u32) -> bool {
    let place = order.iter().position(|&of| of == number).unwrap();
    mask >> place & 1 == 1
}

#[test]
fn opening_2_6() {
    let order = [2, 6];
    for mask in 0..4 {
        for mut book in [Book::new(), full_book()] {
            let before = book.clone();
            let mut set = GOOD;
            if has(&order, mask, 2) {
                set.n = 17;
            }
            let places = LOG_PLACES - usize::from(has(&order, mask, 6));
            let given = number(&book.opening(set, places));
            assert_eq!(given, first_fault(&order, mask));
            if given != 0 {
                assert_eq!(book, before);
            }
        }
    }
}

#[test]
fn link_1_6_3_4_5() {
    let order = [1, 6, 3, 4, 5];
    for mask in 0..32 {
        let before = book_for(&order, mask);
        let places = LOG_PLACES - usize::from(has(&order, mask, 6));
        let cell = if has(&order, mask, 3) { 1024 } else { 1023 };
        let tick = match (has(&order, mask, 4), has(&order, mask, 5)) {
            (false, false) => 55,
            (false, true) => 54,
            (true, false) => 44,
            (true, true) => 49,
        };
        for (a, b) in [(cell, 1022), (1022, cell)] {
            let mut book = before.clone();
            let given = number(&book.link(tick, a, b, places));
            assert_eq!(given, first_fault(&order, mask), "mask {:05b}", mask);
            if given != 0 {
                assert_eq!(book, before);
            }
        }
    }
}

#[test]
fn clock_1_6_4() {
    let order = [1, 6, 4];
    for mask in 0..8 {
        let mut book = book_for(&order, mask);
        let before = book.clone();
        let places = LOG_PLACES - usize::from(has(&order, mask, 6));
        let tick = 50 - u32::from(has(&order, mask, 4));
        let given = number(&book.clock(tick, places));
        assert_eq!(given, first_fault(&order, mask));
        assert_eq!(book, before);
    }
}

#[test]
fn joined_1_3() {
    let order = [1, 3];
    for mask in 0..4 {
        let book = book_for(&order, mask);
        let cell = if has(&order, mask, 3) { 1024 } else { 1023 };
        for (a, b) in [(cell, 7), (7, cell), (cell, cell)] {
            let answer = book.joined(a, b);
            assert_eq!(number(&answer), first_fault(&order, mask));
            if answer.is_err() {
                // The other result fields are 0.
                let none = Joined {
                    joined: false,
                    steps: 0,
                };
                assert_eq!(answer.unwrap_or_default(), none);
            }
        }
    }
}

#[test]
fn chain_1_6_3_7() {
    let order = [1, 6, 3, 7];
    for mask in 0..16 {
        let book = book_for(&order, mask);
        let short = usize::from(has(&order, mask, 6));
        let untrailed = has(&order, mask, 7);
        let first = if untrailed { 9 } else { 1 };
        let second = if has(&order, mask, 3) { 1024 } else { 2 };
        for (a, b, log, places) in [
            (first, second, LOG_PLACES, CHAIN_PLACES - short),
            (second, first, LOG_PLACES - short, CHAIN_PLACES),
        ] {
            let mut lent = vec![KEPT; places];
            let answer = book.chain(a, b, log, &mut lent);
            assert_eq!(number(&answer), first_fault(&order, mask));
            if answer.is_err() {
                let none = Chain {
                    l: 0,
                    hold: 0,
                    cells: 0,
                };
                assert_eq!(answer.unwrap_or_default(), none);
                assert!(lent.iter().all(|&place| place == KEPT));
            }
        }
    }
}

/// Number 15 by a mask that is too short and by a value.
#[test]
fn lamps_1_6_15() {
    let order = [1, 6, 15];
    for mask in 0..8 {
        let book = book_for(&order, mask);
        let log = LOG_PLACES - usize::from(has(&order, mask, 6));
        let bad = has(&order, mask, 15);
        let short = vec![0; MASK_BYTES - usize::from(bad)];
        let mut with_a_value = vec![0; MASK_BYTES];
        with_a_value[1_023] = if bad { 2 } else { 1 };
        for body in [short, with_a_value] {
            let answer = book.lamps(log, &body);
            assert_eq!(number(&answer), first_fault(&order, mask));
            if answer.is_err() {
                let none = Lamps {
                    left: None,
                    right: None,
                };
                assert_eq!(answer.unwrap_or_default(), none);
            }
        }
    }
}

#[test]
fn reader_9_10_11_12_2() {
    let order = [9, 10, 11, 12, 2];
    let file = file(GOOD, &[(5, 1, 2), (6, 3, 4)]);
    for mask in 0..32 {
        let mut bytes = file.clone();
        let settings = bytes.len() - 24;
        if has(&order, mask, 10) {
            let last = bytes.len() - 1;
            bytes[last] ^= 1;
        }
        if has(&order, mask, 11) {
            bytes[settings + 16] ^= 1;
        }
        if has(&order, mask, 12) {
            bytes[settings + 11] = 1;
        }
        if has(&order, mask, 2) {
            bytes[settings + 8] = 0;
        }
        if has(&order, mask, 9) {
            bytes.insert(0, 0);
        }
        let answer = read(&bytes);
        assert_eq!(number(&answer), first_fault(&order, mask));
        if answer.is_err() {
            let none = FileHead {
                settings: settings_all_0(),
                m: 0,
            };
            assert_eq!(answer.unwrap_or_default(), none);
        }
    }
}

fn settings_all_0() -> Settings {
    settings(0, 0, 0, 0)
}

#[test]
fn writer_2_9_6() {
    let order = [2, 9, 6];
    for mask in 0..8 {
        let mut set = GOOD;
        if has(&order, mask, 2) {
            set.mounting = 0;
        }
        let length = if has(&order, mask, 9) { 15 } else { 16 };
        let room = if has(&order, mask, 6) { 10 } else { 45 };
        let mut output = vec![0xEE; room];
        let answer = write(set, &vec![1; length], &mut output);
        assert_eq!(number(&answer), first_fault(&order, mask));
        if answer.is_err() {
            assert!(output.iter().all(|&byte| byte == 0xEE));
        }
    }
}

#[test]
fn log_places() {
    for (places, expected) in [(0, 6), (16_383, 6), (16_384, 0), (16_385, 0)] {
        let mut book = Book::new();
        assert_eq!(number(&book.opening(GOOD, places)), expected);
        let mut book = full_book();
        assert_eq!(number(&book.clock(50, places)), expected);
        assert_eq!(number(&book.link(55, 1, 2, places)), expected);
        let mut lent = vec![0; CHAIN_PLACES];
        assert_eq!(number(&book.chain(2, 2, places, &mut lent)), expected);
        let mask = vec![0; MASK_BYTES];
        assert_eq!(number(&book.lamps(places, &mask)), expected);
    }
}

#[test]
fn chain_places() {
    for (places, expected) in [(0, 6), (1_023, 6), (1_024, 0), (1_025, 0)] {
        let mut lent = vec![0; places];
        assert_eq!(
            number(&full_book().chain(1, 2, LOG_PLACES, &mut lent)),
            expected
        );
    }
}

#[test]
fn the_table() {
    use Refusal::*;
    for (refusal, number) in [
        (NeverOpened, 1),
        (Settings, 2),
        (Cell, 3),
        (Tick, 4),
        (SlideFull, 5),
        (Buffer, 6),
        (NoTrail, 7),
        (Length, 9),
        (Letters, 10),
        (Trailer, 11),
        (Pad, 12),
        (Line, 13),
        (Apart, 14),
        (Mask, 15),
    ] {
        assert_eq!(refusal.number(), number);
    }
    assert_eq!(number::<()>(&Ok(())), 0);
}
