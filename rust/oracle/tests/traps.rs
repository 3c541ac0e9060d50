//! "Traps on the way": each trap sprung once, where the right answer differs.

mod common;
use common::*;
use oracle::*;

/// Shortening parents during a walk: the labels no longer tell the cuts apart.
#[test]
fn shortened_parents() {
    // Place 2: 1-2 and 65-66; place 1: 2-66. So 66 - 65 - 1 with labels 2 and 1.
    let mut book = opened(3, 10, PLAIN, 0);
    links(&mut book, &[(10, 2, 66), (20, 1, 2), (20, 65, 66)]);
    assert_eq!(clock(&mut book, 30), 0);
    // Several walks of 66, and it keeps its two steps.
    for _ in 0..3 {
        assert_eq!(joined(&book, 66, 1), (true, 2));
    }
    // At cut 2 it still steps to 65, and no further.
    assert_eq!(clock(&mut book, 40), 0);
    assert_eq!(joined(&book, 66, 65), (true, 1));
    assert_eq!(joined(&book, 66, 1), (false, 1));
}

/// Testing both forests and crossing once only: P12 comes out wrong; here with
/// more crossings, from either side.
#[test]
fn crossing_once_only() {
    let mut book = opened(2, 1, PLAIN, 0);
    for cell in (100..200).step_by(2) {
        links(&mut book, &[(1, cell, cell + 1)]);
    }
    for cell in (101..199).step_by(2) {
        links(&mut book, &[(2, cell, cell + 1)]);
    }
    assert!(joined(&book, 100, 199).0);
    assert!(joined(&book, 199, 100).0);
    assert!(joined(&book, 101, 198).0);
    assert!(!joined(&book, 100, 200).0);
}

/// Holding n + 1 slides, as the paper's formula reads.
#[test]
fn n_plus_1_slides() {
    // The paper's running example: size 5 covers stamps 2 to 6.
    let mut book = opened(5, 1, PLAIN, 0);
    links(&mut book, &[(1, 1, 2), (2, 3, 4), (6, 5, 6)]);
    assert!(!joined(&book, 1, 2).0);
    assert!(joined(&book, 3, 4).0);
    assert!(joined(&book, 5, 6).0);
    assert_eq!(history(&book).window().len(), 2);
}

/// Taking the step count from an early exit, when a forest alone decides.
#[test]
fn early_exit() {
    let mut book = opened(2, 10, PLAIN, 0);
    links(
        &mut book,
        &[(10, 1, 2), (20, 1, 2), (20, 65, 66), (20, 1, 65)],
    );
    // Backward: 2 one step. Forward: 2 one, 66 two.
    assert_eq!(joined(&book, 2, 66), (true, 4));
    assert_eq!(joined(&book, 2, 2), (true, 4));
    assert_eq!(joined(&book, 66, 66), (true, 4));
}

/// Measuring hold from the slide of a chain's newest link instead of from L.
#[test]
fn hold_from_the_newest_link() {
    let mut book = opened(4, 10, PLAIN, 0);
    links(&mut book, &[(0, 1, 2), (30, 2, 3)]);
    assert_eq!(chain(&book, 1, 3), Ok((0, 0, vec![1, 2, 3])));
    assert_eq!(clock(&mut book, 40), 0);
    assert!(!joined(&book, 1, 3).0);
}

/// Moving the time for a link that is then refused.
#[test]
fn time_moved_by_a_refused_link() {
    let mut book = opened(3, 10, PLAIN, 0);
    for _ in 0..256 {
        assert_eq!(link(&mut book, 0, 1, 2), 0);
    }
    let before = book.clone();
    assert_eq!(link(&mut book, 9, 1, 2), 5);
    assert_eq!(link(&mut book, 25, 1, 1024), 3);
    assert_eq!(number(&book.link(25, 1, 2, 16_383)), 6);
    assert_eq!(number(&book.clock(25, 16_383)), 6);
    assert_eq!(book, before);
    assert_eq!(clock(&mut book, 1), 0);
}
