//! The worked cases of the document: P1 to P12 of "Checks at the bench", and the
//! example of "The listing". They are proved of the definitions; here the library
//! runs them.

mod common;
use common::*;
use streams::files::file_of;

#[test]
fn p1_p2_fresh_book() {
    let mut books = opened(settings(3, 10, 1, 0));
    assert_eq!(joined(&mut books, 7, 7), (0, true, 0));
    assert_eq!(joined(&mut books, 7, 8), (0, false, 0));
}

#[test]
fn p3_p4_p5_joined() {
    let mut books = listing_book();
    assert_eq!(joined(&mut books, 3, 6), (0, true, 1));
    assert_eq!(joined(&mut books, 2, 3), (0, false, 0));
    assert_eq!(joined(&mut books, 4, 6), (0, true, 3));
}

#[test]
fn p6_p7_p8_p9_chains() {
    let mut books = listing_book();
    assert_eq!(chain(&mut books, 3, 6), (0, 2, 0, vec![3, 4, 5, 6]));
    assert_eq!(chain(&mut books, 4, 6), (0, 3, 1, vec![4, 5, 6]));
    assert_eq!(chain(&mut books, 4, 4), (0, 5, 3, vec![4]));
    assert_eq!(chain(&mut books, 2, 3), (7, 0, 0, vec![]));
}

#[test]
fn p10_p11_later() {
    let mut books = listing_book();
    assert_eq!(clock(&mut books, 50), 0);
    assert_eq!(joined(&mut books, 4, 6), (0, true, 2));
    assert_eq!(clock(&mut books, 60), 0);
    assert_eq!(joined(&mut books, 4, 5), (0, true, 1));
    assert_eq!(joined(&mut books, 5, 6), (0, false, 1));
}

#[test]
fn p12_crossing_more_than_once() {
    let mut books = opened(settings(2, 1, 1, 0));
    for (tick, a, b) in [(1, 10, 11), (1, 12, 13), (2, 11, 12), (2, 13, 14)] {
        assert_eq!(link(&mut books, tick, a, b), 0);
    }
    assert_eq!(joined(&mut books, 10, 14), (0, true, 1));
}

#[test]
fn the_listing() {
    let file = file_of(settings(3, 10, 1, 0), &records(&LISTING));
    assert_eq!(listing(&file), "window 3 10 1 4\ngroup 3 4 0\nlinks 3\n");
}
