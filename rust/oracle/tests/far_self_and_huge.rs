//! Far links, self links and huge jumps, each a test of its own. Beside these only
//! `ticks.rs` has any of them, where half a turn begins.

mod common;
use common::*;
use oracle::*;

/// A link is taken only between two different cells that touch. One that is refused
/// leaves no trace, and a file stops at it.
#[test]
fn far_links() {
    let mut book = opened(2, 10, PLAIN, 5);
    for (a, b) in [(0, 2), (2, 960), (0, 960), (0, 128), (63, 128), (5, 1023)] {
        assert_eq!(link(&mut book, 90, a, b), 14);
        assert!(!joined(&book, a, b).0);
    }
    for (a, b) in [(0, 63), (63, 64), (127, 0), (1023, 958)] {
        assert_eq!(link(&mut book, 5, a, b), 0);
        assert!(joined(&book, a, b).0);
    }
    // 3 comes before it and 4 after it.
    assert_eq!(link(&mut book, 4, 0, 1024), 3);
    assert_eq!(link(&mut book, 4, 0, 2), 14);
    assert_eq!(link(&mut book, 4, 0, 1), 4);
    let text = listing(&file(settings(2, 10, PLAIN, 0), &[(0, 8, 9), (0, 8, 10)]));
    assert_eq!(text, "refused 14 1\n");
}

/// No cell touches itself.
#[test]
fn self_links() {
    let mut book = opened(1, 10, PLAIN, 0);
    assert_eq!(link(&mut book, 0, 9, 9), 14);
    assert_eq!(history(&book).links.len(), 0);
    let text = listing(&file(settings(1, 10, PLAIN, 0), &[(0, 9, 9), (0, 8, 9)]));
    assert_eq!(text, "refused 14 0\n");
}

/// 2^31 ticks ahead and more are refused, and leave no trace. A tick that far back is
/// the same tick.
#[test]
fn huge_jumps() {
    for t0 in [0, 1_000_000_000, 4_000_000_000] {
        for jump in [1 << 31, 3_000_000_000, 4_000_000_000, u32::MAX] {
            let mut book = opened(16, 1, PLAIN, t0);
            links(&mut book, &[(t0, 1, 2)]);
            let before = book.clone();
            let tick = later(&book, jump);
            assert_eq!(clock(&mut book, tick), 4);
            assert_eq!(link(&mut book, tick, 3, 4), 4);
            // 3 and 14 come before it.
            assert_eq!(link(&mut book, tick, 3, 1024), 3);
            assert_eq!(link(&mut book, tick, 3, 5), 14);
            assert_eq!(book, before);
            let records = [(t0, 8, 9), (t0, 9, 10), (tick, 8, 9), (t0, 8, 9)];
            let text = listing(&file(settings(16, 1, PLAIN, t0), &records));
            assert_eq!(text, "refused 4 2\n");
        }
    }
}
