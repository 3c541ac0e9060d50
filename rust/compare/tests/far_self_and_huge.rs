//! Far links, self links and huge jumps, each a test of its own. Beside these only
//! `touching.rs`, which has all pairs, `ticks.rs`, where half a turn begins, and
//! faults of `order.rs` have any of them.

mod common;
use common::*;
use oracle::in_lorrys_numbers;
use streams::files::file_of;

/// What is refused with 14 counts for nothing: not in the slide, not in the window,
/// and not for the time. So a file stops there.
fn refused_with_14(pairs: &[(u16, u16)]) {
    for mounting in 1..=2 {
        let mut books = opened(settings(3, 10, mounting, 0));
        assert_eq!(link(&mut books, 5, 1, 2), 0);
        for &(a, b) in pairs {
            let (a, b) = (u32::from(a), u32::from(b));
            for tick in [0, 5, 90] {
                assert_eq!(link(&mut books, tick, a, b), 14);
                assert_eq!(link(&mut books, tick, b, a), 14);
            }
            let [first, second] = [a, b].map(|cell| in_lorrys_numbers(cell, mounting));
            assert_eq!(joined(&mut books, first, second).1, a == b);
        }
        for _ in 1..256 {
            assert_eq!(link(&mut books, 5, 2, 1), 0);
        }
        let (a, b) = pairs[0];
        assert_eq!(link(&mut books, 5, u32::from(a), u32::from(b)), 14);
        assert_eq!(link(&mut books, 5, 1, 2), 5);
        for &(a, b) in pairs {
            let links = [(0, 1, 2), (5, a, b), (20, 2, 3)];
            let file = file_of(settings(3, 10, mounting, 0), &records(&links));
            assert_eq!(listing(&file), "refused 14 1\n");
        }
    }
}

/// A link of two cells that do not touch.
#[test]
fn far_links() {
    refused_with_14(&[(1, 3), (1, 129), (0, 62), (0, 960), (63, 128), (5, 1023)]);
}

/// A link of a cell with itself.
#[test]
fn self_links() {
    refused_with_14(&[(9, 9), (0, 0), (63, 63), (500, 500), (1023, 1023)]);
    let mut books = opened(settings(3, 10, 1, 0));
    assert_eq!(link(&mut books, 0, 1024, 1024), 3);
}

/// The time never jumps by 2^31 ticks and more at once, which is as good as back; a
/// file stops there.
#[test]
fn huge_jumps() {
    for t0 in [0, 2_000_000_000, 4_000_000_000, u32::MAX] {
        let mut books = opened(settings(16, 1, 1, t0));
        assert_eq!(link(&mut books, t0, 1, 2), 0);
        for jump in [1 << 31, 3_000_000_000, 4_000_000_000, u32::MAX] {
            let tick = t0.wrapping_add(jump);
            assert_eq!(clock(&mut books, tick), 4);
            assert_eq!(link(&mut books, tick, 2, 3), 4);
            assert_eq!(joined(&mut books, 1, 2), (0, true, 1));
            assert_eq!(chain(&mut books, 1, 2), (0, 0, 15, vec![1, 2]));
            let links = [(t0, 1, 2), (t0, 2, 3), (tick, 1, 2), (t0, 3, 4)];
            let file = file_of(settings(16, 1, 1, t0), &records(&links));
            assert_eq!(listing(&file), "refused 4 2\n");
        }
    }
}
