//! "Run only" of the document, each a test of its own. Its random streams are
//! tests/streams.rs.

mod common;
use common::*;
use compare::Lockstep;
use streams::files::{edge_files, file_of};
use streams::{Answer, Call};

#[test]
fn n_0_and_17_are_refused_1_and_16_are_taken() {
    for mounting in 1..=2 {
        for (n, expected) in [(0, 2), (1, 0), (16, 0), (17, 2)] {
            let mut books = Lockstep::new();
            assert_eq!(opening(&mut books, settings(n, 10, mounting, 0)), expected);
        }
    }
}

#[test]
fn cell_1023_is_taken_1024_is_refused() {
    for mounting in 1..=2 {
        let mut books = opened(settings(3, 10, mounting, 0));
        for (cell, expected) in [(1023, 0), (1024, 3)] {
            assert_eq!(link(&mut books, 0, cell, 1022), expected);
            assert_eq!(link(&mut books, 0, 1022, cell), expected);
            assert_eq!(joined(&mut books, cell, cell).0, expected);
            assert_eq!(joined(&mut books, 5, cell).0, expected);
            assert_eq!(chain(&mut books, cell, cell).0, expected);
        }
    }
}

#[test]
fn tick_44_after_45_is_refused_45_is_taken() {
    for (tick, expected) in [(44, 4), (45, 0)] {
        assert_eq!(link(&mut listing_book(), tick, 1, 2), expected);
        assert_eq!(clock(&mut listing_book(), tick), expected);
    }
}

/// In the first slide, in a later one, and in one that a jump leads to.
#[test]
fn the_256th_link_of_a_slide_is_taken_the_257th_is_refused() {
    for n in [1, 3, 16] {
        let mut books = opened(settings(n, 10, 1, 0));
        for slide in [0, 1, 2, 17, 900] {
            for i in 0..256 {
                let tick = 10 * slide + i / 64;
                assert_eq!(link(&mut books, tick, i, i + 1), 0);
            }
            assert_eq!(link(&mut books, 10 * slide + 4, 1, 2), 5);
            assert_eq!(link(&mut books, 10 * slide + 9, 1, 2), 5);
        }
        assert_eq!(link(&mut books, 9_010, 1, 2), 0);
    }
}

#[test]
fn files_of_23_24_64024_and_64032_bytes() {
    for (length, expected) in [(23, 9), (24, 0), (64_024, 0), (64_032, 9)] {
        let files = edge_files();
        let file = files.iter().find(|file| file.len() == length).unwrap();
        let read = Call::Read { file: file.clone() };
        assert_eq!(number(&mut Lockstep::new(), read), expected);
        let refused = listing(file) == "refused 9 file\n";
        assert_eq!(refused, expected == 9);
    }
}

/// The writer's side of the same lengths.
#[test]
fn the_writer_fills_24_and_64024_bytes_and_no_64032() {
    for (m, expected) in [(0, 0), (8_000, 0), (8_001, 9)] {
        let write = Call::Write {
            settings: settings(16, 1, 2, 7),
            records: vec![9; 8 * m],
            output_bytes: 8 * m + 24,
        };
        assert_eq!(number(&mut Lockstep::new(), write), expected);
    }
}

/// What the writer fills the reader reads.
#[test]
fn a_written_file_is_read() {
    let settings = settings(16, 1, 2, 7);
    let bytes = file_of(settings, &records(&[(7, 1, 2), (9, 3, 1023)]));
    let write = Call::Write {
        settings,
        records: bytes[..16].to_vec(),
        output_bytes: 40,
    };
    let output = match put(&mut Lockstep::new(), write) {
        Answer::Write { output, .. } => output,
        other => unreachable!("{:?}", other),
    };
    assert_eq!(output, bytes);
    let read = put(&mut Lockstep::new(), Call::Read { file: output });
    let expected = Answer::Read {
        number: 0,
        settings,
        m: 2,
    };
    assert_eq!(read, expected);
}
