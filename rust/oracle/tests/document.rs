//! "Checks at the bench" and the example of "The listing".

mod common;
use common::*;
use oracle::*;

#[test]
fn p1_p2_fresh_book() {
    let book = opened(3, 10, PLAIN, 0);
    assert_eq!(joined(&book, 7, 7), (true, 0));
    assert_eq!(joined(&book, 7, 8), (false, 0));
}

#[test]
fn p3_p4_p5_joined_in_the_book_of_the_listing() {
    let book = listing_book();
    assert_eq!(joined(&book, 3, 6), (true, 1));
    assert_eq!(joined(&book, 2, 3), (false, 0));
    assert_eq!(joined(&book, 4, 6), (true, 3));
}

#[test]
fn p6_to_p9_chains_in_the_book_of_the_listing() {
    let book = listing_book();
    assert_eq!(chain(&book, 3, 6), Ok((2, 0, vec![3, 4, 5, 6])));
    assert_eq!(chain(&book, 4, 6), Ok((3, 1, vec![4, 5, 6])));
    assert_eq!(chain(&book, 4, 4), Ok((5, 3, vec![4])));
    assert_eq!(chain(&book, 2, 3), Err(Refusal::NoTrail));
    assert_eq!(Refusal::NoTrail.number(), 7);
}

#[test]
fn p10_p11_the_book_of_the_listing_later() {
    let mut book = listing_book();
    assert_eq!(clock(&mut book, 50), 0);
    assert_eq!(joined(&book, 4, 6), (true, 2));
    assert_eq!(clock(&mut book, 60), 0);
    assert_eq!(joined(&book, 4, 5), (true, 1));
    assert_eq!(joined(&book, 5, 6), (false, 1));
}

#[test]
fn p12_crossing_more_than_once() {
    let mut book = opened(2, 1, PLAIN, 0);
    links(
        &mut book,
        &[(1, 10, 11), (1, 12, 13), (2, 11, 12), (2, 13, 14)],
    );
    assert_eq!(joined(&book, 10, 14), (true, 1));
}

/// The last 24 bytes as RULES 9.3 prints them.
const LAST_24: [u8; 24] = [
    0x00, 0x00, 0x00, 0x00, 0x0A, 0x00, 0x00, 0x00, 0x03, 0x01, 0x00, 0x00, 0x28, 0x00, 0x00, 0x00,
    0x05, 0x00, 0x00, 0x00, 0x4B, 0x45, 0x52, 0x42,
];

/// The records of the listing, byte by byte.
const FIRST_40: [u8; 40] = [
    0, 0, 0, 0, 1, 0, 2, 0, //
    10, 0, 0, 0, 2, 0, 3, 0, //
    20, 0, 0, 0, 3, 0, 4, 0, //
    30, 0, 0, 0, 5, 0, 6, 0, //
    45, 0, 0, 0, 4, 0, 5, 0,
];

#[test]
fn the_file_of_the_listing() {
    let written = file(settings(3, 10, PLAIN, 0), &LISTING);
    assert_eq!(written.len(), 64);
    assert_eq!(written[..40], FIRST_40);
    assert_eq!(written[40..], LAST_24);
}

#[test]
fn the_output_of_the_listing() {
    let bytes: Vec<u8> = FIRST_40.iter().chain(&LAST_24).copied().collect();
    assert_eq!(listing(&bytes), "window 3 10 1 4\ngroup 3 4 0\nlinks 3\n");
    assert_eq!(play(&bytes), Ok(listing_book()));
}

#[test]
fn run_only_n_0_and_17_refused_1_and_16_taken() {
    for (n, expected) in [(0, 2), (1, 0), (16, 0), (17, 2)] {
        let answer = Book::new().opening(settings(n, 10, PLAIN, 0), LOG_PLACES);
        assert_eq!(number(&answer), expected, "n {}", n);
    }
}

#[test]
fn run_only_cell_1023_taken_1024_refused() {
    let mut book = opened(3, 10, PLAIN, 0);
    assert_eq!(link(&mut book, 0, 1023, 1022), 0);
    assert_eq!(link(&mut book, 0, 1022, 1023), 0);
    assert_eq!(link(&mut book, 0, 1024, 1022), 3);
    assert_eq!(link(&mut book, 0, 1022, 1024), 3);
    assert_eq!(number(&book.joined(0, 1023)), 0);
    assert_eq!(number(&book.joined(0, 1024)), 3);
    assert_eq!(number(&book.joined(1024, 0)), 3);
}

#[test]
fn run_only_tick_44_after_45_refused_45_taken() {
    for tick in [44, 45] {
        let mut book = listing_book();
        let expected = if tick == 44 { 4 } else { 0 };
        assert_eq!(clock(&mut book, tick), expected);
        assert_eq!(link(&mut book, tick, 1, 2), expected);
    }
}

#[test]
fn run_only_256th_link_taken_257th_refused() {
    let mut book = opened(3, 10, PLAIN, 0);
    assert_eq!(clock(&mut book, 10), 0);
    for i in 0..256 {
        // Any ticks of the one slide, repeats included.
        assert_eq!(link(&mut book, 10 + i / 100, 5, 6 - 2 * (i % 2)), 0);
    }
    assert_eq!(link(&mut book, 12, 1, 2), 5);
    assert_eq!(link(&mut book, 19, 1, 2), 5);
    assert_eq!(link(&mut book, 20, 1, 2), 0);
}

#[test]
fn run_only_files_of_23_24_64024_and_64032_bytes() {
    let good = settings(3, 10, PLAIN, 7);
    let empty = file(good, &[]);
    assert_eq!(empty.len(), 24);
    assert_eq!(
        read(&empty),
        Ok(FileHead {
            settings: good,
            m: 0
        })
    );
    assert_eq!(read(&empty[1..]), Err(Refusal::Length));

    let most = file(good, &[(7, 1, 2); 8000]);
    assert_eq!(most.len(), 64_024);
    assert_eq!(
        read(&most),
        Ok(FileHead {
            settings: good,
            m: 8000
        })
    );

    // 8,001 records, otherwise without fault.
    let mut longer = records(&[(7, 1, 2)]);
    longer.extend(&most);
    longer[64_008 + 12..64_008 + 16].copy_from_slice(&64_008u32.to_le_bytes());
    longer[64_008 + 16..64_008 + 20].copy_from_slice(&8_001u32.to_le_bytes());
    assert_eq!(longer.len(), 64_032);
    assert_eq!(read(&longer), Err(Refusal::Length));
}
