//! The words of a refusal are those of include/kerb.h: what examples/numbers.c prints. And stored books, openings, the longest file and text,
//! and how a refused text is said.

use kerb::{calls, Refusal};

#[test]
fn refusals_say_what_the_header_says() {
    let printed = include_str!("../../../examples/numbers.stdout");
    for refusal in [
        Refusal::NoBook,
        Refusal::Settings,
        Refusal::NoCell,
        Refusal::Early,
        Refusal::Full,
        Refusal::Short,
        Refusal::NoTrail,
        Refusal::Length,
        Refusal::Letters,
        Refusal::Offset,
        Refusal::Pad,
        Refusal::Line,
        Refusal::Apart,
        Refusal::Mask,
    ] {
        let line = format!("{refusal}");
        assert!(printed.lines().any(|of| of == line), "{line}");
    }
}

/// A book that was stored as bytes comes back as it was.
#[test]
fn a_stored_book_comes_back() {
    let settings = kerb::Settings {
        t0: 5,
        b: 10,
        n: 3,
        mounting: kerb::Mounting::Mirrored,
    };
    let mut book = kerb::Book::open(settings).unwrap();
    book.link(17, kerb::UnitCell(1), kerb::UnitCell(2)).unwrap();
    let (bytes, log) = (*book.raw().as_bytes(), book.log().to_vec());

    let back = kerb::Book::stored(kerb::RawBook::from_bytes(&bytes), log.clone()).unwrap();
    assert_eq!(back, book);

    let short = log[1..].to_vec();
    let raw = kerb::RawBook::from_bytes(&bytes);
    assert_eq!(kerb::Book::stored(raw, short), Err(Refusal::Short));

    let mut flipped = bytes;
    flipped[1] ^= 0x80;
    let raw = kerb::RawBook::from_bytes(&flipped);
    assert_eq!(kerb::Book::stored(raw, log), Err(Refusal::NoBook));
    assert_eq!(
        calls::joined(&kerb::RawBook::from_bytes(&flipped), 0, 0).number,
        1
    );
}

/// An opening writes every byte, whatever the memory held, and the pad bytes are 0.
#[test]
fn an_opening_leaves_no_byte_of_what_was_there() {
    let settings = kerb::Settings {
        t0: 7,
        b: 100,
        n: 16,
        mounting: kerb::Mounting::Plain,
    };
    let opened = |garbage: u8| {
        let mut book = kerb::RawBook::from_bytes(&[garbage; kerb::RawBook::BYTES]);
        let mut log = vec![u16::from(garbage); kerb::LOG_PLACES];
        book.opening(&mut log, settings).unwrap();
        (book, log)
    };
    let (book, log) = opened(0xA5);
    assert_eq!(opened(0x5A).0.as_bytes(), book.as_bytes());
    assert_eq!(opened(0x5A).1, log);
    assert_eq!((book.clock.pad, book.fitting.pad), ([0; 7], [0; 7]));
    assert_eq!((book.time(), book.total()), (7, 0));
    assert_eq!(
        kerb::RawBook::never_opened().as_bytes(),
        &[0; kerb::RawBook::BYTES]
    );
}

/// The longest link file has as many bytes as the constants say, and one record more is refused.
#[test]
fn the_longest_link_file() {
    let settings = kerb::Settings {
        t0: 0,
        b: 1,
        n: 1,
        mounting: kerb::Mounting::Plain,
    };
    let records = vec![0; kerb::FILE_BYTES - kerb::ENDING_BYTES];
    let mut file = vec![0; kerb::FILE_BYTES];
    kerb::write(settings, &records, &mut file).unwrap();
    let m = (records.len() / kerb::RECORD_BYTES) as u32;
    assert_eq!(kerb::read(&file), Ok((settings, m)));

    let longer = vec![0; records.len() + kerb::RECORD_BYTES];
    let refused = kerb::write(settings, &longer, &mut file);
    assert_eq!(refused, Err(Refusal::Length));
}

/// The longest text has as many bytes as the constant says.
#[test]
fn the_longest_text() {
    let settings = kerb::Settings {
        t0: 0,
        b: 1,
        n: 1,
        mounting: kerb::Mounting::Plain,
    };
    let mut file = vec![0; kerb::FILE_BYTES];
    let records = vec![0xFF; kerb::FILE_BYTES - kerb::ENDING_BYTES];
    kerb::write(settings, &records, &mut file).unwrap();
    let mut text = vec![0; kerb::TEXT_BYTES];
    assert_eq!(kerb::text_out(&file, &mut text), Ok(kerb::TEXT_BYTES));
    assert!(text.starts_with(b"65535 65535 4294967295\n"));
    let refused = kerb::text_out(&file, &mut text[1..]);
    assert_eq!(refused, Err(Refusal::Short));
}

/// A refused text says its line where a line is at fault, and the number alone where none is.
#[test]
fn refused_texts() {
    let settings = |n| kerb::Settings {
        t0: 0,
        b: 1,
        n,
        mounting: kerb::Mounting::Plain,
    };
    let said = |n, text: &str, room| {
        let refused = kerb::text_in(settings(n), text.as_bytes(), &mut vec![0; room]);
        refused.unwrap_err().to_string()
    };
    let line = "after 1 lines, number 13: a line of the text breaks the form";
    assert_eq!(said(17, "1 2 3\n4 5\n", 0), line);
    let number = |refusal: Refusal| refusal.to_string();
    assert_eq!(said(17, "1 2 3\n", 0), number(Refusal::Settings));
    assert_eq!(
        said(1, &"1 2 3\n".repeat(8_001), 0),
        number(Refusal::Length)
    );
    assert_eq!(said(1, "1 2 3\n", 31), number(Refusal::Short));
}
