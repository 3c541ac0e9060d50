//! "Text lists".

mod common;
use common::*;
use oracle::*;

const GOOD: Settings = Settings {
    n: 5,
    b: 100,
    mounting: 1,
    t0: 7,
};

/// What a byte of an output holds before a call.
const KEPT_BYTE: u8 = 0xA5;

/// Text in with room for any file: the file, or the number and the line.
fn brought_in(text: &str) -> Result<Vec<u8>, (u32, u64)> {
    bytes_in(GOOD, text.as_bytes(), LONGEST_FILE + 9)
}

/// The same of any bytes, settings and room; it looks at the bytes beyond the file.
fn bytes_in(settings: Settings, text: &[u8], room: usize) -> Result<Vec<u8>, (u32, u64)> {
    let mut output = vec![KEPT_BYTE; room];
    let answer = text_in(settings, text, &mut output);
    let length = answer.unwrap_or(0);
    assert!(output[length..].iter().all(|&byte| byte == KEPT_BYTE));
    output.truncate(length);
    answer
        .map(|_| output)
        .map_err(|refused| (refused.refusal.number(), refused.line))
}

/// Text out with so much room: the text, or the number.
fn put_out(file: &[u8], room: usize) -> Result<String, u32> {
    let mut output = vec![KEPT_BYTE; room];
    let answer = text_out(file, &mut output);
    let length = answer.unwrap_or(0);
    assert!(output[length..].iter().all(|&byte| byte == KEPT_BYTE));
    output.truncate(length);
    answer
        .map(|_| String::from_utf8(output).unwrap())
        .map_err(Refusal::number)
}

/// Breaks the form in its first line.
const BROKEN: Result<Vec<u8>, (u32, u64)> = Err((13, 0));

#[test]
fn a_line_is_two_cells_and_a_tick() {
    assert_eq!(brought_in("1 2 3\n"), Ok(file(GOOD, &[(3, 1, 2)])));
    let text = "1 2 0\n2 3 10\n0 0 0\n";
    let records = [(0, 1, 2), (10, 2, 3), (0, 0, 0)];
    assert_eq!(brought_in(text), Ok(file(GOOD, &records)));
    assert_eq!(put_out(&file(GOOD, &records), 100).unwrap(), text);
}

/// A tick that is put first is read as a cell: the line is of the form, or its
/// number is none of a cell.
#[test]
fn a_tick_that_is_put_first_is_read_as_a_cell() {
    assert_eq!(brought_in("400 94 95\n"), Ok(file(GOOD, &[(95, 400, 94)])));
    assert_eq!(brought_in("65536 94 95\n"), BROKEN);
}

#[test]
fn empty_text_is_no_lines() {
    let empty = file(GOOD, &[]);
    assert_eq!(brought_in(""), Ok(empty.clone()));
    assert_eq!(put_out(&empty, 0).unwrap(), "");
}

#[test]
fn what_breaks_the_form() {
    for line in [
        "",
        " ",
        "  ",
        "1",
        "1 2",
        "1 2 ",
        "1 2 3 4",
        "1 2 3 ",
        " 1 2 3",
        "1  2 3",
        "1 2  3",
        "1\t2 3",
        "1 2\t3",
        "1 2 3\t",
        "1 2 3\r",
        "\r",
        "1 2 3\u{b}",
        "1,2,3",
        "1 2 3.",
        "1 2 3.0",
        "1 2 3e1",
        "1 2 0x3",
        "1 2 O",
        "a b c",
        "one two three",
        "+1 2 3",
        "1 +2 3",
        "1 2 +3",
        "-1 2 3",
        "1 -2 3",
        "1 2 -3",
        "-0 2 3",
        "1 2 -0",
        "00 2 3",
        "1 00 3",
        "1 2 00",
        "01 2 3",
        "1 02 3",
        "1 2 03",
        "065535 2 3",
        "1 2 04294967295",
        "65536 2 3",
        "1 65536 3",
        "1 2 4294967296",
        "99999 2 3",
        "1 2 9999999999",
        "1 2 18446744073709551616",
        "65537 2 3",
        "4294967297 2 3",
        "18446744073709551617 2 3",
        "123456789012345678901234567890 2 3",
        "1 123456789012345678901234567890 3",
        "1 2 123456789012345678901234567890",
        "1 2 000000000000000000000000000003",
        "1 2 \u{663}",
        "\u{ff11} 2 3",
        "1\u{a0}2 3",
        "\u{feff}1 2 3",
        "1 2 3\u{0}",
        "\u{0}1 2 3",
        "1\u{0}2 3",
        "# a comment",
    ] {
        let text = format!("{}\n", line);
        assert_eq!(brought_in(&text), BROKEN, "{:?}", line);
        let text = format!("5 6 7\n{}\n8 9 10\n", line);
        assert_eq!(brought_in(&text), Err((13, 1)), "{:?}", line);
    }
}

/// Bytes that are no text in any encoding, at every place of a line.
#[test]
fn every_byte_in_every_place() {
    let line = b"12 34 56\n";
    for place in 0..line.len() {
        for byte in 0..=u8::MAX {
            let mut text = line.to_vec();
            text[place] = byte;
            let digit = byte.is_ascii_digit() && line[place].is_ascii_digit();
            let leading_zero = byte == b'0' && [0, 3, 6].contains(&place);
            let good = digit && !leading_zero || byte == line[place];
            let given = bytes_in(GOOD, &text, 32);
            assert_eq!(given.is_ok(), good, "{:?}", text);
        }
    }
}

#[test]
fn the_ends_of_the_fields() {
    let most = (u32::MAX, 65_535, 65_535);
    let text = "65535 65535 4294967295\n";
    assert_eq!(brought_in(text), Ok(file(GOOD, &[most])));
    assert_eq!(put_out(&file(GOOD, &[most]), 23).unwrap(), text);
    // No cell of the unit, and yet within the field: playing judges it.
    assert!(brought_in("1023 1024 0\n").is_ok());
    // Every number of digits.
    for digits in 1..=10 {
        let tick = 10u64.pow(digits) - 1;
        let given = brought_in(&format!("0 1 {}\n", tick));
        assert_eq!(given.is_ok(), tick <= u64::from(u32::MAX), "{}", tick);
        let given = brought_in(&format!("{} 1 0\n", tick));
        assert_eq!(given.is_ok(), tick <= 65_535, "{}", tick);
    }
}

/// Bytes after the last line feed are a line that breaks the form.
#[test]
fn the_last_line_feed() {
    assert_eq!(brought_in("1 2 3"), BROKEN);
    assert_eq!(brought_in("1 2 3\n4 5 6"), Err((13, 1)));
    assert_eq!(brought_in("1 2 3\n "), Err((13, 1)));
    assert_eq!(brought_in("1 2 3\n\n"), Err((13, 1)));
    assert_eq!(brought_in("\n"), BROKEN);
    assert_eq!(brought_in("1 2 3\n\u{0}"), Err((13, 1)));
}

#[test]
fn the_first_line_that_breaks_the_form() {
    assert_eq!(brought_in("1 2 3\n4 5\n6 7\n8 9 10\n"), Err((13, 1)));
    assert_eq!(brought_in("1 2 3\n4 5 6\n\n7 8"), Err((13, 2)));
}

#[test]
fn at_most_8000_lines() {
    let lines = "1 2 3\n".repeat(8_000);
    assert_eq!(brought_in(&lines), Ok(file(GOOD, &vec![(3, 1, 2); 8_000])));
    assert_eq!(brought_in(&(lines.clone() + "1 2 3\n")), Err((9, 0)));
    // A line past the 8,000th is judged as well.
    assert_eq!(brought_in(&(lines.clone() + "1 2 3")), Err((13, 8_000)));
    assert_eq!(
        brought_in(&(lines.clone() + &lines + "1 2 03\n" + &lines)),
        Err((13, 16_000))
    );
}

/// 13, 2, 9, 6.
#[test]
fn the_order_of_text_in() {
    let bad = Settings { n: 17, ..GOOD };
    let lines = "1 2 3\n".repeat(8_001);
    let broken = lines.clone() + "x\n";
    assert_eq!(bytes_in(bad, broken.as_bytes(), 10), Err((13, 8_001)));
    assert_eq!(bytes_in(bad, lines.as_bytes(), 10), Err((2, 0)));
    assert_eq!(bytes_in(GOOD, lines.as_bytes(), 10), Err((9, 0)));
    assert_eq!(bytes_in(GOOD, b"1 2 3\n", 10), Err((6, 0)));
}

#[test]
fn the_room_of_text_in() {
    for (lines, needed) in [(0, 24), (1, 32), (8_000, 64_024)] {
        let text = "1 2 3\n".repeat(lines);
        for (room, short) in [
            (0, true),
            (needed - 1, true),
            (needed, false),
            (needed + 1, false),
        ] {
            let given = bytes_in(GOOD, text.as_bytes(), room);
            let given = given.map(|file| file.len());
            assert_eq!(given, if short { Err((6, 0)) } else { Ok(needed) });
        }
    }
}

#[test]
fn the_room_of_text_out() {
    let bytes = file(GOOD, &[(10, 1, 2), (4_000_000_000, 65_535, 0)]);
    let text = "1 2 10\n65535 0 4000000000\n";
    for room in 0..40 {
        let expected = if room < text.len() {
            Err(6)
        } else {
            Ok(text.to_string())
        };
        assert_eq!(put_out(&bytes, room), expected);
    }
}

/// The reader's 9, 10, 11, 12, 2; then 6.
#[test]
fn the_order_of_text_out() {
    let mut bytes = file(GOOD, &[(3, 1, 2); 2]);
    assert_eq!(put_out(&bytes, 11), Err(6));
    let end = bytes.len();
    let mut refused_after = |place: usize, byte: u8| {
        bytes[place] = byte;
        put_out(&bytes, 0).unwrap_err()
    };
    assert_eq!(refused_after(end - 16, 0), 2);
    assert_eq!(refused_after(end - 13, 1), 12);
    assert_eq!(refused_after(end - 8, 3), 11);
    assert_eq!(refused_after(end - 1, b'b'), 10);
    assert_eq!(put_out(&bytes[1..], 0), Err(9));
}

/// The longest text of a file.
#[test]
fn a_text_has_184000_bytes_at_most() {
    let bytes = file(GOOD, &vec![(u32::MAX, 65_535, 65_535); 8_000]);
    assert_eq!(put_out(&bytes, 183_999), Err(6));
    let text = put_out(&bytes, 184_000).unwrap();
    assert_eq!(text.len(), 184_000);
    assert_eq!(brought_in(&text), Ok(bytes));
}

#[test]
fn there_and_back() {
    let mut dice = Dice(31);
    for _ in 0..200 {
        let settings = settings(
            1 + dice.below(16),
            1 + dice.below(1_000),
            1 + dice.below(2),
            dice.below(u32::MAX),
        );
        let mut records = Vec::new();
        for _ in 0..dice.below(50) {
            let widths = [1, 10, 100, 1_024, 10_000, 65_536];
            let cells = widths[dice.below(6) as usize];
            records.push((dice.below(u32::MAX), dice.below(cells), dice.below(cells)));
        }
        let bytes = file(settings, &records);
        let text = put_out(&bytes, 184_000).unwrap();
        assert_eq!(text.lines().count(), records.len());
        let again = bytes_in(settings, text.as_bytes(), bytes.len());
        assert_eq!(again, Ok(bytes));
    }
}
