//! "Link file", and the refusals of "The listing".

mod common;
use common::*;
use oracle::*;
use std::collections::BTreeSet;

const GOOD: Settings = Settings {
    n: 16,
    b: 0x0403_0201,
    mounting: 2,
    t0: 0xDDCC_BBAA,
};

#[test]
fn the_bytes_of_the_settings_and_the_trailer() {
    let bytes = file(GOOD, &[(0xDDCC_BBAA, 0x0102, 0x0304); 300]);
    assert_eq!(bytes[..8], [0xAA, 0xBB, 0xCC, 0xDD, 0x02, 0x01, 0x04, 0x03]);
    assert_eq!(
        bytes[2400..2412],
        [0xAA, 0xBB, 0xCC, 0xDD, 0x01, 0x02, 0x03, 0x04, 16, 2, 0, 0]
    );
    // 8m = 2400 = 0x960 and m = 300 = 0x12C.
    assert_eq!(
        bytes[2412..],
        [0x60, 0x09, 0, 0, 0x2C, 0x01, 0, 0, 0x4B, 0x45, 0x52, 0x42]
    );
}

#[test]
fn the_reader_returns_what_the_writer_took() {
    for m in [0, 1, 2, 255, 8_000] {
        let head = read(&file(GOOD, &vec![(1, 2, 3); m])).unwrap();
        assert_eq!(
            head,
            FileHead {
                settings: GOOD,
                m: m as u32
            }
        );
    }
}

#[test]
fn the_writer_fills_8m_plus_24_bytes_and_no_byte_beyond() {
    let records = records(&[(1, 2, 3); 7]);
    for room in [79, 80, 81, 100] {
        let mut output = vec![0x5A; room];
        let answer = write(GOOD, &records, &mut output);
        if room < 80 {
            assert_eq!(number(&answer), 6);
            assert!(output.iter().all(|&byte| byte == 0x5A));
        } else {
            assert_eq!(number(&answer), 0);
            assert_eq!(output[..80], file(GOOD, &[(1, 2, 3); 7]));
            assert!(output[80..].iter().all(|&byte| byte == 0x5A));
        }
    }
}

#[test]
fn the_writer_and_the_length_of_its_records() {
    let mut output = vec![0; 70_000];
    for (length, expected) in [
        (0, 0),
        (7, 9),
        (8, 0),
        (9, 9),
        (63_999, 9),
        (64_000, 0),
        (64_001, 9),
        (64_008, 9),
    ] {
        let answer = write(GOOD, &vec![0xFF; length], &mut output);
        assert_eq!(number(&answer), expected, "length {}", length);
    }
}

#[test]
fn the_writer_does_not_judge_the_records() {
    // Cells that are none, ticks that fall.
    let bytes = file(GOOD, &[(9, 5000, 6000), (8, 1, 2)]);
    assert_eq!(read(&bytes).unwrap().m, 2);
}

#[test]
fn the_reader_and_the_length_of_the_file() {
    for length in (0..2_000usize).chain(63_900..64_100).chain([70_000]) {
        let good = (24..=64_024).contains(&length) && (length - 24) % 8 == 0;
        // All zero bytes: the next refusal is 10.
        let given = number(&read(&vec![0; length]));
        assert_eq!(given, if good { 10 } else { 9 });
    }
}

#[test]
fn every_letter_is_compared() {
    let good = file(GOOD, &[(1, 2, 3)]);
    for place in good.len() - 4..good.len() {
        for bit in 0..8 {
            let mut bytes = good.clone();
            bytes[place] ^= 1 << bit;
            assert_eq!(read(&bytes), Err(Refusal::Letters));
        }
    }
}

#[test]
fn every_bit_of_offset_and_m_is_compared() {
    let good = file(GOOD, &[(1, 2, 3); 5]);
    for place in good.len() - 12..good.len() - 4 {
        for bit in 0..8 {
            let mut bytes = good.clone();
            bytes[place] ^= 1 << bit;
            assert_eq!(read(&bytes), Err(Refusal::Trailer));
        }
    }
}

#[test]
fn an_offset_and_m_that_agree_with_each_other_only() {
    let good = file(GOOD, &[(1, 2, 3); 5]);
    // 8m also where it no longer fits 32 bits: m = 2^29 + 5.
    for m in [0u32, 4, 6, 8_000, 536_870_911, (1 << 29) + 5] {
        let mut bytes = good.clone();
        let trailer = bytes.len() - 12;
        let offset = m.wrapping_mul(8);
        bytes[trailer..trailer + 4].copy_from_slice(&offset.to_le_bytes());
        bytes[trailer + 4..trailer + 8].copy_from_slice(&m.to_le_bytes());
        assert_eq!(read(&bytes), Err(Refusal::Trailer));
    }
}

#[test]
fn both_pad_bytes_are_judged() {
    let good = file(GOOD, &[(1, 2, 3)]);
    for place in [8 + 10, 8 + 11] {
        for value in 1..=255 {
            let mut bytes = good.clone();
            bytes[place] = value;
            assert_eq!(read(&bytes), Err(Refusal::Pad));
        }
    }
}

#[test]
fn the_settings_are_judged() {
    let good = file(GOOD, &[]);
    for value in 0..=255u8 {
        let mut bytes = good.clone();
        bytes[8] = value;
        let expected = if (1..=16).contains(&value) { 0 } else { 2 };
        assert_eq!(number(&read(&bytes)), expected, "n {}", value);
        let mut bytes = good.clone();
        bytes[9] = value;
        let expected = if (1..=2).contains(&value) { 0 } else { 2 };
        assert_eq!(number(&read(&bytes)), expected, "mounting {}", value);
    }
    let mut bytes = good.clone();
    bytes[4..8].copy_from_slice(&[0; 4]);
    assert_eq!(read(&bytes), Err(Refusal::Settings));
    // Any B from 1 on, any T0.
    for place in 0..8 {
        let mut bytes = good.clone();
        bytes[4..8].copy_from_slice(&[0; 4]);
        bytes[4] = 1;
        bytes[place] = 0xFF;
        assert_eq!(number(&read(&bytes)), 0);
    }
}

#[test]
fn an_empty_file_plays_to_a_fresh_book() {
    let set = settings(4, 100, MIRRORED, 9);
    let bytes = file(set, &[]);
    assert_eq!(play(&bytes), Ok(opened(4, 100, MIRRORED, 9)));
    assert_eq!(listing(&bytes), "window 4 100 2 0\nlinks 0\n");
}

#[test]
fn records_arrive_in_the_units_numbers() {
    let set = settings(4, 100, MIRRORED, 0);
    let text = listing(&file(set, &[(0, 0, 1), (0, 64, 65)]));
    // 0 and 63; 64 and 127.
    assert_eq!(
        text,
        "window 4 100 2 0\ngroup 0 2 3\ngroup 64 2 3\nlinks 2\n"
    );
}

#[test]
fn refused_files() {
    assert_eq!(listing(&[]), "refused 9 file\n");
    assert_eq!(listing(&[0; 24]), "refused 10 file\n");
    let good = file(settings(3, 10, PLAIN, 0), &LISTING);
    assert_eq!(listing(&good[8..]), "refused 11 file\n");
    let mut bytes = good.clone();
    bytes[40 + 10] = 1;
    assert_eq!(listing(&bytes), "refused 12 file\n");
    let mut bytes = good;
    bytes[40 + 9] = 0;
    assert_eq!(listing(&bytes), "refused 2 file\n");
}

#[test]
fn refused_records() {
    let set = settings(3, 10, PLAIN, 5);
    let text = |of: &[(u32, u32, u32)]| listing(&file(set, of));
    assert_eq!(text(&[(4, 1, 2)]), "refused 4 0\n");
    assert_eq!(text(&[(5, 1, 2), (9, 1, 2), (8, 1, 2)]), "refused 4 2\n");
    assert_eq!(text(&[(5, 1, 2), (5, 1024, 2)]), "refused 3 1\n");
    assert_eq!(text(&[(5, 1, 2), (5, 2, 65535)]), "refused 3 1\n");
    assert_eq!(text(&[(5, 1, 2); 257]), "refused 5 256\n");
    // The first refusal ends it.
    assert_eq!(text(&[(4, 1, 2), (5, 1024, 2)]), "refused 4 0\n");
}

/// The least hold over a group's pairs, from the chains of all pairs.
#[test]
fn the_groups_of_the_listing_by_brute_force() {
    let mut dice = Dice(30);
    let mut grouped = 0;
    for _ in 0..300 {
        let cells = 3 + dice.below(20);
        let book = random_book(&mut dice, cells);
        let of = history(&book);
        let mut text = format!(
            "window {} {} {} {}\n",
            of.settings.n,
            of.settings.b,
            of.settings.mounting,
            of.open_slide()
        );
        // Cells of no link are joined to none.
        let ends = of.links.iter().flat_map(|link| [link.a, link.b]);
        let used: BTreeSet<u32> = ends.collect();
        for &smallest in &used {
            let with = |&cell: &u32| joined(&book, smallest, cell).0;
            let group: Vec<u32> = used.iter().copied().filter(with).collect();
            if group.len() < 2 || group[0] != smallest {
                continue;
            }
            let mut least = u32::MAX;
            for &a in &group {
                for &b in group.iter().filter(|&&b| b != a) {
                    least = least.min(chain(&book, a, b).unwrap().1);
                }
            }
            text += &format!("group {} {} {}\n", smallest, group.len(), least);
            grouped += 1;
        }
        text += &format!("links {}\n", of.window().len());

        let arrived = |link: &Link| {
            let into = link.slide as u32 * of.settings.b;
            let tick = of.settings.t0.wrapping_add(into);
            let mounting = of.settings.mounting;
            (
                tick,
                in_lorrys_numbers(link.a, mounting),
                in_lorrys_numbers(link.b, mounting),
            )
        };
        let records: Vec<_> = of.links.iter().map(arrived).collect();
        assert_eq!(listing(&file(of.settings, &records)), text);
    }
    assert!(grouped > 300, "{}", grouped);
}
