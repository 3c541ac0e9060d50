//! The streams of link files: damaged fields are met with their numbers.

use oracle::{listing, number, play, read, Book, PlayRefused, Refusal, TURN};
use std::collections::BTreeSet;
use streams::files::{edge_files, every_field, valid_file, Field, Files};
use streams::{ask, Call, Dice};

#[test]
fn a_seed_gives_the_same_calls() {
    let first: Vec<Call> = Files::new(1).take(100).collect();
    let again: Vec<Call> = Files::new(1).take(100).collect();
    assert_eq!(first, again);
}

#[test]
fn valid_files_play_to_the_end() {
    let mut dice = Dice::new(2);
    let mut lengths = BTreeSet::new();
    for _ in 0..400 {
        let file = valid_file(&mut dice);
        assert!(play(&file).is_ok());
        assert!(listing(&file).starts_with("window "));
        lengths.insert(file.len());
    }
    assert!(lengths.contains(&24) && lengths.len() > 100);
    assert!(lengths.iter().any(|&length| length > 32_000));
}

/// Their open slides have up to 10 digits as those of one turn of the counter have, and
/// more.
#[test]
fn valid_files_pass_the_end_of_the_counter() {
    let mut dice = Dice::new(5);
    let (mut passing, mut digits) = (0, BTreeSet::new());
    for _ in 0..400 {
        let file = valid_file(&mut dice);
        let book = play(&file).unwrap();
        let history = book.history.unwrap();
        let turns = (u128::from(history.settings.t0) + history.total) / TURN;
        passing += u32::from(turns > 0);
        digits.insert(history.open_slide().to_string().len());
    }
    assert!((100..300).contains(&passing), "{} of 400", passing);
    assert!(digits.contains(&1) && digits.contains(&10), "{:?}", digits);
    assert!(digits.iter().any(|&digits| digits > 11), "{:?}", digits);
}

/// The number that a damaged field must earn, if it must.
fn earned(field: Field) -> Option<u32> {
    match field {
        Field::Letters => Some(10),
        Field::Offset | Field::M | Field::OffsetAndM => Some(11),
        Field::Pad => Some(12),
        Field::N | Field::B | Field::Mounting => Some(2),
        _ => None,
    }
}

#[test]
fn every_damaged_field_earns_its_number() {
    let mut numbers = BTreeSet::new();
    for (field, file) in every_field(3) {
        let given = number(&read(&file));
        numbers.insert(given);
        if let Some(expected) = earned(field) {
            assert_eq!(given, expected, "{:?}", field);
        }
        if field == Field::Length {
            assert!([9, 10, 11].contains(&given), "{}", given);
        }
        let refused = match play(&file) {
            Err(PlayRefused::Record(refusal, _)) => Some(refusal),
            _ => None,
        };
        if field == Field::Cell && file.len() > 24 {
            assert_eq!(refused, Some(Refusal::Cell));
        }
        if field == Field::FullSlide && file.len() > 24 + 8 * 256 {
            assert_eq!(refused, Some(Refusal::SlideFull));
        }
        if [Field::FarLink, Field::SelfLink].contains(&field) && file.len() > 24 {
            assert_eq!(refused, Some(Refusal::Apart));
        }
        if field == Field::HugeJump && file.len() > 24 {
            assert_eq!(refused, Some(Refusal::Tick));
        }
        numbers.extend(refused.map(Refusal::number));
    }
    assert_eq!(numbers, BTreeSet::from([0, 2, 3, 4, 5, 9, 10, 11, 12, 14]));
}

#[test]
fn calls_with_files_give_every_number() {
    let mut book = Book::new();
    let (mut read, mut write, mut list) = (BTreeSet::new(), BTreeSet::new(), BTreeSet::new());
    for call in Files::new(4).take(3_000) {
        let given = ask(&mut book, &call).number();
        match call {
            Call::Read { .. } => read.insert(given),
            Call::Write { .. } => write.insert(given),
            _ => list.insert(given),
        };
    }
    assert_eq!(read, BTreeSet::from([0, 2, 9, 10, 11, 12]));
    assert_eq!(write, BTreeSet::from([0, 2, 6, 9]));
    let of_list = BTreeSet::from([0, 2, 3, 4, 5, 6, 9, 10, 11, 12, 14]);
    assert_eq!(list, of_list);
    assert_eq!(book, Book::new());
}

#[test]
fn edge_files_are_good_exactly_at_good_lengths() {
    for file in edge_files() {
        let good = [24, 32, 64_016, 64_024].contains(&file.len());
        assert_eq!(number(&read(&file)), if good { 0 } else { 9 });
        if good {
            assert!(play(&file).is_ok());
        }
    }
    let lengths: Vec<usize> = edge_files().iter().map(Vec::len).collect();
    for length in [23, 24, 64_024, 64_032] {
        assert!(lengths.contains(&length));
    }
}
