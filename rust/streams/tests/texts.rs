//! The texts are what they are made for.

use oracle::{text_in, Book, Refusal, Settings, LONGEST_FILE, MOST_RECORDS};
use std::collections::{BTreeMap, BTreeSet};
use streams::texts::{
    draw_text, every_flaw, every_two_flaws, text_in_call, text_out_call, Flaw, Texts, FLAWS,
};
use streams::{ask, Answer, Call, Dice};

const GOOD: Settings = Settings {
    n: 1,
    b: 1,
    mounting: 1,
    t0: 0,
};

/// The line that breaks the form, if one does.
fn bad_line(text: &[u8]) -> Option<u64> {
    match text_in(GOOD, text, &mut [0; LONGEST_FILE]) {
        Err(refused) if refused.refusal == Refusal::Line => Some(refused.line),
        _ => None,
    }
}

#[test]
fn a_seed_gives_the_same_calls() {
    let first: Vec<Call> = Texts::new(1).take(100).collect();
    let again: Vec<Call> = Texts::new(1).take(100).collect();
    assert_eq!(first, again);
}

#[test]
fn good_texts_have_numbers_of_all_lengths() {
    let mut dice = Dice::new(2);
    let text = draw_text(&mut dice, MOST_RECORDS);
    assert_eq!(
        text_in(GOOD, &text, &mut [0; LONGEST_FILE]),
        Ok(LONGEST_FILE)
    );
    let text = String::from_utf8(text).unwrap();
    let mut digits = [BTreeSet::new(), BTreeSet::new(), BTreeSet::new()];
    for line in text.lines() {
        for (digits, field) in digits.iter_mut().zip(line.split(' ')) {
            digits.insert(field.len());
        }
    }
    let up_to = |most| (1..=most).collect::<BTreeSet<usize>>();
    assert_eq!(digits, [up_to(5), up_to(5), up_to(10)]);
    for end in ["0 ", "65535 ", " 0\n", " 4294967295\n"] {
        assert!(text.contains(end), "{:?}", end);
    }
}

#[test]
fn every_flaw_breaks_the_form() {
    let mut lines = BTreeMap::new();
    for (flaw, text) in every_flaw(3) {
        let line = bad_line(&text);
        assert!(line.is_some(), "{:?}", flaw);
        let lines: &mut Vec<u64> = lines.entry(format!("{:?}", flaw)).or_default();
        lines.extend(line);
    }
    assert_eq!(lines.len(), FLAWS.len());
    for (flaw, lines) in lines {
        assert!(lines.contains(&0), "{} in no first line", flaw);
        let past = lines.iter().any(|&line| line >= MOST_RECORDS as u64);
        assert!(past, "{} in no line past the 8,000th", flaw);
    }
}

/// A field more and one missing may leave the line as it was, and a line feed
/// that is missing may undo one more.
#[test]
fn two_flaws_break_the_form_but_where_one_undoes_the_other() {
    for (flaws, text) in every_two_flaws(4) {
        let undoes = |flaw| [Flaw::FieldMissing, Flaw::LineFeedMissing].contains(flaw);
        let may_be_good = flaws.iter().any(undoes);
        assert!(may_be_good || bad_line(&text).is_some(), "{:?}", flaws);
    }
}

/// The number of the first fault, in the order of the checks.
fn first(order: &[u32], faults: &[bool]) -> u32 {
    let mut both = order.iter().zip(faults);
    both.find(|of| *of.1).map_or(0, |of| *of.0)
}

#[test]
fn calls_have_their_faults_and_no_others() {
    let mut dice = Dice::new(5);
    let order = [13, 2, 9, 6];
    for bits in 0..1 << order.len() {
        for _ in 0..10 {
            let faults = [1, 2, 4, 8].map(|bit| bits & bit != 0);
            let call = text_in_call(&mut dice, faults);
            let given = ask(&mut Book::new(), &call).number();
            assert_eq!(given, first(&order, &faults), "{:?}", faults);
        }
    }
    let order = [9, 10, 11, 12, 2, 6];
    for bits in 0..1 << order.len() {
        for _ in 0..10 {
            let faults = [1, 2, 4, 8, 16, 32].map(|bit| bits & bit != 0);
            let call = text_out_call(&mut dice, faults);
            let given = ask(&mut Book::new(), &call).number();
            assert_eq!(given, first(&order, &faults), "{:?}", faults);
        }
    }
}

#[test]
fn calls_with_texts_give_every_number() {
    let (mut text_in, mut text_out) = (BTreeSet::new(), BTreeSet::new());
    for call in Texts::new(6).take(2_000) {
        match ask(&mut Book::new(), &call) {
            Answer::TextIn { number, .. } => text_in.insert(number),
            other => text_out.insert(other.number()),
        };
    }
    assert_eq!(text_in, BTreeSet::from([0, 2, 6, 9, 13]));
    assert_eq!(text_out, BTreeSet::from([0, 2, 6, 9, 10, 11, 12]));
}
