//! Text in and text out, put to the oracle and to the proved library: texts with
//! every flaw, alone and in twos, calls with every set of faults, drawn calls, and
//! round trips both ways. Whole answers are compared, and whole outputs with the
//! places beyond. Prints the seed and how often each class was seen; fails on a
//! difference, and where a class stayed empty.

mod common;
use common::{all_sets, settings};
use compare::texts::{self, ROUND_TRIPS, TEXT_IN_FAULTS, TEXT_OUT_FAULTS};
use compare::{run, Lockstep, Tally};
use oracle::{Settings, LONGEST_FILE, MOST_RECORDS};
use std::process::ExitCode;
use std::time::Instant;
use streams::files::{file_of, valid_file};
use streams::texts::{
    draw_records, draw_text, every_flaw, every_two_flaws, text_in_call, text_out_call, Texts,
};
use streams::{draw_settings, Answer, Call, Dice};

/// So many lots, each with texts of every flaw, so many calls of every set of
/// faults, drawn calls, and round trips each way.
const LOTS: u64 = 4;
const OF_EACH_SET: u64 = 8;
const DRAWN: usize = 1_000;
const ROUNDS: u64 = 100;

fn main() -> ExitCode {
    let start = Instant::now();
    let seed = run::seed();
    println!("texts compared with the oracle, seed {seed}");
    let mut dice = Dice::new(seed);
    let lots: Vec<u64> = (0..LOTS).map(|_| dice.bits()).collect();

    let mut tally = texts::tally();
    let wrong = run::add_up(&mut tally, run::on_all_cores(lots, compare));
    let calls = |row| tally.seen(row).iter().sum::<u64>();
    let (texts_in, texts_out) = (calls("text in, number"), calls("text out, number"));
    let seconds = start.elapsed().as_secs_f64();
    println!(
        "{texts_in} texts in and {texts_out} out, whole answers and outputs, in {seconds:.1} s"
    );
    run::verdict(seed, &tally, wrong)
}

/// Puts the calls of a lot to both, and gives what they were.
fn compare(lot: u64) -> Result<Tally, String> {
    let mut both = Both {
        books: Lockstep::new(),
        tally: texts::tally(),
    };
    both.put_lot(&mut Dice::new(lot))
        .map_err(|difference| format!("lot {lot}: {difference}"))?;
    Ok(both.tally)
}

struct Both {
    books: Lockstep,
    tally: Tally,
}

impl Both {
    fn put(&mut self, call: &Call) -> Result<Answer, String> {
        let answer = self.books.put(call).map_err(|of| of.to_string())?;
        texts::count(&mut self.tally, call, &answer);
        Ok(answer)
    }

    fn put_lot(&mut self, dice: &mut Dice) -> Result<(), String> {
        for (flaw, text) in every_flaw(dice.bits()) {
            self.put(&with_room(text))?;
            self.tally.count("a flaw alone", flaw.name());
        }
        for ([one, other], text) in every_two_flaws(dice.bits()) {
            self.put(&with_room(text))?;
            self.tally.count("the first of two flaws", one.name());
            self.tally.count("the second of two flaws", other.name());
        }
        for _ in 0..OF_EACH_SET {
            for faults in all_sets() {
                self.put(&text_in_call(dice, faults))?;
                texts::count_faults(&mut self.tally, TEXT_IN_FAULTS, faults);
            }
            for faults in all_sets() {
                self.put(&text_out_call(dice, faults))?;
                texts::count_faults(&mut self.tally, TEXT_OUT_FAULTS, faults);
            }
        }
        for call in Texts::new(dice.bits()).take(DRAWN) {
            self.put(&call)?;
        }
        for _ in 0..ROUNDS {
            self.round_of_a_text(dice)?;
            self.round_of_a_file(dice)?;
        }
        Ok(())
    }

    /// Text to file to text gives the same text.
    fn round_of_a_text(&mut self, dice: &mut Dice) -> Result<(), String> {
        let lines = draw_lines(dice);
        let text = draw_text(dice, lines);
        let file = self.brought_in(draw_settings(dice), &text)?;
        let again = self.put_out(&file)?;
        self.back(ROUND_TRIPS[0], text == again)
    }

    /// File to text to file gives the same file, with the settings that the reader
    /// gives.
    fn round_of_a_file(&mut self, dice: &mut Dice) -> Result<(), String> {
        let file = if dice.one_in(2) {
            valid_file(dice)
        } else {
            let m = draw_lines(dice);
            file_of(draw_settings(dice), &draw_records(dice, m))
        };
        let text = self.put_out(&file)?;
        let read = Call::Read { file: file.clone() };
        let settings = match self.books.put(&read) {
            Ok(Answer::Read { settings, .. }) => settings,
            other => return Err(format!("a good file is read as {other:?}")),
        };
        let again = self.brought_in(settings, &text)?;
        self.back(ROUND_TRIPS[1], file == again)
    }

    fn back(&mut self, way: &str, same: bool) -> Result<(), String> {
        self.tally.count("round trip", way);
        same.then_some(()).ok_or(format!("{way}: another one"))
    }

    fn brought_in(&mut self, settings: Settings, text: &[u8]) -> Result<Vec<u8>, String> {
        let call = Call::TextIn {
            settings,
            text: text.to_vec(),
            output_bytes: LONGEST_FILE,
        };
        self.written(&call)
    }

    fn put_out(&mut self, file: &[u8]) -> Result<Vec<u8>, String> {
        let call = Call::TextOut {
            file: file.to_vec(),
            output_bytes: kerb::TEXT_BYTES,
        };
        self.written(&call)
    }

    /// What a call that is done puts at the front of its output.
    fn written(&mut self, call: &Call) -> Result<Vec<u8>, String> {
        match self.put(call)? {
            Answer::TextIn {
                number: 0,
                length,
                output,
                ..
            }
            | Answer::TextOut {
                number: 0,
                length,
                output,
            } => Ok(output[..length].to_vec()),
            other => Err(format!("number {} on a round trip", other.number())),
        }
    }
}

/// Text in that nothing but the text's lines can refuse.
fn with_room(text: Vec<u8>) -> Call {
    Call::TextIn {
        settings: settings(3, 10, 1, 5),
        text,
        output_bytes: LONGEST_FILE,
    }
}

fn draw_lines(dice: &mut Dice) -> usize {
    let some = dice.below(300) as usize;
    dice.pick(&[0, 1, some, some, some, some, MOST_RECORDS - 1, MOST_RECORDS])
}
