//! Altered books: whatever a call is given, it gives what docs/BOOK.md says. Most
//! of the books are in range, so that calls get past number 1; the rest have a
//! field outside its range, or any bytes. Several calls one after the other are
//! put to each book, and after each the time and the open slide are asked for.
//! Prints the seed and how often each class was seen; fails on a difference, and
//! where a class stayed empty.

use compare::altered::{books, calls, said, seen};
use compare::{library, run, Difference, State, Tally};
use std::process::ExitCode;
use std::time::Instant;
use streams::Dice;

/// So many lots of so many books, and so many calls to each book.
const LOTS: u64 = 40;
const BOOKS: u64 = 500;
const CALLS: u64 = 10;

fn main() -> ExitCode {
    let start = Instant::now();
    let seed = run::seed();
    println!("altered books compared with docs/BOOK.md, seed {seed}");
    let mut dice = Dice::new(seed);
    let left = books::left_by_calls(dice.bits());
    let lots: Vec<u64> = (0..LOTS).map(|_| dice.bits()).collect();

    let mut tally = seen::tally();
    let results = run::on_all_cores(lots, |lot| compare(lot, &left));
    let mut wrong = run::add_up(&mut tally, results);
    let at_first = tally.seen("at first");
    let (in_order, not_in_order) = (at_first[0], at_first[1]);
    if in_order < not_in_order {
        wrong.push("fewer than half of the books are in order".to_string());
    }
    let (seconds, books) = (start.elapsed().as_secs_f64(), in_order + not_in_order);
    println!(
        "{books} books, {CALLS} calls to each, whole answers, books and logs, in {seconds:.1} s"
    );
    run::verdict(seed, &tally, wrong)
}

/// Puts calls to the books of a lot, to the library and to what is said of it.
fn compare(lot: u64, left: &[State]) -> Result<Tally, String> {
    let mut tally = seen::tally();
    let mut dice = Dice::new(lot);
    for place in 0..BOOKS {
        let altered = books::draw(&mut dice, left);
        let mut state = altered.state;
        seen::count_book(&mut tally, altered.kind, &state);
        for asked in 0..CALLS {
            let call = calls::draw(&mut dice, &state, &altered.cells);
            let mut given = state.clone();
            let given_answer = library::ask(&mut given, &call);
            let before = state.clone();
            let answer = said::ask(&mut state, &call);
            let (told, given_told) = (said::told(&state.book), library::told(&given.book));
            Difference::of_answers(&call, &answer, &given_answer)
                .and_then(|()| Difference::of_states(&call, &state, &given))
                .and_then(|()| Difference::of_clocks(&call, told, given_told))
                .map_err(|difference| {
                    format!(
                        "lot {lot}, book {place} ({}), call {asked}: {difference}",
                        altered.kind
                    )
                })?;
            seen::count(&mut tally, &before, &state, &call, &answer);
        }
    }
    Ok(tally)
}
