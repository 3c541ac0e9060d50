//! A difference between what a call gave and what it has to give, in words that
//! an engineer can start from.

use crate::library::Told;
use crate::state::State;
use std::fmt;
use streams::{lent_bytes, lent_places, Answer, Call};

/// What was wrong with a call.
#[derive(Clone, Debug, PartialEq, Eq)]
pub struct Difference(String);

impl fmt::Display for Difference {
    fn fmt(&self, f: &mut fmt::Formatter) -> fmt::Result {
        f.write_str(&self.0)
    }
}

impl Difference {
    /// The two answers, if they differ.
    pub fn of_answers(call: &Call, expected: &Answer, given: &Answer) -> Result<(), Difference> {
        if expected == given {
            return Ok(());
        }
        Err(Difference(format!(
            "{}\n  has to give {}\n  and gave    {}",
            shown_call(call),
            shown_answer(expected),
            shown_answer(given)
        )))
    }

    /// The first place in which the two states differ, if they do.
    /// Every byte of the book is compared, the pad bytes too.
    pub fn of_states(call: &Call, expected: &State, given: &State) -> Result<(), Difference> {
        let same_bytes = expected.book.as_bytes() == given.book.as_bytes();
        if same_bytes && expected.log == given.log {
            return Ok(());
        }
        for ((name, expected), (_, given)) in parts(expected).iter().zip(&parts(given)) {
            for (place, (expected, given)) in expected.iter().zip(given).enumerate() {
                if expected != given {
                    return Err(Difference(format!(
                        "{}\n  has to leave {name}[{place}] {expected}\n  and left     {given}",
                        shown_call(call),
                    )));
                }
            }
        }
        unreachable!("the parts are all that a state has")
    }

    /// What the book's clock says after a call, where the two differ.
    pub fn of_clocks(call: &Call, expected: Told, given: Told) -> Result<(), Difference> {
        if expected == given {
            return Ok(());
        }
        Err(Difference(format!(
            "{}\n  has to leave {expected:?}\n  and left     {given:?}",
            shown_call(call),
        )))
    }
}

/// All numbers of a state, field by field.
fn parts(state: &State) -> Vec<(&'static str, Vec<u64>)> {
    let book = &state.book;
    let wide = |numbers: &[u16]| numbers.iter().map(|&number| u64::from(number)).collect();
    let bytes = |numbers: &[u8]| numbers.iter().map(|&number| u64::from(number)).collect();
    let clock = &book.clock;
    vec![
        (
            "clock (total, t0, b, n)",
            vec![clock.total, clock.t0.into(), clock.b.into(), clock.n.into()],
        ),
        ("clock.pad", bytes(&clock.pad)),
        ("fitting.mounting", vec![book.fitting.mounting.into()]),
        ("fitting.pad", bytes(&book.fitting.pad)),
        ("counts", wide(&book.counts)),
        ("forward_parent", wide(&book.forward_parent)),
        ("forward_size", wide(&book.forward_size)),
        ("backward_parent", wide(&book.backward_parent)),
        ("backward_size", wide(&book.backward_size)),
        ("backward_label", bytes(&book.backward_label)),
        ("log", wide(&state.log)),
    ]
}

/// So many bytes of a text are shown.
const SHOWN: usize = 200;

/// So many stretches of a mask are shown.
const STRETCHES: usize = 40;

/// The first bytes of a mask that are not 0, by stretches of the same value.
fn shown_mask(mask: &[u8]) -> String {
    let mut place = 0;
    let mut shown = Vec::new();
    for stretch in mask.chunk_by(|one, next| one == next) {
        let last = place + stretch.len() - 1;
        match stretch[0] {
            0 => {}
            value if place == last => shown.push(format!("{place}: {value}")),
            value => shown.push(format!("{place} to {last}: {value}")),
        }
        place = last + 1;
    }
    shown.truncate(STRETCHES);
    shown.join(", ")
}

/// A call, without the bytes of its file; of a text the first ones, of a mask those
/// that are not 0.
fn shown_call(call: &Call) -> String {
    match call {
        Call::Lamps { log_places, mask } => format!(
            "Lamps, log of {} places, mask of {} bytes, not 0 at {}",
            log_places,
            mask.len(),
            shown_mask(mask)
        ),
        Call::Read { file } => format!("Read a file of {} bytes", file.len()),
        Call::Write {
            settings,
            records,
            output_bytes,
        } => format!(
            "Write {:?}, {} bytes of records, output of {} bytes",
            settings,
            records.len(),
            output_bytes
        ),
        Call::List { file, output_bytes } => format!(
            "List a file of {} bytes, output of {} bytes",
            file.len(),
            output_bytes
        ),
        Call::TextIn {
            settings,
            text,
            output_bytes,
        } => format!(
            "Text in, {:?}, {} bytes of text, output of {} bytes: {}",
            settings,
            text.len(),
            output_bytes,
            text[..SHOWN.min(text.len())].escape_ascii()
        ),
        Call::TextOut { file, output_bytes } => format!(
            "Text out, a file of {} bytes, output of {} bytes",
            file.len(),
            output_bytes
        ),
        call => format!("{:?}", call),
    }
}

/// An answer; of a lent buffer what was written to it.
fn shown_answer(answer: &Answer) -> String {
    match answer {
        Answer::Chain {
            number,
            l,
            hold,
            cells,
            lent,
        } => format!(
            "number {}, L {}, hold {}, {} cells; {}",
            number,
            l,
            hold,
            cells,
            written(lent, &lent_places(lent.len()))
        ),
        Answer::Write { number, output } => format!(
            "number {}; {}",
            number,
            written(output, &lent_bytes(output.len()))
        ),
        Answer::List {
            number,
            length,
            output,
        } => format!(
            "number {}, length {}, text {:?}; {}",
            number,
            length,
            String::from_utf8_lossy(output.get(..*length).unwrap_or_default()),
            written(output, &lent_bytes(output.len()))
        ),
        Answer::TextIn {
            number,
            length,
            line,
            output,
        } => format!(
            "number {}, length {}, line {}; {}",
            number,
            length,
            line,
            written(output, &lent_bytes(output.len()))
        ),
        Answer::TextOut {
            number,
            length,
            output,
        } => format!(
            "number {}, length {}; {}",
            number,
            length,
            written(output, &lent_bytes(output.len()))
        ),
        answer => format!("{:?}", answer),
    }
}

/// Which places of a buffer hold something else than when it was lent, and what.
fn written<T: PartialEq + fmt::Display>(now: &[T], lent: &[T]) -> String {
    let changed = now.iter().zip(lent).enumerate();
    let changed: Vec<String> = changed
        .filter(|(_, (now, lent))| now != lent)
        .map(|(place, (now, _))| format!("{place}: {now}"))
        .collect();
    format!(
        "of {} places {} written {}",
        now.len(),
        changed.len(),
        changed.join(", ")
    )
}
