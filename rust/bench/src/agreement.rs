//! Before anything is timed, all give the library's answers on the workload, or the program stops: a benchmark against a wrong
//! baseline would be worthless.

use crate::any_book::AnyBook;
use crate::library::Library;
use crate::peer;
use crate::workload::{Calls, Workload};
use kerb::calls::{self, ChainAnswer, JoinedAnswer, LampsAnswer, Settings};
use kerb::CHAIN_PLACES;
use streams::texts::Texts;
use streams::{lent_bytes, Call};

/// What a call gives.
#[derive(Debug, PartialEq)]
enum Answer {
    Number(u8),
    Joined(JoinedAnswer),
    Chain(ChainAnswer, Vec<u16>),
    Lamps(LampsAnswer),
}

pub fn check<C: AnyBook>(workload: &Workload, name: &str) {
    let mut library = Library::opened(workload.settings);
    let mut book = C::opened(workload.settings);
    for (place, batch) in workload.batches.iter().enumerate() {
        let theirs = answers(&mut book, &batch.calls, C::COUNTS_STEPS, C::FINDS_CHAINS);
        let ours = answers(&mut library, &batch.calls, C::COUNTS_STEPS, C::FINDS_CHAINS);
        assert_eq!(
            theirs, ours,
            "{name} (left) and the library (right) differ in batch {place} of {}",
            workload.name
        );
    }
}

fn answers<C: AnyBook>(book: &mut C, calls: &Calls, steps: bool, chains: bool) -> Vec<Answer> {
    match calls {
        Calls::Clock(tick) => vec![Answer::Number(book.clock(*tick))],
        Calls::Links(tick, pairs) => pairs
            .iter()
            .map(|&(one, other)| Answer::Number(book.link(*tick, one, other)))
            .collect(),
        Calls::Joined(pairs) => pairs
            .iter()
            .map(|&(one, other)| {
                let mut joined = book.joined(one, other);
                if !steps {
                    joined.steps = 0;
                }
                Answer::Joined(joined)
            })
            .collect(),
        Calls::Chains(_) if !chains => Vec::new(),
        Calls::Chains(pairs) => pairs
            .iter()
            .map(|&(one, other)| {
                let mut lent = vec![u16::MAX; CHAIN_PLACES];
                Answer::Chain(book.chain(one, other, &mut lent), lent)
            })
            .collect(),
        Calls::Lamps(masks) => masks
            .iter()
            .map(|mask| Answer::Lamps(book.lamps(mask)))
            .collect(),
    }
}

/// Calls with texts that are compared.
const TEXTS: usize = 400;

/// The same of (a) for text in and text out: texts and files, good and bad, with outputs that are long enough or not.
pub fn check_texts() {
    for call in Texts::new(1).take(TEXTS) {
        match call {
            Call::TextIn {
                settings,
                text,
                output_bytes,
            } => {
                let settings = Settings {
                    t0: settings.t0,
                    b: settings.b,
                    n: settings.n as u8,
                    mounting: settings.mounting as u8,
                };
                let theirs = with_output(output_bytes, |out| peer::text_in(settings, &text, out));
                let ours = with_output(output_bytes, |out| calls::text_in(settings, &text, out));
                assert!(theirs == ours, "(a) and the library differ in text in");
            }
            Call::TextOut { file, output_bytes } => {
                let theirs = with_output(output_bytes, |out| peer::text_out(&file, out));
                let ours = with_output(output_bytes, |out| calls::text_out(&file, out));
                assert!(theirs == ours, "(a) and the library differ in text out");
            }
            _ => unreachable!("a call without a text"),
        }
    }
}

/// What a call gives, and the output that it was lent.
fn with_output<A>(bytes: usize, call: impl FnOnce(&mut [u8]) -> A) -> (A, Vec<u8>) {
    let mut out = lent_bytes(bytes);
    (call(&mut out), out)
}

#[cfg(test)]
mod tests {
    use crate::contenders;
    use crate::script::for_library;
    use crate::workload::{Batch, Calls, Workload};
    use oracle::{Book, Settings, LOG_PLACES};
    use streams::{ask, Call, Kind, Random};

    fn fresh(settings: Settings) -> Workload {
        Workload {
            name: "a random history".to_string(),
            settings: for_library(settings),
            batches: Vec::new(),
        }
    }

    fn batch(call: &Call) -> Option<Batch> {
        let calls = match *call {
            Call::Clock { tick, .. } => Calls::Clock(tick),
            Call::Link { tick, a, b, .. } => Calls::Links(tick, vec![(a as u16, b as u16)]),
            Call::Joined { first, second } => Calls::Joined(vec![(first as u16, second as u16)]),
            Call::Chain { first, second, .. } => Calls::Chains(vec![(first as u16, second as u16)]),
            _ => return None,
        };
        Some(Batch { calls, kind: None })
    }

    /// The workloads' ticks are few, and all of them are taken: here are ticks that pass the counter's end, that lie half a turn ahead
    /// and that lie back.
    #[test]
    fn all_take_the_ticks_that_the_library_takes() {
        let (mut refused, mut passes) = (0, 0);
        for seed in 0..4 {
            let mut book = Book::new();
            let mut histories = Vec::new();
            for mut call in Random::new(seed, Kind::HugeJumps).take(3_000) {
                if let Call::Link { log_places, .. } | Call::Clock { log_places, .. } = &mut call {
                    *log_places = LOG_PLACES;
                }
                let before = book.history.as_ref().map(|history| history.time);
                let number = ask(&mut book, &call).number();
                match (&call, histories.last_mut()) {
                    (Call::Opening { settings, .. }, _) if number == 0 => {
                        histories.push(fresh(*settings));
                    }
                    (_, Some(Workload { batches, .. })) => batches.extend(batch(&call)),
                    _ => {}
                }
                refused += u32::from(number == 4);
                let after = book.history.as_ref().map(|history| history.time);
                let opened = matches!(call, Call::Opening { .. });
                passes += u32::from(!opened && after < before);
            }
            for history in &histories {
                for contender in contenders::all() {
                    (contender.check)(history, contender.name);
                }
            }
        }
        assert!(refused > 200 && passes > 10, "{refused}, {passes}");
    }
}
