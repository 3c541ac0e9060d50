//! The oracle and the library side by side: every call is put to both.

use crate::difference::Difference;
use crate::fields::{book_of, log_place, never_opened, spot};
use crate::library::{self, told, Told};
use crate::state::State;
use oracle::{Book, History, LOG_PLACES};
use streams::{ask, Answer, Call};

/// To build a chunk's forests anew takes its time. Where the two chunks hold more
/// links than this, the book is looked at after one call in so many.
const MANY_LINKS: usize = 128;
const INTERVAL: u64 = 16;

/// Two books, the oracle's and the library's, that went through the same calls.
#[derive(Clone, Debug)]
pub struct Lockstep {
    oracle: Book,
    library: State,
    /// What the library's state has to be.
    expected: State,
    /// How many calls there were.
    calls: u64,
}

impl Lockstep {
    /// Two books that were never opened.
    pub fn new() -> Lockstep {
        Lockstep {
            oracle: Book::new(),
            library: State::with_new_log(kerb::RawBook::never_opened()),
            expected: State::with_new_log(never_opened()),
            calls: 0,
        }
    }

    /// The oracle's history, of a book that was opened.
    pub fn history(&self) -> Option<&History> {
        self.oracle.history.as_ref()
    }

    /// The library's book and log.
    pub fn library(&self) -> &State {
        &self.library
    }

    /// Puts a call to both. The whole answers have to be equal, the lent buffers
    /// too. Of the state, a refusal and a question change nothing; a call that is
    /// done leaves the book that [`book_of`] builds, and in the log writes a link
    /// to its two places, an opening zeros to the first 16,384, and nothing else. Then
    /// the time and the open slide are asked for.
    pub fn put(&mut self, call: &Call) -> Result<Answer, Difference> {
        self.calls += 1;
        let answer = ask(&mut self.oracle, call);
        let given = library::ask(&mut self.library, call);
        Difference::of_answers(call, &answer, &given)?;
        if let Answer::Number { number } = answer {
            self.follow(call, number == 0);
        }
        Difference::of_states(call, &self.expected, &self.library)?;
        let expected = self.oracle.history.as_ref().map(told_by);
        Difference::of_clocks(call, expected.unwrap_or_default(), told(&self.library.book))?;
        Ok(answer)
    }

    /// The expected state after an opening, a link or a clock call. After a refusal
    /// the oracle's history still has to be that of the book.
    fn follow(&mut self, call: &Call, done: bool) {
        if let Some(history) = &self.oracle.history {
            if done {
                write(&mut self.expected.log, history, call);
            }
            if self.is_due(history) {
                self.expected.book = book_of(history);
            } else if done {
                self.expected.book = self.library.book.clone();
            }
        }
    }

    /// Whether the whole book is looked at after this call.
    fn is_due(&self, history: &History) -> bool {
        let first = history.open_chunk().saturating_sub(1) * history.n();
        let links = history.links_of_slides(first, history.open_slide());
        links.len() <= MANY_LINKS || self.calls % INTERVAL == 0
    }
}

impl Default for Lockstep {
    fn default() -> Lockstep {
        Lockstep::new()
    }
}

/// What the oracle tells of its clock.
fn told_by(history: &History) -> Told {
    Told {
        time: history.time,
        open_slide: history.open_slide(),
    }
}

/// What a call that was done writes to the log, the history being that after it.
fn write(log: &mut [u16], history: &History, call: &Call) {
    match (call, history.links.last()) {
        (Call::Opening { .. }, _) => log[..LOG_PLACES].fill(0),
        (Call::Link { .. }, Some(link)) => {
            let spot = spot(link.slide / history.n(), link.slide % history.n());
            let arrivals = history.links_of_slides(link.slide, link.slide).len();
            let at = log_place(spot, arrivals - 1);
            log[at] = link.a as u16;
            log[at + 1] = link.b as u16;
        }
        _ => {}
    }
}

/// What the library may not do is done to its state here, and has to be noticed.
#[cfg(test)]
mod tests {
    use super::*;
    use oracle::Settings;
    use streams::masks::mask_of;

    const JOINED: Call = Call::Joined {
        first: 1,
        second: 2,
    };

    const LINK: Call = Call::Link {
        tick: 7,
        a: 1,
        b: 2,
        log_places: LOG_PLACES,
    };

    fn opened() -> Lockstep {
        let mut books = Lockstep::new();
        let settings = Settings {
            n: 3,
            b: 10,
            mounting: 1,
            t0: 0,
        };
        let opening = Call::Opening {
            settings,
            log_places: LOG_PLACES,
        };
        books.put(&opening).unwrap();
        books
    }

    fn difference(books: &mut Lockstep, call: &Call) -> String {
        books.put(call).unwrap_err().to_string()
    }

    #[test]
    fn another_answer_is_noticed() {
        let mut books = opened();
        books.library.book.forward_parent[2] = 1;
        assert_eq!(
            difference(&mut books, &JOINED),
            "Joined { first: 1, second: 2 }
  has to give Joined { number: 0, joined: false, steps: 0 }
  and gave    Joined { number: 0, joined: true, steps: 1 }"
        );
    }

    /// The link 1-2 becomes 3-2 in the library's log, and 2 is the smallest cell then.
    #[test]
    fn another_lamp_is_noticed() {
        let mut books = opened();
        books.put(&LINK).unwrap();
        books.library.log[0] = 3;
        let lamps = Call::Lamps {
            log_places: LOG_PLACES,
            mask: mask_of(&[7, 40, 41, 42, 1023]),
        };
        assert_eq!(
            difference(&mut books, &lamps),
            "Lamps, log of 16384 places, mask of 1024 bytes, not 0 at 7: 1, 40 to 42: 1, 1023: 1
  has to give Lamps { number: 0, left: false, right: true, left_cell: 0, right_cell: 1 }
  and gave    Lamps { number: 0, left: false, right: true, left_cell: 0, right_cell: 2 }"
        );
    }

    #[test]
    fn a_changed_field_is_noticed() {
        let mut books = opened();
        books.library.book.backward_label[1023] = 3;
        let text = difference(&mut books, &LINK);
        assert!(text.contains("backward_label[1023] 0"), "{text}");
    }

    #[test]
    fn a_changed_pad_byte_is_noticed() {
        let mut books = opened();
        books.library.book.clock.pad[2] = 1;
        let text = difference(&mut books, &LINK);
        assert!(text.contains("clock.pad[2] 0"), "{text}");
        let mut books = opened();
        books.library.book.fitting.pad[0] = 1;
        let text = difference(&mut books, &LINK);
        assert!(text.contains("fitting.pad[0] 0"), "{text}");
    }

    /// A turn of the counter, which the time does not show, and a tick, which the open
    /// slide does not. After a question both books are taken for what they should be.
    #[test]
    fn another_total_is_noticed() {
        for (ticks, told) in [(1 << 32, "open_slide: 429496730"), (1, "time: 8")] {
            let mut books = opened();
            books.put(&LINK).unwrap();
            books.library.book.clock.total += ticks;
            let text = difference(&mut books, &JOINED);
            assert!(text.contains("clock (total, t0, b, n)[0] 7"), "{text}");
            books.expected = books.library.clone();
            let text = difference(&mut books, &JOINED);
            assert!(text.contains(told), "{text}");
        }
    }

    #[test]
    fn a_changed_log_is_noticed() {
        for place in [0, LOG_PLACES - 1, LOG_PLACES, streams::MOST_LOG_PLACES - 1] {
            let mut books = opened();
            books.library.log[place] ^= 1;
            let text = difference(&mut books, &JOINED);
            assert!(text.contains(&format!("log[{place}]")), "{text}");
        }
    }

    #[test]
    fn a_link_that_is_lost_is_noticed() {
        let mut books = opened();
        let before = books.library.clone();
        books.put(&LINK).unwrap();
        books.library = before;
        difference(&mut books, &JOINED);
    }
}
