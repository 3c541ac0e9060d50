//! The book and its log, which together are the state.

use kerb::RawBook;
use streams::{lent_places, MOST_LOG_PLACES};

/// The state between two calls. The log has the most places that a call lends;
/// a call that lends fewer lends the first of them.
#[derive(Clone, Debug, PartialEq, Eq)]
pub struct State {
    pub book: RawBook,
    pub log: Vec<u16>,
}

impl State {
    /// A book with a log that no call has written to: none of its places is 0 or a
    /// cell, so that one sees which of them a call writes to.
    pub fn with_new_log(book: RawBook) -> State {
        State {
            book,
            log: lent_places(MOST_LOG_PLACES),
        }
    }
}
