//! The proved library compared, call by call, with what it has to give.
//!
//! - [`State`] is the library's state, the book and its log; [`library`] puts a
//!   call to the proved library;
//! - [`Lockstep`] puts the same calls to the oracle and to the library and
//!   compares whole answers, books and logs; [`fields`] lays a history of the
//!   oracle's out in a book's fields, as docs/BOOK.md has them;
//! - [`altered`] does it for books that calls did not leave, with docs/BOOK.md
//!   in the oracle's place;
//! - [`seen`] says which classes a call falls in, by the oracle's data alone, the
//!   crossings that were needed, the ties, what lit the lamps and where the counter
//!   passed its end among them, [`texts`] those of the calls with texts; [`Tally`]
//!   counts them and knows which stayed empty;
//! - [`run`] has what the runs share: the seed, the cores, the verdict.

#![forbid(unsafe_code)]

pub mod altered;
mod crossings;
mod difference;
pub mod fields;
mod lamps;
pub mod library;
mod lockstep;
pub mod run;
pub mod seen;
mod state;
mod tally;
pub mod texts;
mod ticks;
mod ties;

pub use difference::Difference;
pub use lockstep::Lockstep;
pub use state::State;
pub use tally::Tally;
