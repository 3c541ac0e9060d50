//! Altered books: books and logs that calls did not leave.
//!
//! - [`said`] is docs/BOOK.md written again in Rust: what each call gives, for any
//!   book and log; [`order`] is its number 1, with the reason;
//! - [`books`] draws altered books, their fields by `ranges`; [`calls`] draws the
//!   calls to put to one;
//! - [`seen`] counts what came of it.

pub mod books;
pub mod calls;
pub mod order;
mod ranges;
pub mod said;
pub mod seen;
