//! Streams of calls for comparing two builds of the document "The intended
//! build and its rules": random ones, built ones, link files and texts; and the
//! body masks of the lamps.
//!
//! Everything is drawn from a seed, so the same seed gives the same calls
//! everywhere. A stream is an iterator or a `Vec` of [`Call`]; [`ask`] puts a
//! call to the oracle and gives its [`Answer`], with the lent buffers as the
//! call left them.
//!
//! Links are of cells that touch ([`touching`]) and ticks within a hop of the
//! book's time, as the counter goes round ([`hops`]), so that a rule about other
//! links and ticks changes nothing here: those are in the streams that are named for
//! far links, self links and huge jumps, and in the files damaged by these.

#![forbid(unsafe_code)]

pub mod built;
mod call;
mod dice;
pub mod files;
pub mod hops;
pub mod masks;
mod random;
mod scene;
pub mod texts;
pub mod touching;

pub use call::{
    ask, lamps_answer, lent_bytes, lent_places, Answer, Call, LISTING_BYTES, MOST_LOG_PLACES,
};
pub use dice::Dice;
pub use random::{draw_settings, Kind, Random};
