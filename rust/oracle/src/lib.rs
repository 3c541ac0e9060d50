//! An independent reading of the document "The intended build and its rules".
//!
//! This program was written from that page alone, and the text lists, the mirror
//! rule, which cells touch, the lamps and the counter that goes round from the
//! requests for them. It keeps the plain list of all accepted links and searches the
//! window's links afresh for every question. The two forests are built for the step
//! counts only, link by link as the rules say, and thrown away again. Nothing is
//! remembered from one question to the next.
//!
//! Every call gives `Ok` with its result fields, or `Err` with the refusal.
//! "With a refusal the other result fields are 0" is then
//! `answer.unwrap_or_default()`, and the number of the table in RULES 7 is
//! `number(&answer)`.
//!
//! Altered books are not treated here: number 1 is given only for a book that
//! was never opened.

#![forbid(unsafe_code)]

mod book;
mod cells;
mod chain;
mod file;
mod forest;
mod joined;
mod lamps;
mod listing;
mod refusal;
mod search;
mod text;
mod ticks;

pub use book::{Book, History, Link, Settings, LINKS_PER_SLIDE, LOG_PLACES};
pub use cells::{
    in_lorrys_numbers, is_cell, mirrored, touch, touching_cells, CELLS, MIRRORED, PLAIN, RINGS,
    SECTORS,
};
pub use chain::{Chain, CHAIN_PLACES};
pub use file::{
    file_length, play, read, record, record_bytes, write, FileHead, PlayRefused, Record,
    LONGEST_FILE, MOST_RECORDS, RECORD_BYTES, TAIL_BYTES,
};
pub use forest::{Forest, Walk};
pub use joined::Joined;
pub use lamps::{ends_of, zone_of, Lamps, Side, MASK_BYTES};
pub use listing::listing;
pub use refusal::{number, Refusal};
pub use search::{CellSet, Linked};
pub use text::{line_of, text_in, text_out, TextRefused};
pub use ticks::{steps_to, tick_after, MOST_TOTAL, TURN};
