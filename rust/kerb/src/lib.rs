//! The book of links for one blind-spot lidar, for a panel program in Rust: a safe wrapper over the proved static library.
//!
//! - [`Book`] owns its log; [`RawBook`] is lent it at every call, for panels without an allocator (no default features);
//! - [`UnitCell`] and [`LorryCell`] keep the unit's numbers and the lorry's apart;
//! - a call gives `Ok` with its result, or `Err` with the [`Refusal`], and then the book and all lent places are as they were;
//! - [`calls`] has the same calls as the library gives their answers, number and all.
//!
//! What the wrapper leaves to its caller: the stack, of which a call takes up to 128 KB of the calling thread's (`docs/BENCH.md`
//! has each call's), to keep a `RawBook` and its log together, and to make a clock call at least once a day.
//!
//! Ticks go round: after 4,294,967,295 comes 0. The book keeps the total, the ticks since T0 with every pass of the counter's end
//! counted. A tick that is less than 2,147,483,648 ahead of the book's time, as the counter goes, is added to it; any other is
//! [`Refusal::Early`]. The slide of a tick is that of the total that it makes: **it does not follow from the tick alone**, but from all
//! that the book has taken since T0. After a silence of 24.9 to 49.7 days (in ms) the next tick is refused, and the book has to be opened
//! anew; after a longer one nothing can see it, and a link from before may count as if it were just seen.
//!
//! ```
//! use kerb::{Book, LorryCell, Mounting, Settings, UnitCell, CELLS};
//!
//! let mut book = Book::open(Settings { t0: 0, b: 100, n: 8, mounting: Mounting::Mirrored })?;
//! book.link(40, UnitCell(0), UnitCell(1))?;
//! // mirrored: the lorry has 0 and 63 for the unit's 0 and 1
//! assert!(book.joined(LorryCell(0), LorryCell(63))?.yes);
//!
//! // 63 is in the left zone, and nothing of the lorry's own bodywork is joined to it
//! let body = [0; CELLS];
//! let lamps = book.lamps(&body)?;
//! assert_eq!((lamps.left, lamps.right), (Some(LorryCell(63)), None));
//! # Ok::<(), kerb::Refusal>(())
//! ```

#![no_std]

#[cfg(feature = "alloc")]
extern crate alloc;

#[cfg(feature = "alloc")]
mod book;
pub mod calls;
mod cells;
mod files;
mod raw;
mod refusal;

#[cfg(feature = "alloc")]
pub use book::Book;
#[cfg(feature = "alloc")]
pub use book::{Group, Groups};
pub use calls::RawBook;
pub use cells::{LorryCell, Mounting, UnitCell};
pub use files::{list, read, write};
pub use files::{pack, unpack, Record, Stopped};
pub use files::{text_in, text_out, TextRefused};
pub use refusal::Refusal;

/// How many cells there are.
pub const CELLS: usize = 1024;
/// Places that a log needs.
pub const LOG_PLACES: usize = 16_384;
/// Places that a chain buffer needs.
pub const CHAIN_PLACES: usize = 1024;
/// Bytes that the text of a listing needs.
pub const LISTING_BYTES: usize = 20_480;
/// Bytes of a record of a link file.
pub const RECORD_BYTES: usize = 8;
/// Bytes of a link file beside its records: settings and trailer.
pub const ENDING_BYTES: usize = 24;
/// Bytes of the longest link file.
pub const FILE_BYTES: usize = 64_024;
/// Bytes of the longest text that a link file gives: 8,000 lines of 23 bytes.
pub const TEXT_BYTES: usize = 184_000;

/// What a book opens with and a link file carries. There is no default: each panel has to say how its unit is fitted.
#[derive(Clone, Copy, Debug, PartialEq, Eq)]
pub struct Settings {
    /// T0, the first tick.
    pub t0: u32,
    /// B, the slide length in ticks, from 1.
    pub b: u32,
    /// The window width in slides, 1 to 16.
    pub n: u8,
    pub mounting: Mounting,
}

impl Settings {
    /// As the library has them.
    pub fn raw(self) -> calls::Settings {
        calls::Settings {
            t0: self.t0,
            b: self.b,
            n: self.n,
            mounting: self.mounting.number(),
        }
    }
}

/// What joined gives.
#[derive(Clone, Copy, Debug, PartialEq, Eq)]
pub struct Joined {
    pub yes: bool,
    /// The sum of the four walks, at most 40.
    pub steps: u8,
}

/// The two lamps: of each, where it is lit, the smallest cell that lights it.
///
/// A lamp is lit exactly when its zone has a cell that is an end of a link of the window and is joined to no body cell. The left zone is
/// sectors 33 to 63, the right zone sectors 1 to 31, both in rings 0 to 5.
#[derive(Clone, Copy, Debug, PartialEq, Eq)]
pub struct Lamps {
    pub left: Option<LorryCell>,
    pub right: Option<LorryCell>,
}

/// What the chain call gives beside the chain.
#[derive(Clone, Copy, Debug, PartialEq, Eq)]
pub struct Chain {
    /// L: links of this slide and later ones chain the two, and those of the next slide on do not. For a cell and itself one
    /// above the open slide.
    pub newest: u64,
    /// For how many further closings the two stay joined. For a cell and itself n, read as "always".
    pub hold: u8,
    /// How many cells stand at the front of the chain buffer.
    pub cells: u16,
}

/// What a slide has of time, from its first tick to its last.
///
/// The ticks follow from the totals: T0 and the total, as the counter goes. So `last` is below `first` where the counter passes its
/// end in the slide.
#[derive(Clone, Copy, Debug, PartialEq, Eq)]
pub struct SlideTicks {
    /// The total at the slide's first tick.
    pub first_total: u64,
    /// The total at its last.
    pub last_total: u64,
    pub first: u32,
    pub last: u32,
}
