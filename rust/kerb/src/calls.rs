//! The calls as the library has them: each gives its whole answer, with the number and, on a refusal, the zeros beside it. The
//! structs are those of include/kerb.h, byte for byte. The only unsafe code is here.

/// What a book opens with and a link file carries.
#[derive(Clone, Copy, Debug, PartialEq, Eq)]
#[repr(C)]
pub struct Settings {
    /// T0, the first tick.
    pub t0: u32,
    /// B, the slide length in ticks, from 1.
    pub b: u32,
    /// The window width in slides, 1 to 16.
    pub n: u8,
    /// 1 plain, 2 mirrored.
    pub mounting: u8,
}

/// The total, and the settings that a book keeps of its time. The time follows from them: [`time`].
#[derive(Clone, Copy, Debug, PartialEq, Eq)]
#[repr(C)]
pub struct Clock {
    /// How many ticks have passed since T0, each pass of the counter's end counted.
    pub total: u64,
    pub t0: u32,
    pub b: u32,
    pub n: u8,
    /// No meaning: 0 from an opening on.
    pub pad: [u8; 7],
}

/// How the unit is fitted.
#[derive(Clone, Copy, Debug, PartialEq, Eq)]
#[repr(C)]
pub struct Fitting {
    pub mounting: u8,
    /// No meaning: 0 from an opening on.
    pub pad: [u8; 7],
}

/// The book without its log, for panels that have no allocator: each call is lent the log. `Book` keeps both together.
/// docs/BOOK.md has each field's range; a caller has no need to read or write them.
#[derive(Clone, Debug, PartialEq, Eq)]
#[repr(C)]
pub struct RawBook {
    pub forward_parent: [u16; 1024],
    pub forward_size: [u16; 1024],
    pub backward_parent: [u16; 1024],
    pub backward_size: [u16; 1024],
    pub counts: [u16; 32],
    pub clock: Clock,
    pub backward_label: [u8; 1024],
    pub fitting: Fitting,
}

#[derive(Clone, Copy, Debug, PartialEq, Eq)]
#[repr(C)]
pub struct JoinedAnswer {
    pub number: u8,
    pub yes: bool,
    pub steps: u8,
}

#[derive(Clone, Copy, Debug, PartialEq, Eq)]
#[repr(C)]
pub struct ChainAnswer {
    pub newest: u64,
    pub cells: u16,
    pub hold: u8,
    pub number: u8,
}

#[derive(Clone, Copy, Debug, PartialEq, Eq)]
#[repr(C)]
pub struct ReadAnswer {
    pub settings: Settings,
    pub m: u32,
    pub number: u8,
}

#[derive(Clone, Copy, Debug, PartialEq, Eq)]
#[repr(C)]
pub struct ListAnswer {
    pub length: usize,
    pub number: u8,
}

#[derive(Clone, Copy, Debug, PartialEq, Eq)]
#[repr(C)]
pub struct TextInAnswer {
    pub length: usize,
    pub line: u64,
    pub number: u8,
}

#[derive(Clone, Copy, Debug, PartialEq, Eq)]
#[repr(C)]
pub struct TextOutAnswer {
    pub length: usize,
    pub number: u8,
}

#[derive(Clone, Copy, Debug, PartialEq, Eq)]
#[repr(C)]
pub struct PlayAnswer {
    pub taken: u32,
    pub number: u8,
}

#[derive(Clone, Copy, Debug, PartialEq, Eq)]
#[repr(C)]
pub struct GroupsAnswer {
    pub links: u32,
    pub number: u8,
}

#[derive(Clone, Copy, Debug, PartialEq, Eq)]
#[repr(C)]
pub struct LampsAnswer {
    pub left_cell: u16,
    pub right_cell: u16,
    pub left: bool,
    pub right: bool,
    pub number: u8,
}

#[derive(Clone, Copy, Debug, PartialEq, Eq)]
#[repr(C)]
pub struct RecordAnswer {
    pub tick: u32,
    pub one: u16,
    pub other: u16,
    pub number: u8,
}

#[derive(Clone, Copy, Debug, PartialEq, Eq)]
#[repr(C)]
pub struct SlideAnswer {
    pub first_total: u64,
    pub last_total: u64,
    pub first: u32,
    pub last: u32,
    pub exists: bool,
}

/// The layout that the library was built with, as include/kerb.h asserts it for C.
mod layout {
    use super::*;
    use core::mem::{offset_of, size_of};

    macro_rules! laid_out {
        ($whole:ty, $bytes:expr, $($field:ident at $place:expr),+) => {
            const _: () = {
                assert!(size_of::<$whole>() == $bytes);
                $(assert!(offset_of!($whole, $field) == $place);)+
            };
        };
    }

    laid_out!(Settings, 12, t0 at 0, b at 4, n at 8, mounting at 9);
    laid_out!(Clock, 24, total at 0, t0 at 8, b at 12, n at 16, pad at 17);
    laid_out!(Fitting, 8, mounting at 0, pad at 1);
    laid_out!(
        RawBook, 9312,
        forward_parent at 0,
        forward_size at 2048,
        backward_parent at 4096,
        backward_size at 6144,
        counts at 8192,
        clock at 8256,
        backward_label at 8280,
        fitting at 9304
    );
    laid_out!(JoinedAnswer, 3, number at 0, yes at 1, steps at 2);
    laid_out!(ChainAnswer, 16, newest at 0, cells at 8, hold at 10, number at 11);
    laid_out!(ReadAnswer, 20, settings at 0, m at 12, number at 16);
    laid_out!(ListAnswer, 16, length at 0, number at 8);
    laid_out!(TextInAnswer, 24, length at 0, line at 8, number at 16);
    laid_out!(TextOutAnswer, 16, length at 0, number at 8);
    laid_out!(PlayAnswer, 8, taken at 0, number at 4);
    laid_out!(GroupsAnswer, 8, links at 0, number at 4);
    laid_out!(LampsAnswer, 8, left_cell at 0, right_cell at 2, left at 4, right at 5, number at 6);
    laid_out!(RecordAnswer, 12, tick at 0, one at 4, other at 6, number at 8);
    laid_out!(SlideAnswer, 32, first_total at 0, last_total at 8, first at 16, last at 20, exists at 24);
}

mod library {
    use super::*;

    unsafe extern "C" {
        pub fn kerb_never_opened() -> RawBook;
        pub fn kerb_opening(
            book: *mut RawBook,
            log: *mut u16,
            log_places: usize,
            settings: Settings,
        ) -> u8;
        pub fn kerb_link(
            book: *mut RawBook,
            log: *mut u16,
            log_places: usize,
            tick: u32,
            one: u16,
            other: u16,
        ) -> u8;
        pub fn kerb_clock(book: *mut RawBook, log: *const u16, log_places: usize, tick: u32) -> u8;
        pub fn kerb_joined(book: *const RawBook, one: u16, other: u16) -> JoinedAnswer;
        pub fn kerb_chain(
            book: *const RawBook,
            log: *const u16,
            log_places: usize,
            one: u16,
            other: u16,
            chain: *mut u16,
            chain_places: usize,
        ) -> ChainAnswer;
        pub fn kerb_read(file: *const u8, file_bytes: usize) -> ReadAnswer;
        pub fn kerb_write(
            settings: Settings,
            records: *const u8,
            records_bytes: usize,
            out: *mut u8,
            out_bytes: usize,
        ) -> u8;
        pub fn kerb_list(
            file: *const u8,
            file_bytes: usize,
            out: *mut u8,
            out_bytes: usize,
        ) -> ListAnswer;
        pub fn kerb_text_in(
            settings: Settings,
            text: *const u8,
            text_bytes: usize,
            out: *mut u8,
            out_bytes: usize,
        ) -> TextInAnswer;
        pub fn kerb_text_out(
            file: *const u8,
            file_bytes: usize,
            out: *mut u8,
            out_bytes: usize,
        ) -> TextOutAnswer;
        pub safe fn kerb_version_3() -> u32;
        pub safe fn kerb_book_size() -> usize;
        pub safe fn kerb_lorry_cell(mounting: u8, cell: u16) -> u16;
        pub safe fn kerb_unit_cell(mounting: u8, cell: u16) -> u16;
        pub safe fn kerb_ring(cell: u16) -> u16;
        pub safe fn kerb_sector(cell: u16) -> u16;
        pub fn kerb_time(book: *const RawBook) -> u32;
        pub fn kerb_open_slide(book: *const RawBook) -> u64;
        pub fn kerb_slide_ticks(book: *const RawBook, slide: u64) -> SlideAnswer;
        pub fn kerb_groups(
            book: *const RawBook,
            log: *const u16,
            log_places: usize,
            first: *mut u16,
            first_places: usize,
            size: *mut u16,
            size_places: usize,
            hold: *mut u8,
            hold_places: usize,
        ) -> GroupsAnswer;
        pub fn kerb_lamps(
            book: *const RawBook,
            log: *const u16,
            log_places: usize,
            mask: *const u8,
            mask_bytes: usize,
        ) -> LampsAnswer;
        pub fn kerb_play(
            book: *mut RawBook,
            log: *mut u16,
            log_places: usize,
            file: *const u8,
            file_bytes: usize,
        ) -> PlayAnswer;
        pub fn kerb_pack(tick: u32, one: u16, other: u16, out: *mut u8, out_bytes: usize) -> u8;
        pub fn kerb_unpack(records: *const u8, records_bytes: usize, i: u32) -> RecordAnswer;
    }
}

// Safe, all of them: each pointer is a reference's, or comes with its length from one slice; what is written to is borrowed
// `&mut` and so overlaps nothing; and the library is proved to stay inside for every content.

pub fn never_opened() -> RawBook {
    unsafe { library::kerb_never_opened() }
}

/// A library of another version does not link: each has the function of its own version alone.
pub fn opening(book: &mut RawBook, log: &mut [u16], settings: Settings) -> u8 {
    library::kerb_version_3();
    unsafe { library::kerb_opening(book, log.as_mut_ptr(), log.len(), settings) }
}

pub fn link(book: &mut RawBook, log: &mut [u16], tick: u32, one: u16, other: u16) -> u8 {
    unsafe { library::kerb_link(book, log.as_mut_ptr(), log.len(), tick, one, other) }
}

pub fn clock(book: &mut RawBook, log: &[u16], tick: u32) -> u8 {
    unsafe { library::kerb_clock(book, log.as_ptr(), log.len(), tick) }
}

pub fn joined(book: &RawBook, one: u16, other: u16) -> JoinedAnswer {
    unsafe { library::kerb_joined(book, one, other) }
}

pub fn chain(book: &RawBook, log: &[u16], one: u16, other: u16, chain: &mut [u16]) -> ChainAnswer {
    let (places, len) = (chain.as_mut_ptr(), chain.len());
    unsafe { library::kerb_chain(book, log.as_ptr(), log.len(), one, other, places, len) }
}

pub fn read(file: &[u8]) -> ReadAnswer {
    unsafe { library::kerb_read(file.as_ptr(), file.len()) }
}

pub fn write(settings: Settings, records: &[u8], out: &mut [u8]) -> u8 {
    let (bytes, len) = (out.as_mut_ptr(), out.len());
    unsafe { library::kerb_write(settings, records.as_ptr(), records.len(), bytes, len) }
}

pub fn list(file: &[u8], out: &mut [u8]) -> ListAnswer {
    unsafe { library::kerb_list(file.as_ptr(), file.len(), out.as_mut_ptr(), out.len()) }
}

pub fn text_in(settings: Settings, text: &[u8], out: &mut [u8]) -> TextInAnswer {
    let (bytes, len) = (out.as_mut_ptr(), out.len());
    unsafe { library::kerb_text_in(settings, text.as_ptr(), text.len(), bytes, len) }
}

pub fn text_out(file: &[u8], out: &mut [u8]) -> TextOutAnswer {
    unsafe { library::kerb_text_out(file.as_ptr(), file.len(), out.as_mut_ptr(), out.len()) }
}

mod all {
    use super::*;

    pub fn version() -> u32 {
        library::kerb_version_3()
    }

    pub fn book_size() -> usize {
        library::kerb_book_size()
    }

    pub fn lorry_cell(mounting: u8, cell: u16) -> u16 {
        library::kerb_lorry_cell(mounting, cell)
    }

    pub fn unit_cell(mounting: u8, cell: u16) -> u16 {
        library::kerb_unit_cell(mounting, cell)
    }

    pub fn ring(cell: u16) -> u16 {
        library::kerb_ring(cell)
    }

    pub fn sector(cell: u16) -> u16 {
        library::kerb_sector(cell)
    }

    pub fn time(book: &RawBook) -> u32 {
        unsafe { library::kerb_time(book) }
    }

    pub fn open_slide(book: &RawBook) -> u64 {
        unsafe { library::kerb_open_slide(book) }
    }

    pub fn slide_ticks(book: &RawBook, slide: u64) -> SlideAnswer {
        unsafe { library::kerb_slide_ticks(book, slide) }
    }

    pub fn groups(
        book: &RawBook,
        log: &[u16],
        first: &mut [u16],
        size: &mut [u16],
        hold: &mut [u8],
    ) -> GroupsAnswer {
        unsafe {
            library::kerb_groups(
                book,
                log.as_ptr(),
                log.len(),
                first.as_mut_ptr(),
                first.len(),
                size.as_mut_ptr(),
                size.len(),
                hold.as_mut_ptr(),
                hold.len(),
            )
        }
    }

    pub fn lamps(book: &RawBook, log: &[u16], mask: &[u8]) -> LampsAnswer {
        let (bytes, len) = (mask.as_ptr(), mask.len());
        unsafe { library::kerb_lamps(book, log.as_ptr(), log.len(), bytes, len) }
    }

    pub fn play(book: &mut RawBook, log: &mut [u16], file: &[u8]) -> PlayAnswer {
        let (bytes, len) = (file.as_ptr(), file.len());
        unsafe { library::kerb_play(book, log.as_mut_ptr(), log.len(), bytes, len) }
    }

    pub fn pack(tick: u32, one: u16, other: u16, out: &mut [u8]) -> u8 {
        unsafe { library::kerb_pack(tick, one, other, out.as_mut_ptr(), out.len()) }
    }

    pub fn unpack(records: &[u8], i: u32) -> RecordAnswer {
        unsafe { library::kerb_unpack(records.as_ptr(), records.len(), i) }
    }
}

pub use all::*;

impl RawBook {
    /// All bytes of a book. None of them is undefined: the fields fill it, as the layout above says.
    pub const BYTES: usize = 9_312;

    /// The book's bytes, to be stored or compared.
    pub fn as_bytes(&self) -> &[u8; RawBook::BYTES] {
        unsafe { &*(self as *const RawBook).cast() }
    }

    /// The book that was stored as these bytes. Any bytes are some book; where it is not in order the calls give 1.
    pub fn from_bytes(bytes: &[u8; RawBook::BYTES]) -> RawBook {
        unsafe { core::mem::transmute_copy(bytes) }
    }
}
