//! The book that owns its log.

use crate::calls::RawBook;
use crate::{Chain, Joined, Lamps, LorryCell, Refusal, Settings, SlideTicks, UnitCell};
use crate::{CHAIN_PLACES, LOG_PLACES};
use alloc::boxed::Box;
use alloc::vec;
use alloc::vec::Vec;

/// A book and the log that belongs to it: they cannot be mismatched, and none is without a mounting.
///
/// Cells of links are in the unit's numbers, cells of questions in the lorry's. A call gives `Ok` with its result, or `Err` with
/// the refusal, and then nothing has changed. What a call takes of the stack is the calling thread's: 128 KB at most.
///
/// ```
/// use kerb::{Book, LorryCell, Mounting, Refusal, Settings, UnitCell};
///
/// let mut book = Book::open(Settings { t0: 0, b: 10, n: 3, mounting: Mounting::Plain })?;
/// book.link(20, UnitCell(3), UnitCell(4))?;
/// book.link(30, UnitCell(4), UnitCell(5))?;
/// assert!(book.joined(LorryCell(3), LorryCell(5))?.yes);
///
/// let (why, cells) = book.why(LorryCell(3), LorryCell(5))?;
/// assert_eq!(cells, [LorryCell(3), LorryCell(4), LorryCell(5)]);
/// assert_eq!((why.newest, why.hold), (2, 1));
///
/// assert_eq!(book.clock(29), Err(Refusal::Early));
/// # Ok::<(), Refusal>(())
/// ```
///
/// The counter passes its end. Links from before it and after it are one window, and the same tick is in another slide by then:
///
/// ```
/// # use kerb::{Book, LorryCell, Mounting, Refusal, Settings, SlideTicks, UnitCell};
/// let mut book = Book::open(Settings { t0: 4294967290, b: 10, n: 3, mounting: Mounting::Plain })?;
/// book.link(4294967295, UnitCell(3), UnitCell(4))?;
/// book.link(4, UnitCell(4), UnitCell(5))?;
/// assert_eq!((book.time(), book.total(), book.open_slide()), (4, 10, 1));
/// assert_eq!(book.why(LorryCell(3), LorryCell(5))?.0.newest, 0);
/// let over_the_end = SlideTicks { first_total: 0, last_total: 9, first: 4294967290, last: 3 };
/// assert_eq!(book.slide_ticks(0), Some(over_the_end));
///
/// // a call goes at most 2147483647 ticks ahead
/// assert_eq!(book.clock(2147483652), Err(Refusal::Early));
/// for tick in [2147483651, 4294967295, 4] {
///     book.clock(tick)?;
/// }
/// assert_eq!((book.time(), book.total(), book.open_slide()), (4, 4294967306, 429496730));
/// # Ok::<(), Refusal>(())
/// ```
#[derive(Clone, Debug, PartialEq, Eq)]
pub struct Book {
    raw: Box<RawBook>,
    log: Box<[u16]>,
}

impl Book {
    /// A book with a fresh history. Refuses n outside 1 to 16, and B 0.
    ///
    /// ```
    /// use kerb::{Book, Mounting, Refusal, Settings};
    ///
    /// let settings = Settings { t0: 0, b: 10, n: 17, mounting: Mounting::Plain };
    /// assert_eq!(Book::open(settings), Err(Refusal::Settings));
    /// ```
    pub fn open(settings: Settings) -> Result<Book, Refusal> {
        let mut book = Book {
            raw: Box::new(RawBook::never_opened()),
            log: vec![0; LOG_PLACES].into_boxed_slice(),
        };
        book.reopen(settings)?;
        Ok(book)
    }

    /// A fresh history. Where it is refused the old one goes on.
    pub fn reopen(&mut self, settings: Settings) -> Result<(), Refusal> {
        self.raw.opening(&mut self.log, settings)
    }

    /// The book and the log that were stored: `raw` and `log` of another book. Refuses a log that is too short, and a book that
    /// is not in order. Whether the two belong together nobody can see. One that was stored before 0.3.0 has another size and layout:
    /// it is to be opened anew.
    pub fn stored(raw: RawBook, log: Vec<u16>) -> Result<Book, Refusal> {
        if log.len() < LOG_PLACES {
            return Err(Refusal::Short);
        }
        raw.joined(LorryCell(0), LorryCell(0))?;
        Ok(Book {
            raw: Box::new(raw),
            log: log.into_boxed_slice(),
        })
    }

    /// A link of two cells that touch, at a tick. It is stored in the slide of the total that the tick makes.
    ///
    /// ```
    /// # use kerb::{Book, Mounting, Refusal, Settings, UnitCell};
    /// # let settings = Settings { t0: 0, b: 10, n: 3, mounting: Mounting::Plain };
    /// let mut book = Book::open(settings)?;
    /// book.link(20, UnitCell(63), UnitCell(64))?;
    /// assert_eq!(book.link(20, UnitCell(0), UnitCell(960)), Err(Refusal::Apart));
    /// # Ok::<(), Refusal>(())
    /// ```
    pub fn link(&mut self, tick: u32, one: UnitCell, other: UnitCell) -> Result<(), Refusal> {
        self.raw.link(&mut self.log, tick, one, other)
    }

    /// The time moves to the tick, and nothing is logged. To be called at least once a day.
    pub fn clock(&mut self, tick: u32) -> Result<(), Refusal> {
        self.raw.clock(&self.log, tick)
    }

    /// Whether links of the window join the two cells.
    pub fn joined(&self, one: LorryCell, other: LorryCell) -> Result<Joined, Refusal> {
        self.raw.joined(one, other)
    }

    /// Why the two are joined, and for how long; the chain goes to the front of the buffer, in the lorry's numbers.
    pub fn chain(
        &self,
        one: LorryCell,
        other: LorryCell,
        buffer: &mut [u16],
    ) -> Result<Chain, Refusal> {
        self.raw.chain(&self.log, one, other, buffer)
    }

    /// The same, with the chain in a vector of its own.
    pub fn why(
        &self,
        one: LorryCell,
        other: LorryCell,
    ) -> Result<(Chain, Vec<LorryCell>), Refusal> {
        let mut buffer = vec![0; CHAIN_PLACES];
        let chain = self.chain(one, other, &mut buffer)?;
        let cells = buffer[..usize::from(chain.cells)].iter();
        Ok((chain, cells.map(|&cell| LorryCell(cell)).collect()))
    }

    /// The two lamps by a body mask, a byte for each cell in the lorry's numbers: 1 for the lorry's own bodywork, 0 for any other.
    ///
    /// ```
    /// # use kerb::{Book, Mounting, Settings, UnitCell, CELLS};
    /// use kerb::{LorryCell, Refusal};
    ///
    /// # let settings = Settings { t0: 0, b: 10, n: 3, mounting: Mounting::Plain };
    /// let mut book = Book::open(settings)?;
    /// // a walker beside the tail lift, which is cell 96, dead astern, and one link that ties the two
    /// book.link(0, UnitCell(95), UnitCell(96))?;
    /// book.link(0, UnitCell(94), UnitCell(95))?;
    /// let mut lift = [0; CELLS];
    /// lift[96] = 1;
    /// assert_eq!(book.lamps(&lift)?.right, None);
    ///
    /// // seen again without the lift, once the old link has left the window
    /// book.link(30, UnitCell(94), UnitCell(95))?;
    /// assert_eq!(book.lamps(&lift)?.right, Some(LorryCell(94)));
    ///
    /// assert_eq!(book.lamps(&lift[1..]), Err(Refusal::Mask));
    /// # Ok::<(), Refusal>(())
    /// ```
    pub fn lamps(&self, mask: &[u8]) -> Result<Lamps, Refusal> {
        self.raw.lamps(&self.log, mask)
    }

    /// The book's fields, to be stored or compared.
    pub fn raw(&self) -> &RawBook {
        &self.raw
    }

    /// The places of the log.
    pub fn log(&self) -> &[u16] {
        &self.log
    }
}

/// A group of cells that links of the window chain together.
#[derive(Clone, Copy, Debug, PartialEq, Eq)]
pub struct Group {
    /// Its smallest cell.
    pub first: LorryCell,
    /// How many cells it has.
    pub size: u16,
    /// For how many further closings any two of its cells stay joined; n, read as "always", for a cell alone.
    pub hold: u8,
}

/// The groups of a window.
#[derive(Clone, Debug, PartialEq, Eq)]
pub struct Groups {
    first: Vec<u16>,
    size: Vec<u16>,
    hold: Vec<u8>,
    links: u32,
}

impl Groups {
    /// How many links the window holds, repeats counted.
    pub fn links(&self) -> u32 {
        self.links
    }

    /// The group of a cell, if only itself; none for a number that is no cell.
    pub fn of(&self, cell: LorryCell) -> Option<Group> {
        let place = usize::from(cell.0);
        Some(Group {
            first: LorryCell(*self.first.get(place)?),
            size: self.size[place],
            hold: self.hold[place],
        })
    }

    /// The groups of two cells or more, by smallest cell.
    pub fn iter(&self) -> impl Iterator<Item = Group> + '_ {
        let of_cells =
            (0..crate::CELLS as u16).filter_map(|cell| Some((cell, self.of(LorryCell(cell))?)));
        of_cells
            .filter(|(cell, group)| group.first.0 == *cell && group.size >= 2)
            .map(|(_, group)| group)
    }
}

impl Book {
    /// A book with a link file's settings, and the file played into it.
    ///
    /// ```
    /// use kerb::{pack, write, Book, LorryCell, Mounting, Settings, UnitCell};
    ///
    /// let records = [pack(0, UnitCell(1), UnitCell(2)), pack(7, UnitCell(2), UnitCell(3))].concat();
    /// let mut file = vec![0; records.len() + 24];
    /// let settings = Settings { t0: 0, b: 10, n: 3, mounting: Mounting::Plain };
    /// write(settings, &records, &mut file)?;
    ///
    /// let book = Book::of_file(&file)?;
    /// assert_eq!((book.time(), book.total(), book.open_slide()), (7, 7, 0));
    /// let groups = book.groups()?;
    /// assert_eq!(groups.links(), 2);
    /// let group = groups.iter().next().unwrap();
    /// assert_eq!((group.first, group.size, group.hold), (LorryCell(1), 3, 2));
    /// # Ok::<(), Box<dyn std::error::Error>>(())
    /// ```
    pub fn of_file(file: &[u8]) -> Result<Book, crate::Stopped> {
        let at_first = |refusal| crate::Stopped { taken: 0, refusal };
        let (settings, _) = crate::read(file).map_err(at_first)?;
        let mut book = Book::open(settings).map_err(at_first)?;
        book.play(file)?;
        Ok(book)
    }

    /// The records of a link file, one after the other, each by the link call; gives how many. Does not open the book, and keeps
    /// the records before one that is refused.
    pub fn play(&mut self, file: &[u8]) -> Result<u32, crate::Stopped> {
        self.raw.play(&mut self.log, file)
    }

    /// The groups of the window.
    pub fn groups(&self) -> Result<Groups, Refusal> {
        let mut groups = Groups {
            first: vec![0; crate::CELLS],
            size: vec![0; crate::CELLS],
            hold: vec![0; crate::CELLS],
            links: 0,
        };
        groups.links = self.raw.groups(
            &self.log,
            &mut groups.first,
            &mut groups.size,
            &mut groups.hold,
        )?;
        Ok(groups)
    }

    /// The book's time, the latest tick that it has taken: T0 and the total, as the counter goes.
    pub fn time(&self) -> u32 {
        self.raw.time()
    }

    /// How many ticks have passed since T0, each pass of the counter's end counted.
    pub fn total(&self) -> u64 {
        self.raw.total()
    }

    /// The open slide, that of the total.
    pub fn open_slide(&self) -> u64 {
        self.raw.open_slide()
    }

    /// The totals and the ticks of a slide; none where no total reaches it.
    pub fn slide_ticks(&self, slide: u64) -> Option<SlideTicks> {
        self.raw.slide_ticks(slide)
    }
}
