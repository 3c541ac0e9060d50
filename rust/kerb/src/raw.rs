//! The book that is lent its log at every call.

use crate::calls::{self, RawBook};
use crate::{Chain, Joined, Lamps, LorryCell, Refusal, Settings, SlideTicks, UnitCell};

/// ```
/// use kerb::{LorryCell, Mounting, RawBook, Refusal, Settings, UnitCell, CHAIN_PLACES, LOG_PLACES};
///
/// let mut book = RawBook::never_opened();
/// let mut log = [0; LOG_PLACES];
/// let mut buffer = [0; CHAIN_PLACES];
/// let refused = book.link(&mut log, 0, UnitCell(1), UnitCell(2));
/// assert_eq!(refused, Err(Refusal::NoBook));
///
/// let settings = Settings { t0: 0, b: 10, n: 3, mounting: Mounting::Plain };
/// book.opening(&mut log, settings)?;
/// book.link(&mut log, 20, UnitCell(3), UnitCell(4))?;
/// let why = book.chain(&log, LorryCell(3), LorryCell(4), &mut buffer)?;
/// assert_eq!(buffer[..why.cells as usize], [3, 4]);
/// # Ok::<(), Refusal>(())
/// ```
impl RawBook {
    /// A book that was never opened: the calls that ask whether a book is in order refuse it.
    pub fn never_opened() -> RawBook {
        calls::never_opened()
    }

    /// A fresh history, whatever the book was.
    pub fn opening(&mut self, log: &mut [u16], settings: Settings) -> Result<(), Refusal> {
        Refusal::unless_done(calls::opening(self, log, settings.raw()))
    }

    /// A link of two cells that touch, at a tick. It is stored in the slide of the total that the tick makes.
    pub fn link(
        &mut self,
        log: &mut [u16],
        tick: u32,
        one: UnitCell,
        other: UnitCell,
    ) -> Result<(), Refusal> {
        Refusal::unless_done(calls::link(self, log, tick, one.0, other.0))
    }

    /// The time moves to the tick, and nothing is logged. To be called at least once a day.
    pub fn clock(&mut self, log: &[u16], tick: u32) -> Result<(), Refusal> {
        Refusal::unless_done(calls::clock(self, log, tick))
    }

    /// Whether links of the window join the two cells.
    pub fn joined(&self, one: LorryCell, other: LorryCell) -> Result<Joined, Refusal> {
        let answer = calls::joined(self, one.0, other.0);
        Refusal::unless_done(answer.number)?;
        Ok(Joined {
            yes: answer.yes,
            steps: answer.steps,
        })
    }

    /// Why the two are joined, and for how long; the chain goes to the front of the buffer, in the lorry's numbers.
    pub fn chain(
        &self,
        log: &[u16],
        one: LorryCell,
        other: LorryCell,
        buffer: &mut [u16],
    ) -> Result<Chain, Refusal> {
        let answer = calls::chain(self, log, one.0, other.0, buffer);
        Refusal::unless_done(answer.number)?;
        Ok(Chain {
            newest: answer.newest,
            hold: answer.hold,
            cells: answer.cells,
        })
    }
}

impl RawBook {
    /// The book's time, the latest tick that it has taken: T0 and the total, as the counter goes. 0 for a book that was never opened.
    pub fn time(&self) -> u32 {
        calls::time(self)
    }

    /// How many ticks have passed since T0, each pass of the counter's end counted.
    pub fn total(&self) -> u64 {
        self.clock.total
    }

    /// The open slide, that of the total.
    pub fn open_slide(&self) -> u64 {
        calls::open_slide(self)
    }

    /// The totals and the ticks of a slide; none where no total reaches it.
    pub fn slide_ticks(&self, slide: u64) -> Option<SlideTicks> {
        let answer = calls::slide_ticks(self, slide);
        answer.exists.then_some(SlideTicks {
            first_total: answer.first_total,
            last_total: answer.last_total,
            first: answer.first,
            last: answer.last,
        })
    }

    /// Of each cell its group's smallest cell, number of cells and least hold, at the cell's place of the three buffers, each
    /// of `CELLS` places or more; gives how many links the window holds.
    pub fn groups(
        &self,
        log: &[u16],
        first: &mut [u16],
        size: &mut [u16],
        hold: &mut [u8],
    ) -> Result<u32, Refusal> {
        let answer = calls::groups(self, log, first, size, hold);
        Refusal::unless_done(answer.number)?;
        Ok(answer.links)
    }

    /// The two lamps by a body mask, a byte for each cell in the lorry's numbers: 1 for the lorry's own bodywork, 0 for any other.
    /// Bytes from `CELLS` on are not looked at.
    pub fn lamps(&self, log: &[u16], mask: &[u8]) -> Result<Lamps, Refusal> {
        let answer = calls::lamps(self, log, mask);
        Refusal::unless_done(answer.number)?;
        Ok(Lamps {
            left: answer.left.then_some(LorryCell(answer.left_cell)),
            right: answer.right.then_some(LorryCell(answer.right_cell)),
        })
    }

    /// The records of a link file, one after the other, each by the link call; gives how many.
    pub fn play(&mut self, log: &mut [u16], file: &[u8]) -> Result<u32, crate::Stopped> {
        let answer = calls::play(self, log, file);
        let stopped = |refusal| crate::Stopped {
            taken: answer.taken,
            refusal,
        };
        Refusal::unless_done(answer.number).map_err(stopped)?;
        Ok(answer.taken)
    }
}
