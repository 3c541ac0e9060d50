//! "Time, slides, window": opening, link and clock, and which links are meant.

use crate::cells::{both_are_cells, both_touch, in_lorrys_numbers, MIRRORED, PLAIN};
use crate::refusal::{refuse_if, Refusal};
use crate::ticks::{steps_to, tick_after, MOST_TOTAL};

/// The log needs this many 16-bit places.
pub const LOG_PLACES: usize = 16_384;
/// Each slide takes at most this many links.
pub const LINKS_PER_SLIDE: usize = 256;

/// What a book opens with. Kept wider than needed so that values outside the
/// stated ones can be named too.
#[derive(Clone, Copy, Debug, Default, PartialEq, Eq, Hash)]
pub struct Settings {
    /// Window width n in slides, 1 to 16.
    pub n: u32,
    /// Slide length B in ticks, 1 to 4,294,967,295.
    pub b: u32,
    /// Mounting, 1 or 2; 0 means that it was never set.
    pub mounting: u32,
    /// First tick.
    pub t0: u32,
}

impl Settings {
    /// Number 2: n, B or mounting outside the values above.
    pub fn check(&self) -> Result<(), Refusal> {
        let n_is_good = (1..=16).contains(&self.n);
        let b_is_good = self.b >= 1;
        let mounting_is_good = self.mounting == PLAIN || self.mounting == MIRRORED;
        refuse_if(
            !(n_is_good && b_is_good && mounting_is_good),
            Refusal::Settings,
        )
    }

    /// Slide of a tick = the total that it makes div B. So the tick alone does not
    /// tell it.
    pub fn slide_of(&self, total: u128) -> u64 {
        u64::try_from(total / u128::from(self.b)).expect("a total that has not run out")
    }
}

/// An accepted link, in the lorry's numbers, with the slide it was logged in.
#[derive(Clone, Copy, Debug, PartialEq, Eq)]
pub struct Link {
    pub slide: u64,
    pub a: u32,
    pub b: u32,
}

/// Everything since the last opening that was done.
#[derive(Clone, Debug, PartialEq, Eq)]
pub struct History {
    pub settings: Settings,
    /// The latest tick that was taken; T0 before any was.
    pub time: u32,
    /// The steps of all ticks that were taken, added up.
    pub total: u128,
    /// All accepted links in order of arrival. Their slides never fall, since
    /// the total never does.
    pub links: Vec<Link>,
}

/// The book; one that was never opened has no history.
#[derive(Clone, Debug, Default, PartialEq, Eq)]
pub struct Book {
    pub history: Option<History>,
}

/// Number 6: a lent buffer is too short.
pub(crate) fn long_enough(places: usize, needed: usize) -> Result<(), Refusal> {
    refuse_if(places < needed, Refusal::Buffer)
}

impl Book {
    /// A book that was never opened.
    pub fn new() -> Book {
        Book::default()
    }

    /// Opening: 2, 6. A refused one leaves the old history going on.
    pub fn opening(&mut self, settings: Settings, log_places: usize) -> Result<(), Refusal> {
        settings.check()?;
        long_enough(log_places, LOG_PLACES)?;
        self.history = Some(History {
            settings,
            time: settings.t0,
            total: 0,
            links: Vec::new(),
        });
        Ok(())
    }

    /// Link: 1, 6, 3, 14, 4, 5. The cells come in the unit's numbers. Nothing at
    /// all changes before the last check, so a refused link moves no time.
    pub fn link(&mut self, tick: u32, a: u32, b: u32, log_places: usize) -> Result<(), Refusal> {
        let history = self.history.as_mut().ok_or(Refusal::NeverOpened)?;
        long_enough(log_places, LOG_PLACES)?;
        both_are_cells(a, b)?;
        both_touch(a, b)?;
        let total = history.total_at(tick)?;
        let slide = history.settings.slide_of(total);
        history.has_room(slide)?;

        let mounting = history.settings.mounting;
        history.move_to(tick, total);
        history.links.push(Link {
            slide,
            a: in_lorrys_numbers(a, mounting),
            b: in_lorrys_numbers(b, mounting),
        });
        Ok(())
    }

    /// Clock: 1, 6, 4. Moves the time and logs nothing.
    pub fn clock(&mut self, tick: u32, log_places: usize) -> Result<(), Refusal> {
        let history = self.history.as_mut().ok_or(Refusal::NeverOpened)?;
        long_enough(log_places, LOG_PLACES)?;
        let total = history.total_at(tick)?;
        history.move_to(tick, total);
        Ok(())
    }

    /// Number 1: the book was never opened.
    pub(crate) fn opened(&self) -> Result<&History, Refusal> {
        self.history.as_ref().ok_or(Refusal::NeverOpened)
    }
}

impl History {
    /// A history without links at a total that calls need not have made: what
    /// altered books and the last totals of all are compared with.
    pub fn at_total(settings: Settings, total: u128) -> History {
        History {
            settings,
            time: tick_after(settings.t0, total),
            total,
            links: Vec::new(),
        }
    }

    /// The total that a tick makes. Number 4: the tick is not later than the book's
    /// time or equal to it, or the total would run out.
    pub fn total_at(&self, tick: u32) -> Result<u128, Refusal> {
        let steps = steps_to(self.time, tick).ok_or(Refusal::Tick)?;
        let total = self.total + steps;
        refuse_if(total > MOST_TOTAL, Refusal::Tick)?;
        Ok(total)
    }

    fn move_to(&mut self, tick: u32, total: u128) {
        self.time = tick;
        self.total = total;
    }

    /// Number 5: the link's slide already holds 256.
    fn has_room(&self, slide: u64) -> Result<(), Refusal> {
        let held = self.links_of_slides(slide, slide).len();
        refuse_if(held >= LINKS_PER_SLIDE, Refusal::SlideFull)
    }

    /// The window width n.
    pub fn n(&self) -> u64 {
        u64::from(self.settings.n)
    }

    /// The open slide k is the slide of the latest tick.
    pub fn open_slide(&self) -> u64 {
        self.settings.slide_of(self.total)
    }

    /// The first slide of the window: the open slide and the n - 1 slides
    /// before it, as far as they exist. (Not n slides before it.)
    pub fn oldest_slide(&self) -> u64 {
        self.open_slide().saturating_sub(self.n() - 1)
    }

    /// The links of the window, repeats and all, in order of arrival.
    pub fn window(&self) -> &[Link] {
        self.links_of_slides(self.oldest_slide(), self.open_slide())
    }

    /// The links of slides `first` to `last`, both included. One stretch of
    /// the list, since its slides never fall.
    pub fn links_of_slides(&self, first: u64, last: u64) -> &[Link] {
        let start = self.links.partition_point(|link| link.slide < first);
        let end = self.links.partition_point(|link| link.slide <= last);
        &self.links[start..end]
    }
}
