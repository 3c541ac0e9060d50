//! The window as a plain queue of links, for the baselines that keep nothing else: (c) and (d).

use crate::any_book::{lorry_cell, total_after, touch};
use kerb::Settings;
use std::collections::VecDeque;

pub const CELLS: usize = 1024;
const MOST_LINKS_OF_A_SLIDE: usize = 256;

/// A link in the lorry's numbers.
#[derive(Clone, Copy)]
pub struct Link {
    pub slide: u64,
    pub one: u16,
    pub other: u16,
}

/// The links of the window's slides, oldest first.
pub struct Window {
    settings: Settings,
    time: u32,
    total: u64,
    links: VecDeque<Link>,
    /// Links of the open slide.
    stored: usize,
}

impl Window {
    pub fn opened(settings: Settings) -> Window {
        Window {
            settings,
            time: settings.t0,
            total: 0,
            links: VecDeque::with_capacity(16 * MOST_LINKS_OF_A_SLIDE),
            stored: 0,
        }
    }

    pub fn n(&self) -> u64 {
        u64::from(self.settings.n)
    }

    fn slide(&self, total: u64) -> u64 {
        total / u64::from(self.settings.b)
    }

    pub fn open_slide(&self) -> u64 {
        self.slide(self.total)
    }

    /// The total that a link's tick makes, or the number of the link call, number 1 aside.
    pub fn judge_link(&self, tick: u32, one: u16, other: u16) -> Result<u64, u8> {
        if !are_cells(one, other) {
            return Err(3);
        }
        if !touch(one, other) {
            return Err(14);
        }
        let total = self.judge_clock(tick)?;
        if self.slide(total) == self.open_slide() && self.stored == MOST_LINKS_OF_A_SLIDE {
            return Err(5);
        }
        Ok(total)
    }

    /// The total that a tick makes, or the number of the clock call, number 1 aside.
    pub fn judge_clock(&self, tick: u32) -> Result<u64, u8> {
        total_after(self.total, self.time, tick).ok_or(4)
    }

    /// Moves the time and drops what is no longer in the window; says whether the window has slid.
    pub fn move_to(&mut self, tick: u32, total: u64) -> bool {
        let before = self.open_slide();
        self.time = tick;
        self.total = total;
        let open = self.open_slide();
        if open == before {
            return false;
        }
        self.stored = 0;
        while self
            .links
            .front()
            .is_some_and(|link| link.slide + self.n() <= open)
        {
            self.links.pop_front();
        }
        true
    }

    /// Stores a link of two of the unit's cells in the open slide.
    pub fn store(&mut self, one: u16, other: u16) -> Link {
        let mounting = self.settings.mounting.number();
        let link = Link {
            slide: self.open_slide(),
            one: lorry_cell(mounting, one),
            other: lorry_cell(mounting, other),
        };
        self.links.push_back(link);
        self.stored += 1;
        link
    }

    pub fn links(&self) -> impl DoubleEndedIterator<Item = &Link> {
        self.links.iter()
    }
}

pub fn are_cells(one: u16, other: u16) -> bool {
    usize::from(one) < CELLS && usize::from(other) < CELLS
}
