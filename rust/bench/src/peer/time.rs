//! The total, slides, chunks and places, and the step of time.

use super::forest::{Forest, Labelled, CELLS};
use super::scratch::Scratch;
use super::{Peer, LINKS, PLACES};
use crate::any_book::total_after;
use kerb::calls::Clock;

impl<const CHECKED: bool, const BY_UNIONS: bool> Peer<CHECKED, BY_UNIONS> {
    /// The total that a tick makes; none where it is number 4.
    pub fn total_at(&self, tick: u32) -> Option<u64> {
        let Clock { total, t0, .. } = self.clock;
        total_after(total, t0.wrapping_add(total as u32), tick)
    }

    pub fn slide(&self, total: u64) -> u64 {
        total / u64::from(self.clock.b)
    }

    pub fn open_slide(&self) -> u64 {
        self.slide(self.clock.total)
    }

    pub fn chunk(&self, slide: u64) -> u64 {
        slide / u64::from(self.clock.n)
    }

    pub fn place(&self, slide: u64) -> usize {
        (slide % u64::from(self.clock.n)) as usize
    }

    /// Where the links of a slide are counted and logged.
    pub fn spot(&self, slide: u64) -> usize {
        (self.chunk(slide) % 2) as usize * PLACES + self.place(slide)
    }

    /// The step of time: within a chunk nothing else changes; into the next chunk the backward forest is built from the chunk
    /// that ends; further, nothing is left.
    pub fn move_to(&mut self, total: u64) {
        let before = self.chunk(self.open_slide());
        let after = self.chunk(self.slide(total));
        self.clock.total = total;
        if after == before {
            return;
        }
        self.forward = Forest::fresh();
        self.backward = Labelled::fresh();
        if after == before + 1 {
            self.scan_chunk((before % 2) as usize);
            let half = (after % 2) as usize;
            self.counts[half * PLACES..][..PLACES].fill(0);
        } else {
            self.counts.fill(0);
        }
    }

    /// Places n - 1 down to 1 into the backward forest, in each place the last arrival first.
    fn scan_chunk(&mut self, half: usize) {
        let mut scratch = Scratch::fresh();
        for place in (1..self.clock.n).rev() {
            let spot = half * PLACES + usize::from(place);
            let start = 2 * usize::from(LINKS) * spot;
            let count = usize::from(self.counts[spot]);
            for pair in self.log[start..start + 2 * count].chunks_exact(2).rev() {
                if pair[0] < CELLS as u16 && pair[1] < CELLS as u16 {
                    self.backward
                        .unite_beside(&mut scratch, pair[0], pair[1], place);
                }
            }
        }
    }
}
