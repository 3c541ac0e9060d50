//! "Chain and hold".

use crate::book::{long_enough, Book, History, LOG_PLACES};
use crate::cells::both_are_cells;
use crate::refusal::Refusal;
use crate::search::Linked;

/// The chain buffer needs this many 16-bit places.
pub const CHAIN_PLACES: usize = 1_024;

/// The chain answer; the chain itself is in the lent buffer.
#[derive(Clone, Copy, Debug, Default, PartialEq, Eq)]
pub struct Chain {
    /// L, the largest slide such that links of slides L to k chain the two;
    /// k + 1 for a cell and itself.
    pub l: u64,
    pub hold: u32,
    /// Number of cells.
    pub cells: u32,
}

impl Book {
    /// Chain: 1, 6, 3, 7. The cells are in the lorry's numbers. The chain is
    /// written to the front of the lent buffer; later places keep what they
    /// had, and a refusal writes nothing. Number 6 is for either buffer, the
    /// log or that of the chain.
    pub fn chain(
        &self,
        first: u32,
        second: u32,
        log_places: usize,
        lent: &mut [u16],
    ) -> Result<Chain, Refusal> {
        let history = self.opened()?;
        long_enough(log_places, LOG_PLACES)?;
        long_enough(lent.len(), CHAIN_PLACES)?;
        both_are_cells(first, second)?;
        let (l, cells) = history.trail(first, second).ok_or(Refusal::NoTrail)?;

        // A chain with the fewest links meets no cell twice: the buffer has room.
        for (place, &cell) in lent[..cells.len()].iter_mut().zip(&cells) {
            *place = cell as u16;
        }
        Ok(Chain {
            l,
            hold: history.hold(l),
            cells: cells.len() as u32,
        })
    }
}

impl History {
    /// L and the chain from the first to the second cell, if there is one.
    fn trail(&self, first: u32, second: u32) -> Option<(u64, Vec<u32>)> {
        if first == second {
            return Some((self.open_slide() + 1, vec![first]));
        }
        let chained = |linked: &Linked| linked.group_of(first).contains(second);
        let (l, linked) = self.largest_slide(chained)?;
        Some((l, first_shortest_chain(&linked, first, second)))
    }

    /// The largest slide L of the window such that the links of slides L to k
    /// do what is asked, found by trying slides from k downwards; with it, what
    /// those links link.
    pub(crate) fn largest_slide(&self, done: impl Fn(&Linked) -> bool) -> Option<(u64, Linked)> {
        let mut linked = Linked::by_nothing();
        for l in (self.oldest_slide()..=self.open_slide()).rev() {
            linked.add(self.links_of_slides(l, l));
            if done(&linked) {
                return Some((l, linked));
            }
        }
        None
    }

    /// Hold = L + n - 1 - k.
    pub(crate) fn hold(&self, l: u64) -> u32 {
        (l + self.n() - 1 - self.open_slide()) as u32
    }
}

/// Of the chains with the fewest links the one whose cell numbers come first
/// when compared from the start: from the first cell on, always the smallest
/// linked cell that is one link nearer to the second. The two must be joined.
fn first_shortest_chain(linked: &Linked, first: u32, second: u32) -> Vec<u32> {
    let to_go = linked.fewest_links_from(second);
    let mut chain = vec![first];
    let mut at = first;
    while at != second {
        let nearer = to_go[at as usize].map(|links| links - 1);
        at = linked
            .with(at)
            .cells()
            .find(|&cell| to_go[cell as usize] == nearer)
            .expect("a joined cell has a neighbour one link nearer");
        chain.push(at);
    }
    chain
}
