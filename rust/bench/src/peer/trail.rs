//! L: the links, newest slide first, into groups in scratch memory, until the two cells are in one; nothing older is looked at. The chain
//! over the links from L on is written by `neighbours`.

use super::forest::CELLS;
use super::scratch::Scratch;
use super::{Peer, LINKS};

/// A link's two cells.
type Link = (u16, u16);

impl<const CHECKED: bool, const BY_UNIONS: bool> Peer<CHECKED, BY_UNIONS> {
    /// L, and the links from it on, where the window's links chain the two cells.
    pub fn newest(&self, one: u16, other: u16) -> Option<(u64, Vec<Link>)> {
        let open = self.open_slide();
        let mut links = Vec::with_capacity(4096);
        if one == other {
            return Some((open + 1, links));
        }
        let mut groups = Scratch::fresh();
        let (mut root_of_one, mut root_of_other) = (one, other);
        for slide in self.window_slides() {
            let older = links.len();
            links.extend(self.links(slide));
            for &(a, b) in &links[older..] {
                if let Some(united) = groups.unite(a, b) {
                    root_of_one = united.root_after(root_of_one);
                    root_of_other = united.root_after(root_of_other);
                    if root_of_one == root_of_other {
                        return Some((slide, links));
                    }
                }
            }
        }
        None
    }

    /// The slides of the window, newest first.
    pub fn window_slides(&self) -> impl Iterator<Item = u64> {
        let open = self.open_slide();
        (0..u64::from(self.clock.n).min(open + 1)).map(move |age| open - age)
    }

    /// The links of a slide. A pair of the log with an entry that is no cell is no link.
    pub fn links(&self, slide: u64) -> impl Iterator<Item = Link> + '_ {
        let spot = self.spot(slide);
        let start = 2 * usize::from(LINKS) * spot;
        self.log[start..start + 2 * usize::from(self.counts[spot])]
            .chunks_exact(2)
            .map(|pair| (pair[0], pair[1]))
            .filter(|&(a, b)| a < CELLS as u16 && b < CELLS as u16)
    }
}
