//! The lamps: one pass over the window's links, newest slide first, into groups in scratch memory, with their ends marked on the way; then the
//! groups of the bodywork are marked, and each zone is gone through from its smallest cell up.

use super::forest::CELLS;
use super::scratch::Scratch;
use super::Peer;
use crate::any_book::lamps_by;
use kerb::calls::LampsAnswer;

impl<const CHECKED: bool, const BY_UNIONS: bool> Peer<CHECKED, BY_UNIONS> {
    pub fn lit(&self, body: &[u8; CELLS]) -> LampsAnswer {
        let mut groups = Scratch::fresh();
        let mut is_end = [false; CELLS];
        for slide in self.window_slides() {
            for (one, other) in self.links(slide) {
                is_end[usize::from(one)] = true;
                is_end[usize::from(other)] = true;
                groups.unite(one, other);
            }
        }
        let mut dark = [false; CELLS];
        for cell in 0..CELLS {
            if body[cell] == 1 {
                dark[usize::from(groups.root(cell as u16))] = true;
            }
        }
        lamps_by(|cell| is_end[usize::from(cell)] && !dark[usize::from(groups.root(cell))])
    }
}
