//! Joined where neither forest alone decides. The quickest way known unites the steps of one forest with the groups of the other; the
//! other way is the library's, two functions that call each other (`crossing`).

use super::crossing::joined_across;
use super::forest::{Labelled, CELLS};
use super::scratch::Scratch;
use super::Peer;

impl<const CHECKED: bool, const BY_UNIONS: bool> Peer<CHECKED, BY_UNIONS> {
    pub fn across(&self, cut: u8, one: u16, other: u16) -> bool {
        if BY_UNIONS {
            return self.by_unions(cut, one, other);
        }
        // A cell that stands alone is spared the crossing.
        if self.alone(cut, one) || self.alone(cut, other) {
            return one == other;
        }
        joined_across(&self.backward, cut, &self.forward, one, other)
    }

    /// The forward groups, and each backward step that is taken as one link more.
    fn by_unions(&self, cut: u8, one: u16, other: u16) -> bool {
        let mut groups = Scratch::from(&self.forward.parent);
        for cell in 0..CELLS as u16 {
            let up = self.backward.parent_at(cut, cell);
            if up != cell {
                groups.unite(cell, up);
            }
        }
        groups.root(one) == groups.root(other)
    }

    /// Whether no parent step leaves or reaches the cell, in either forest: a pass for each with no way out, which takes several cells
    /// at a time.
    fn alone(&self, cut: u8, asked: u16) -> bool {
        let Labelled { forest, label } = &self.backward;
        let mut fine = true;
        for (cell, (&parent, &label)) in forest.parent.iter().zip(label).enumerate() {
            let is_asked = cell as u16 == asked;
            fine &= (label < cut) | ((parent == asked) == is_asked);
        }
        for (cell, &parent) in self.forward.parent.iter().enumerate() {
            fine &= (parent == asked) == (cell as u16 == asked);
        }
        fine
    }
}
