//! Groups of cells in scratch memory: parents may be shortened, which the book's own forests never are.

use super::forest::CELLS;

pub struct Scratch {
    parent: [u16; CELLS],
}

/// A root that went under another.
pub struct United {
    pub child: u16,
    pub top: u16,
}

impl United {
    /// The root of the group whose root it was.
    pub fn root_after(&self, root: u16) -> u16 {
        if root == self.child {
            self.top
        } else {
            root
        }
    }
}

impl Scratch {
    /// Each cell by itself.
    pub fn fresh() -> Scratch {
        Scratch::from(&std::array::from_fn(|cell| cell as u16))
    }

    /// The groups of a forest's trees, to begin with by its own parents.
    pub fn from(parent: &[u16; CELLS]) -> Scratch {
        Scratch { parent: *parent }
    }

    /// The root of a cell's group; on the way each second parent is shortened. Two parents are read ahead, and the numbers of cells are
    /// brought below `CELLS`, where they are anyway: so no step tests an index.
    pub fn root(&mut self, cell: u16) -> u16 {
        let mut at = cell;
        let mut above = self.above(at);
        let mut top = self.above(above);
        while top != above {
            self.put_under(at, top);
            at = top;
            above = self.above(at);
            top = self.above(above);
        }
        above
    }

    fn above(&self, cell: u16) -> u16 {
        self.parent[usize::from(cell) % CELLS]
    }

    /// Puts one cell under another.
    pub fn put_under(&mut self, child: u16, top: u16) {
        self.parent[usize::from(child) % CELLS] = top;
    }

    /// Makes one group of two cells' groups: the larger root goes under the smaller, so that a root is its group's smallest cell. Gives
    /// the two where they were two.
    pub fn unite(&mut self, one: u16, other: u16) -> Option<United> {
        let one = self.root(one);
        let other = self.root(other);
        if one == other {
            return None;
        }
        let (child, top) = (one.max(other), one.min(other));
        self.put_under(child, top);
        Some(United { child, top })
    }
}
