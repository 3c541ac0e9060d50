//! The forests in arrays, and number 1 (RULES 7.8) for one forest.

use super::scratch::Scratch;

pub const CELLS: usize = 1024;
/// No walk may exceed this many steps.
const MOST_STEPS: usize = 10;

/// Where a walk ends, and its parent steps.
pub struct Walk {
    pub root: u16,
    pub steps: u8,
}

/// Parents are never shortened; a root is its own parent.
pub struct Forest {
    pub parent: [u16; CELLS],
    size: [u16; CELLS],
}

impl Forest {
    /// Each cell its own root, of size 1.
    pub fn fresh() -> Forest {
        let mut parent = [0; CELLS];
        for (cell, parent) in parent.iter_mut().enumerate() {
            *parent = cell as u16;
        }
        Forest {
            parent,
            size: [1; CELLS],
        }
    }

    pub fn walk(&self, cell: u16) -> Walk {
        let (mut root, mut steps) = (cell, 0);
        loop {
            let next = self.parent[usize::from(root)];
            if next == root {
                return Walk { root, steps };
            }
            root = next;
            steps += 1;
        }
    }

    /// One link more.
    pub fn unite(&mut self, one: u16, other: u16) {
        let one = self.walk(one).root;
        let other = self.walk(other).root;
        if one != other {
            self.unite_roots(one, other);
        }
    }

    /// The root of the smaller tree goes under the other, on equal sizes the larger number. Gives that root and its new parent.
    fn unite_roots(&mut self, one: u16, other: u16) -> (u16, u16) {
        let size = |cell: u16| self.size[usize::from(cell)];
        let one_goes_under = (size(one), other) < (size(other), one);
        let (child, top) = if one_goes_under {
            (one, other)
        } else {
            (other, one)
        };
        self.parent[usize::from(child)] = top;
        self.size[usize::from(top)] += self.size[usize::from(child)];
        (child, top)
    }

    /// Number 1 for one forest: its arrays are within their ranges and no walk exceeds its steps. Where each step doubles a size
    /// no walk does; only elsewhere are the walks taken.
    pub fn is_sound(&self) -> bool {
        let cells = CELLS as u16;
        every(&self.parent, |parent| parent < cells)
            && every(&self.size, |size| 1 <= size && size <= cells)
            && (self.sizes_double() || self.walks_end())
    }

    /// Sizes of parents are fetched a block at a time, and then compared several at a time.
    fn sizes_double(&self) -> bool {
        const BLOCK: usize = 64;
        let mut fine = true;
        let blocks = self
            .parent
            .chunks_exact(BLOCK)
            .zip(self.size.chunks_exact(BLOCK));
        for (block, (parent, size)) in blocks.enumerate() {
            let mut above = [0; BLOCK];
            for (above, &parent) in above.iter_mut().zip(parent) {
                *above = self.size[usize::from(parent) % CELLS];
            }
            for i in 0..BLOCK {
                let is_root = parent[i] == (block * BLOCK + i) as u16;
                fine &= is_root | (2 * size[i] <= above[i]);
            }
        }
        fine
    }

    fn walks_end(&self) -> bool {
        (0..CELLS).all(|cell| {
            let up = |cell: usize| usize::from(self.parent[cell]);
            let top = (0..MOST_STEPS).fold(cell, |at, _| up(at));
            up(top) == top
        })
    }
}

/// Whether all of them pass: a pass with no way out, which takes several entries at a time.
pub fn every<T: Copy>(entries: &[T], passes: impl Fn(T) -> bool) -> bool {
    entries
        .iter()
        .fold(true, |fine, &entry| fine & passes(entry))
}

/// A forest each of whose steps carries a label.
pub struct Labelled {
    pub forest: Forest,
    pub label: [u8; CELLS],
}

impl Labelled {
    pub fn fresh() -> Labelled {
        Labelled {
            forest: Forest::fresh(),
            label: [0; CELLS],
        }
    }

    /// The parent at a cut: a step whose label is below the cut is not taken.
    pub fn parent_at(&self, cut: u8, cell: u16) -> u16 {
        let at = usize::from(cell);
        if self.label[at] < cut {
            cell
        } else {
            self.forest.parent[at]
        }
    }

    pub fn walk_at(&self, cut: u8, cell: u16) -> Walk {
        let (mut root, mut steps) = (cell, 0);
        loop {
            let next = self.parent_at(cut, root);
            if next == root {
                return Walk { root, steps };
            }
            root = next;
            steps += 1;
        }
    }

    /// One link more, with the scratch beside the forest, which has the same root for every cell and finds it sooner.
    pub fn unite_beside(&mut self, scratch: &mut Scratch, one: u16, other: u16, label: u8) {
        let one = scratch.root(one);
        let other = scratch.root(other);
        if one != other {
            let (child, top) = self.forest.unite_roots(one, other);
            self.label[usize::from(child)] = label;
            scratch.put_under(child, top);
        }
    }
}
