//! The crossing: from a backward group to each forward group that shares a cell with it, and from there back again, until no
//! new group is met. Each group is entered once and each list walked once.

use super::forest::{Forest, Labelled, CELLS};

/// Ends a list.
const NONE: u16 = CELLS as u16;

/// One of the two partitions: each cell's group by its root, the groups met, and each group as a list that begins with its root.
struct Side {
    roots: [u16; CELLS],
    next: [u16; CELLS],
    met: [bool; CELLS],
}

impl Side {
    /// Only a cell that takes a step is put behind its root.
    fn new(up: impl Fn(u16) -> u16) -> Side {
        let mut roots = std::array::from_fn(|cell| cell as u16);
        let mut next = [NONE; CELLS];
        for cell in (0..CELLS as u16).rev() {
            let mut root = up(cell);
            if root == cell {
                continue;
            }
            loop {
                let above = up(root);
                if above == root {
                    break;
                }
                root = above;
            }
            roots[usize::from(cell)] = root;
            next[usize::from(cell)] = next[usize::from(root)];
            next[usize::from(root)] = cell;
        }
        Side {
            roots,
            next,
            met: [false; CELLS],
        }
    }
}

struct Crossing {
    backward: Side,
    forward: Side,
}

impl Crossing {
    fn enter_backward(&mut self, group: u16) {
        self.backward.met[usize::from(group)] = true;
        let mut cell = group;
        while cell != NONE {
            let shared = self.forward.roots[usize::from(cell)];
            if !self.forward.met[usize::from(shared)] {
                self.enter_forward(shared);
            }
            cell = self.backward.next[usize::from(cell)];
        }
    }

    fn enter_forward(&mut self, group: u16) {
        self.forward.met[usize::from(group)] = true;
        let mut cell = group;
        while cell != NONE {
            let shared = self.backward.roots[usize::from(cell)];
            if !self.backward.met[usize::from(shared)] {
                self.enter_backward(shared);
            }
            cell = self.forward.next[usize::from(cell)];
        }
    }
}

/// Whether one cell's group leads across to the other's.
pub fn joined_across(backward: &Labelled, cut: u8, forward: &Forest, one: u16, other: u16) -> bool {
    let mut crossing = Crossing {
        backward: Side::new(|cell| backward.parent_at(cut, cell)),
        forward: Side::new(|cell| forward.parent[usize::from(cell)]),
    };
    crossing.enter_backward(crossing.backward.roots[usize::from(one)]);
    crossing.backward.met[usize::from(crossing.backward.roots[usize::from(other)])]
}
