//! A forest of "Chunks and the two forests". Parents are never shortened.

use crate::cells::CELLS;

/// A walk from a cell: where it ends and how many parent steps it took.
#[derive(Clone, Copy, Debug, PartialEq, Eq)]
pub struct Walk {
    pub root: u32,
    pub steps: u32,
}

/// A forest over the cells.
#[derive(Clone)]
pub struct Forest {
    /// A root is its own parent.
    pub parent: [u32; CELLS as usize],
    /// For roots: how many cells their tree has.
    pub size: [u32; CELLS as usize],
    /// For all but roots: the place of the link that made the parent step.
    pub label: [u64; CELLS as usize],
}

impl Forest {
    /// Each cell its own root, of size 1.
    pub fn start() -> Forest {
        let mut parent = [0; CELLS as usize];
        for cell in 0..CELLS {
            parent[cell as usize] = cell;
        }
        Forest {
            parent,
            size: [1; CELLS as usize],
            label: [0; CELLS as usize],
        }
    }

    /// A link whose ends have different roots makes the root of the smaller
    /// tree a child of the other; on equal sizes the root with the larger
    /// number becomes the child. The step is labelled with the link's place.
    pub fn unite(&mut self, a: u32, b: u32, place: u64) {
        let root_a = self.walk(a).root;
        let root_b = self.walk(b).root;
        if root_a == root_b {
            return;
        }
        let (child, other) = self.child_and_other(root_a, root_b);
        self.parent[child as usize] = other;
        self.size[other as usize] += self.size[child as usize];
        self.label[child as usize] = place;
    }

    fn child_and_other(&self, a: u32, b: u32) -> (u32, u32) {
        let (size_a, size_b) = (self.size[a as usize], self.size[b as usize]);
        let a_is_child = size_a < size_b || (size_a == size_b && a > b);
        if a_is_child {
            (a, b)
        } else {
            (b, a)
        }
    }

    /// The walk without a cut: all parent steps up to the root.
    pub fn walk(&self, cell: u32) -> Walk {
        // No label is below 0.
        self.walk_at_cut(cell, 0)
    }

    /// The walk at a cut stops before a step whose label is below the cut.
    pub fn walk_at_cut(&self, cell: u32, cut: u64) -> Walk {
        let mut at = cell;
        let mut steps = 0;
        while self.parent[at as usize] != at && self.label[at as usize] >= cut {
            at = self.parent[at as usize];
            steps += 1;
        }
        Walk { root: at, steps }
    }
}

#[cfg(test)]
mod tests {
    use super::*;

    #[test]
    fn starts_with_each_cell_its_own_root() {
        let forest = Forest::start();
        for cell in 0..CELLS {
            assert_eq!(
                forest.walk(cell),
                Walk {
                    root: cell,
                    steps: 0
                }
            );
        }
    }

    #[test]
    fn on_equal_sizes_the_larger_number_becomes_the_child() {
        for (a, b) in [(3, 9), (9, 3)] {
            let mut forest = Forest::start();
            forest.unite(a, b, 0);
            assert_eq!(forest.walk(9), Walk { root: 3, steps: 1 });
            assert_eq!(forest.walk(3), Walk { root: 3, steps: 0 });
        }
    }

    #[test]
    fn the_smaller_tree_becomes_the_child_whatever_its_number() {
        let mut forest = Forest::start();
        forest.unite(8, 9, 0);
        forest.unite(9, 1, 0);
        assert_eq!(forest.walk(1), Walk { root: 8, steps: 1 });
        assert_eq!(forest.walk(9), Walk { root: 8, steps: 1 });
    }

    #[test]
    fn a_link_within_a_tree_or_a_cell_changes_nothing() {
        let mut forest = Forest::start();
        forest.unite(1, 2, 5);
        forest.unite(3, 4, 5);
        forest.unite(2, 4, 5);
        let before = forest.clone();
        forest.unite(4, 1, 1);
        forest.unite(3, 3, 1);
        for cell in 0..CELLS {
            assert_eq!(forest.walk_at_cut(cell, 5), before.walk_at_cut(cell, 5));
        }
    }

    #[test]
    fn parents_are_never_shortened() {
        let mut forest = Forest::start();
        forest.unite(1, 2, 7);
        forest.unite(3, 4, 7);
        forest.unite(1, 3, 6);
        let first = forest.walk(4);
        assert_eq!(first, Walk { root: 1, steps: 2 });
        assert_eq!(forest.walk(4), first);
        // Another link through the same cells, and still two steps.
        forest.unite(4, 10, 5);
        assert_eq!(forest.walk(4), first);
    }

    #[test]
    fn a_walk_stops_before_a_step_below_the_cut() {
        let mut forest = Forest::start();
        forest.unite(1, 2, 7);
        forest.unite(3, 4, 7);
        forest.unite(1, 3, 6);
        assert_eq!(forest.walk_at_cut(4, 6), Walk { root: 1, steps: 2 });
        assert_eq!(forest.walk_at_cut(4, 7), Walk { root: 3, steps: 1 });
        assert_eq!(forest.walk_at_cut(4, 8), Walk { root: 4, steps: 0 });
    }
}
