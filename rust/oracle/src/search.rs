//! The search: which cells some links chain together, and over how many links.

use crate::book::Link;
use crate::cells::CELLS;

const WORDS: usize = CELLS as usize / 64;

/// A set of cells, one bit for each.
#[derive(Clone, Copy, Debug, PartialEq, Eq)]
pub struct CellSet([u64; WORDS]);

impl CellSet {
    pub const EMPTY: CellSet = CellSet([0; WORDS]);

    pub fn insert(&mut self, cell: u32) {
        self.0[cell as usize / 64] |= 1 << (cell % 64);
    }

    pub fn contains(&self, cell: u32) -> bool {
        self.0[cell as usize / 64] >> (cell % 64) & 1 == 1
    }

    /// How many cells are in the set.
    pub fn count(&self) -> u32 {
        self.0.iter().map(|word| word.count_ones()).sum()
    }

    /// Puts the cells of the other set into this one.
    pub fn insert_all(&mut self, other: &CellSet) {
        for (word, more) in self.0.iter_mut().zip(other.0) {
            *word |= more;
        }
    }

    /// The cells of this set that are not in the other.
    pub fn without(&self, other: &CellSet) -> CellSet {
        let mut rest = *self;
        for (word, less) in rest.0.iter_mut().zip(other.0) {
            *word &= !less;
        }
        rest
    }

    /// Whether no cell of this set is in the other.
    pub fn meets_none_of(&self, other: &CellSet) -> bool {
        self.without(other) == *self
    }

    /// The cells of the set, smallest first.
    pub fn cells(self) -> impl Iterator<Item = u32> {
        let words = self.0;
        (0..WORDS).flat_map(move |place| {
            let mut word = words[place];
            std::iter::from_fn(move || {
                if word == 0 {
                    return None;
                }
                let bit = word.trailing_zeros();
                word &= word - 1;
                Some(64 * place as u32 + bit)
            })
        })
    }
}

/// Which cells are linked with which, by some of the book's links.
#[derive(Clone)]
pub struct Linked {
    with: Vec<CellSet>,
}

impl Linked {
    /// Nothing is linked with anything.
    pub fn by_nothing() -> Linked {
        Linked {
            with: vec![CellSet::EMPTY; CELLS as usize],
        }
    }

    /// Linked by these links.
    pub fn by(links: &[Link]) -> Linked {
        let mut linked = Linked::by_nothing();
        linked.add(links);
        linked
    }

    /// Linked by these links as well. A link holds both ways; a link of a cell
    /// with itself joins nothing.
    pub fn add(&mut self, links: &[Link]) {
        for link in links {
            if link.a != link.b {
                self.with[link.a as usize].insert(link.b);
                self.with[link.b as usize].insert(link.a);
            }
        }
    }

    /// The cells linked with this one.
    pub fn with(&self, cell: u32) -> &CellSet {
        &self.with[cell as usize]
    }

    /// All cells that links chain to this one, itself included.
    pub fn group_of(&self, cell: u32) -> CellSet {
        let mut met = CellSet::EMPTY;
        self.rounds_from(cell, |_, round| met.insert_all(round));
        met
    }

    /// For every cell the fewest links from the given one, or `None` if no
    /// links chain the two.
    pub fn fewest_links_from(&self, cell: u32) -> Vec<Option<u32>> {
        let mut fewest = vec![None; CELLS as usize];
        self.rounds_from(cell, |links, round| {
            for met in round.cells() {
                fewest[met as usize] = Some(links);
            }
        });
        fewest
    }

    /// Breadth first: round 0 is the cell itself, round i + 1 the cells linked
    /// with one of round i and met in no round before.
    fn rounds_from(&self, cell: u32, mut seen: impl FnMut(u32, &CellSet)) {
        let mut met = CellSet::EMPTY;
        let mut round = CellSet::EMPTY;
        round.insert(cell);
        let mut links = 0;
        while round != CellSet::EMPTY {
            seen(links, &round);
            met.insert_all(&round);
            let mut reached = CellSet::EMPTY;
            for from in round.cells() {
                reached.insert_all(self.with(from));
            }
            round = reached.without(&met);
            links += 1;
        }
    }
}

#[cfg(test)]
mod tests {
    use super::*;

    fn link(a: u32, b: u32) -> Link {
        Link { slide: 0, a, b }
    }

    #[test]
    fn a_set_lists_its_cells_smallest_first() {
        let mut set = CellSet::EMPTY;
        for cell in [1023, 0, 64, 63, 64] {
            set.insert(cell);
        }
        assert_eq!(set.cells().collect::<Vec<_>>(), [0, 63, 64, 1023]);
        assert_eq!(set.count(), 4);
        assert!(set.contains(63) && !set.contains(62));
    }

    #[test]
    fn sets_meet_where_they_share_a_cell() {
        let set_of = |cells: &[u32]| {
            let mut set = CellSet::EMPTY;
            cells.iter().for_each(|&cell| set.insert(cell));
            set
        };
        let set = set_of(&[0, 63, 1023]);
        assert!(!set.meets_none_of(&set_of(&[5, 1023])));
        assert!(set.meets_none_of(&set_of(&[1, 64, 1022])));
        assert!(set.meets_none_of(&CellSet::EMPTY));
    }

    #[test]
    fn groups_and_fewest_links() {
        let linked = Linked::by(&[link(1, 2), link(3, 2), link(3, 4), link(1, 4), link(4, 9)]);
        assert_eq!(
            linked.group_of(9).cells().collect::<Vec<_>>(),
            [1, 2, 3, 4, 9]
        );
        let fewest = linked.fewest_links_from(9);
        assert_eq!(
            [1, 2, 3, 4, 9, 5].map(|cell: usize| fewest[cell]),
            [Some(2), Some(3), Some(2), Some(1), Some(0), None]
        );
    }

    #[test]
    fn a_link_of_a_cell_with_itself_joins_nothing() {
        let linked = Linked::by(&[link(7, 7)]);
        assert_eq!(linked.group_of(7).count(), 1);
        assert_eq!(*linked.with(7), CellSet::EMPTY);
    }
}
