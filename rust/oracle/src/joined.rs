//! Joined: a search for the yes, two forests for the steps.

use crate::book::{Book, History};
use crate::cells::both_are_cells;
use crate::forest::Forest;
use crate::refusal::Refusal;
use crate::search::Linked;

/// The joined answer.
#[derive(Clone, Copy, Debug, Default, PartialEq, Eq)]
pub struct Joined {
    pub joined: bool,
    /// The sum of four walks.
    pub steps: u32,
}

impl Book {
    /// Joined: 1, 3. The cells are in the lorry's numbers.
    pub fn joined(&self, first: u32, second: u32) -> Result<Joined, Refusal> {
        let history = self.opened()?;
        both_are_cells(first, second)?;
        Ok(Joined {
            joined: history.are_joined(first, second),
            steps: history.steps(first, second),
        })
    }
}

impl History {
    /// Whether links of the window chain the two. A cell is joined to itself.
    fn are_joined(&self, first: u32, second: u32) -> bool {
        Linked::by(self.window()).group_of(first).contains(second)
    }

    /// The sum of four walks, always all four, whatever they find.
    fn steps(&self, first: u32, second: u32) -> u32 {
        let backward = self.backward_forest();
        let forward = self.forward_forest();
        let cut = self.open_place() + 1;
        backward.walk_at_cut(first, cut).steps
            + backward.walk_at_cut(second, cut).steps
            + forward.walk(first).steps
            + forward.walk(second).steps
    }

    /// With k = qn + r, this is q: the chunk of the open slide.
    pub fn open_chunk(&self) -> u64 {
        self.open_slide() / self.n()
    }

    /// With k = qn + r, this is r: the place of the open slide.
    pub fn open_place(&self) -> u64 {
        self.open_slide() % self.n()
    }

    /// Chunk q's links, in order of arrival.
    pub fn forward_forest(&self) -> Forest {
        let n = self.n();
        let start = self.open_chunk() * n;
        let mut forest = Forest::start();
        for link in self.links_of_slides(start, start + n - 1) {
            forest.unite(link.a, link.b, link.slide - start);
        }
        forest
    }

    /// Chunk q - 1's links: places n - 1 down to 1, in each place the last
    /// arrival first. Place 0 is never scanned.
    pub fn backward_forest(&self) -> Forest {
        let n = self.n();
        let mut forest = Forest::start();
        if self.open_chunk() == 0 {
            // Chunk 0 has an empty chunk before it.
            return forest;
        }
        let start = (self.open_chunk() - 1) * n;
        for place in (1..n).rev() {
            let arrivals = self.links_of_slides(start + place, start + place);
            for link in arrivals.iter().rev() {
                forest.unite(link.a, link.b, place);
            }
        }
        forest
    }
}
