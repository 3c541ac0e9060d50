//! The neighbours of each cell as lists, and the chain over them: the fewest links, and the first of those by cell numbers. The peers and
//! the search find L each in its own way, and both write the chain by this.

use crate::window::CELLS;

/// Ends a list.
const NONE: u16 = u16::MAX;

pub struct Neighbours {
    first: [u16; CELLS],
    /// Of each place the next one of its list, and its cell.
    places: Vec<(u16, u16)>,
}

impl Neighbours {
    /// None yet, with room for the links of a full window.
    pub fn none() -> Neighbours {
        Neighbours {
            first: [NONE; CELLS],
            places: Vec::with_capacity(8192),
        }
    }

    /// Those of all these links at once, which is quicker than one after the other.
    pub fn by(links: &[(u16, u16)]) -> Neighbours {
        let mut first = [NONE; CELLS];
        let mut places = vec![(0, 0); 2 * links.len()];
        for (two, (i, &(one, other))) in places.chunks_exact_mut(2).zip((0..).zip(links)) {
            let place = 2 * i;
            let next = std::mem::replace(&mut first[usize::from(one)], place);
            two[0] = (next, other);
            let next = std::mem::replace(&mut first[usize::from(other)], place + 1);
            two[1] = (next, one);
        }
        Neighbours { first, places }
    }

    /// None again. The memory is kept.
    pub fn clear(&mut self) {
        self.first = [NONE; CELLS];
        self.places.clear();
    }

    pub fn add(&mut self, one: u16, other: u16) {
        self.add_one(one, other);
        self.add_one(other, one);
    }

    fn add_one(&mut self, of: u16, neighbour: u16) {
        let place = self.places.len() as u16;
        let next = std::mem::replace(&mut self.first[usize::from(of)], place);
        self.places.push((next, neighbour));
    }

    pub fn has_any(&self, cell: u16) -> bool {
        self.first[usize::from(cell)] != NONE
    }

    pub fn of(&self, cell: u16) -> impl Iterator<Item = u16> + '_ {
        let mut place = self.first[usize::from(cell)];
        std::iter::from_fn(move || {
            let &(next, neighbour) = self.places.get(usize::from(place))?;
            place = next;
            Some(neighbour)
        })
    }

    /// Breadth first from a cell until the other is met: how many cells the shortest chain to each cell met has; 0 for those not met.
    pub fn search(&self, from: u16, to: u16) -> [u16; CELLS] {
        let mut cells = [0; CELLS];
        let mut queue = [0; CELLS];
        cells[usize::from(from)] = 1;
        queue[0] = from;
        let (mut head, mut tail) = (0, 1);
        while head < tail && cells[usize::from(to)] == 0 {
            let cell = queue[head];
            head += 1;
            let further = cells[usize::from(cell)] + 1;
            for met in self.of(cell) {
                if cells[usize::from(met)] == 0 {
                    cells[usize::from(met)] = further;
                    queue[tail] = met;
                    tail += 1;
                }
            }
        }
        cells
    }

    /// The chain to the front of the buffer, and its number of cells: from the first cell always the smallest neighbour that is one nearer
    /// to the second.
    pub fn write_chain(&self, one: u16, other: u16, lent: &mut [u16]) -> u16 {
        let left = self.search(other, one);
        let mut cell = one;
        let mut place = 0;
        while cell != other {
            lent[place] = cell;
            place += 1;
            let nearer = left[usize::from(cell)] - 1;
            cell = self
                .of(cell)
                .filter(|&met| left[usize::from(met)] == nearer)
                .min()
                .expect("a cell of the chain has a neighbour that is one nearer");
        }
        lent[place] = cell;
        left[usize::from(one)]
    }
}
