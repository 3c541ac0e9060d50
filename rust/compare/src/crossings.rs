//! How many crossings a question needs, by searching the window's links of the
//! two chunks in turn. No forest is asked.

use oracle::{CellSet, History, Linked};

/// How often one has to cross from a group of one chunk's links to a group of
/// the other's, at the least, on the way between two cells that are joined.
pub fn crossings(history: &History, first: u32, second: u32) -> u64 {
    let start_of_chunk = history.open_chunk() * history.n();
    let window = history.window();
    let older = window.partition_point(|link| link.slide < start_of_chunk);
    let backward = Linked::by(&window[..older]);
    let forward = Linked::by(&window[older..]);
    let either_way = [[&backward, &forward], [&forward, &backward]];
    let ways = either_way.iter();
    ways.filter_map(|sides| crossings_from(sides, first, second))
        .min()
        .expect("two cells that are joined")
}

/// The same, for a way that begins in a group of the first of the two sides.
fn crossings_from(sides: &[&Linked; 2], first: u32, second: u32) -> Option<u64> {
    let mut met = CellSet::EMPTY;
    met.insert(first);
    let mut new = met;
    for crossings in 0.. {
        let side = sides[crossings % 2];
        let mut reached = CellSet::EMPTY;
        for cell in new.cells() {
            if !reached.contains(cell) {
                reached.insert_all(&side.group_of(cell));
            }
        }
        if reached.contains(second) {
            return Some(crossings as u64);
        }
        new = reached.without(&met);
        if new == CellSet::EMPTY {
            return None;
        }
        met.insert_all(&new);
    }
    unreachable!("each round but the last meets a new cell")
}

#[cfg(test)]
mod tests {
    use super::*;
    use oracle::{Link, Settings};

    /// P12 of the document.
    #[test]
    fn p12_needs_three_crossings() {
        let links = [(1, 10, 11), (1, 12, 13), (2, 11, 12), (2, 13, 14)];
        let settings = Settings {
            n: 2,
            b: 1,
            mounting: 1,
            t0: 0,
        };
        let history = History {
            links: links.map(|(slide, a, b)| Link { slide, a, b }).to_vec(),
            ..History::at_total(settings, 2)
        };
        let to = |cell| crossings(&history, 10, cell);
        assert_eq!([11, 12, 13, 14].map(to), [0, 1, 2, 3]);
        assert_eq!(crossings(&history, 14, 10), 3);
        assert_eq!(crossings(&history, 12, 13), 0);
    }
}
