//! Whether a chain had others of the same length beside it, so that the cell
//! numbers had to decide.

use oracle::{History, Linked};

/// Whether links from slide L on have more than one chain with the fewest links:
/// another one leaves the given one at some cell, so that cell is linked with two
/// cells or more that are one link nearer to the end.
pub fn has_ties(history: &History, l: u64, chain: &[u16]) -> bool {
    let linked = Linked::by(history.links_of_slides(l, history.open_slide()));
    let end = chain[chain.len() - 1];
    let to_go = linked.fewest_links_from(u32::from(end));
    chain[..chain.len() - 1].iter().any(|&cell| {
        let nearer = to_go[usize::from(cell)].map(|links| links - 1);
        let next = linked.with(u32::from(cell)).cells();
        next.filter(|&cell| to_go[cell as usize] == nearer).count() >= 2
    })
}

#[cfg(test)]
mod tests {
    use super::*;
    use oracle::{Link, Settings};

    /// Slide 2 is open, and slide 1 in the window.
    fn history(links: [(u64, u32, u32); 4]) -> History {
        let settings = Settings {
            n: 2,
            b: 1,
            mounting: 1,
            t0: 0,
        };
        History {
            links: links.map(|(slide, a, b)| Link { slide, a, b }).to_vec(),
            ..History::at_total(settings, 2)
        }
    }

    #[test]
    fn a_way_round_four_cells_is_a_tie() {
        let history = history([(2, 1, 2), (2, 2, 66), (2, 66, 65), (2, 65, 1)]);
        assert!(has_ties(&history, 2, &[1, 2, 66]));
        assert!(!has_ties(&history, 2, &[1, 2]));
    }

    /// The second way round has an older link, and L leaves it out.
    #[test]
    fn links_before_l_make_no_tie() {
        let history = history([(1, 65, 1), (2, 1, 2), (2, 2, 66), (2, 66, 65)]);
        assert!(!has_ties(&history, 2, &[1, 2, 66]));
        assert!(has_ties(&history, 1, &[1, 2, 66]));
    }
}
