//! "The lamp layer": two lamps, each for a zone beside the lorry. Written from the
//! request's words: for each cell of the zone that is an end of a link of the window,
//! the smallest first, the window's links are searched from it, and where the search
//! meets no body cell the lamp is lit.

use crate::book::{long_enough, Book, History, Link, LOG_PLACES};
use crate::cells::{CELLS, SECTORS};
use crate::refusal::Refusal;
use crate::search::{CellSet, Linked};

/// The body mask needs this many bytes, one for each cell in the lorry's numbers.
pub const MASK_BYTES: usize = CELLS as usize;

/// A side of the lorry, and so a lamp and its zone.
#[derive(Clone, Copy, Debug, PartialEq, Eq)]
pub enum Side {
    Left,
    Right,
}

/// The zone that a cell lies in, if any: rings 0 to 5, on the left sectors 33 to 63, on
/// the right 1 to 31. Sectors 0 and 32, on the axis, are in no zone.
pub fn zone_of(cell: u32) -> Option<Side> {
    match (cell / SECTORS, cell % SECTORS) {
        (0..=5, 33..=63) => Some(Side::Left),
        (0..=5, 1..=31) => Some(Side::Right),
        _ => None,
    }
}

/// The lamps: of each the smallest cell that lights it, or none where it is dark.
#[derive(Clone, Copy, Debug, Default, PartialEq, Eq)]
pub struct Lamps {
    pub left: Option<u32>,
    pub right: Option<u32>,
}

impl Book {
    /// Lamps: 1, 6, 15. The mask is in the lorry's numbers: 1 for a cell of the
    /// lorry's own bodywork, 0 for any other.
    pub fn lamps(&self, log_places: usize, mask: &[u8]) -> Result<Lamps, Refusal> {
        let history = self.opened()?;
        long_enough(log_places, LOG_PLACES)?;
        let body = body_cells(mask)?;
        Ok(Lamps {
            left: history.lit_by(Side::Left, &body),
            right: history.lit_by(Side::Right, &body),
        })
    }
}

/// The cells of the bodywork. Number 15: the mask is too short, or one of its bytes is
/// neither 0 nor 1; those after the last cell's are not looked at.
fn body_cells(mask: &[u8]) -> Result<CellSet, Refusal> {
    let bytes = mask.get(..MASK_BYTES).ok_or(Refusal::Mask)?;
    let mut body = CellSet::EMPTY;
    for (cell, byte) in (0..CELLS).zip(bytes) {
        match byte {
            0 => {}
            1 => body.insert(cell),
            _ => return Err(Refusal::Mask),
        }
    }
    Ok(body)
}

impl History {
    /// The smallest cell of the zone that is an end of a link of the window and joined
    /// to no body cell. A cell is joined to itself, so no body cell lights a lamp.
    fn lit_by(&self, side: Side, body: &CellSet) -> Option<u32> {
        let linked = Linked::by(self.window());
        // What a search found joined to a body cell: no need to search from there again.
        let mut dark = CellSet::EMPTY;
        for cell in ends_of(self.window()).cells() {
            if zone_of(cell) != Some(side) || dark.contains(cell) {
                continue;
            }
            let group = linked.group_of(cell);
            if group.meets_none_of(body) {
                return Some(cell);
            }
            dark.insert_all(&group);
        }
        None
    }
}

/// The cells that are an end of one of these links.
pub fn ends_of(links: &[Link]) -> CellSet {
    let mut ends = CellSet::EMPTY;
    for link in links {
        ends.insert(link.a);
        ends.insert(link.b);
    }
    ends
}
