//! The proved library, through the safe wrapper over its static archive, as a panel program uses it: the book stays where it
//! is, and what the wrapper costs counts as the library's.

use crate::any_book::{chain_refused, joined_refused, lamps_refused, AnyBook};
use kerb::calls::{ChainAnswer, JoinedAnswer, LampsAnswer};
use kerb::{Book, LorryCell, Refusal, Settings, UnitCell};

pub struct Library(pub Book);

fn number(done: Result<(), Refusal>) -> u8 {
    done.map_or_else(Refusal::number, |()| 0)
}

impl AnyBook for Library {
    const COUNTS_STEPS: bool = true;
    const FINDS_CHAINS: bool = true;

    fn opened(settings: Settings) -> Library {
        Library(Book::open(settings).expect("good settings"))
    }

    fn link(&mut self, tick: u32, one: u16, other: u16) -> u8 {
        number(self.0.link(tick, UnitCell(one), UnitCell(other)))
    }

    fn clock(&mut self, tick: u32) -> u8 {
        number(self.0.clock(tick))
    }

    fn joined(&mut self, one: u16, other: u16) -> JoinedAnswer {
        match self.0.joined(LorryCell(one), LorryCell(other)) {
            Ok(given) => JoinedAnswer {
                number: 0,
                yes: given.yes,
                steps: given.steps,
            },
            Err(refusal) => joined_refused(refusal.number()),
        }
    }

    fn chain(&mut self, one: u16, other: u16, lent: &mut [u16]) -> ChainAnswer {
        match self.0.chain(LorryCell(one), LorryCell(other), lent) {
            Ok(given) => ChainAnswer {
                newest: given.newest,
                cells: given.cells,
                hold: given.hold,
                number: 0,
            },
            Err(refusal) => chain_refused(refusal.number()),
        }
    }

    fn lamps(&mut self, mask: &[u8]) -> LampsAnswer {
        let cell = |lit: Option<LorryCell>| lit.map_or(0, |cell| cell.0);
        match self.0.lamps(mask) {
            Ok(given) => LampsAnswer {
                left_cell: cell(given.left),
                right_cell: cell(given.right),
                left: given.left.is_some(),
                right: given.right.is_some(),
                number: 0,
            },
            Err(refusal) => lamps_refused(refusal.number()),
        }
    }
}
