//! What the cells of a history are drawn from, in the lorry's numbers.

use crate::dice::Dice;
use crate::touching::{far, far_cell, patch, touching_cell, touching_cell_of};
use oracle::CELLS;

#[derive(Clone, Debug)]
pub(crate) enum Scene {
    /// A few cells that hang together.
    Patch(Vec<u32>),
    All,
    /// The middle cells of some things that drift, as a lidar sees them.
    Things(Vec<u32>),
}

impl Scene {
    /// A patch of 4 to 40 cells: neighbours in number, or grown from any cell or
    /// from one at a corner.
    pub fn few(dice: &mut Dice) -> Scene {
        let size = dice.between(4, 40) as usize;
        if dice.one_in(3) {
            let start = dice.below(u64::from(CELLS) - size as u64 + 1) as u32;
            return Scene::Patch((start..start + size as u32).collect());
        }
        let any = dice.cell();
        let first = dice.pick(&[any, any, any, any, 0, 63, 960, 1023]);
        Scene::Patch(patch(dice, first, size))
    }

    /// 1 to 6 things.
    pub fn things(dice: &mut Dice) -> Scene {
        let things = dice.between(1, 6);
        Scene::Things((0..things).map(|_| dice.cell()).collect())
    }

    pub fn cell(&self, dice: &mut Dice) -> u32 {
        match self {
            Scene::Patch(cells) => dice.pick(cells),
            Scene::All => dice.cell(),
            Scene::Things(middles) => {
                let mut cell = dice.pick(middles);
                for _ in 0..dice.below(3) {
                    cell = touching_cell(dice, cell);
                }
                cell
            }
        }
    }

    /// A cell that touches one of the scene's.
    pub fn beside(&self, dice: &mut Dice, cell: u32) -> u32 {
        match self {
            Scene::Patch(cells) => touching_cell_of(dice, cells, cell),
            Scene::All | Scene::Things(_) => touching_cell(dice, cell),
        }
    }

    /// A cell that lies far from one: mostly one of the scene, where it is wide
    /// enough.
    pub fn far_from(&self, dice: &mut Dice, cell: u32) -> u32 {
        let other = self.cell(dice);
        if far(cell, other) {
            other
        } else {
            far_cell(dice, cell)
        }
    }

    /// Things move on a little.
    pub fn drift(&mut self, dice: &mut Dice) {
        if let Scene::Things(middles) = self {
            for middle in middles {
                if dice.one_in(2) {
                    *middle = touching_cell(dice, *middle);
                }
            }
        }
    }
}
