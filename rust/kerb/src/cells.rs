//! Cells in the unit's numbers and cells in the lorry's: two types, so that the one is never taken for the other.

use crate::calls;
use crate::Refusal;

/// How the unit is fitted. There is no default: a lost flag would swap left and right.
#[derive(Clone, Copy, Debug, PartialEq, Eq, Hash)]
#[repr(u8)]
pub enum Mounting {
    /// The unit numbers cells as the lorry does.
    Plain = 1,
    /// Sector s of the unit is sector (64 - s) mod 64 of the lorry, in the same ring: 0, dead ahead, and 32, dead astern, stay.
    Mirrored = 2,
}

impl Mounting {
    /// The number that books and link files hold.
    pub fn number(self) -> u8 {
        self as u8
    }
}

/// Refuses what is neither 1 nor 2.
impl TryFrom<u8> for Mounting {
    type Error = Refusal;

    fn try_from(number: u8) -> Result<Mounting, Refusal> {
        match number {
            1 => Ok(Mounting::Plain),
            2 => Ok(Mounting::Mirrored),
            _ => Err(Refusal::Settings),
        }
    }
}

/// A cell in the unit's numbers, as links have them. The calls judge whether it is below 1,024.
#[derive(Clone, Copy, Debug, PartialEq, Eq, PartialOrd, Ord, Hash)]
#[repr(transparent)]
pub struct UnitCell(pub u16);

/// A cell in the lorry's numbers, as questions and answers have them. The calls judge whether it is below 1,024.
#[derive(Clone, Copy, Debug, PartialEq, Eq, PartialOrd, Ord, Hash)]
#[repr(transparent)]
pub struct LorryCell(pub u16);

impl UnitCell {
    /// The same cell in the lorry's numbers. A number that is no cell stays as it is.
    ///
    /// ```
    /// use kerb::{LorryCell, Mounting, UnitCell};
    ///
    /// assert_eq!(UnitCell(63).to_lorry(Mounting::Mirrored), LorryCell(1));
    /// assert_eq!(UnitCell(64).to_lorry(Mounting::Mirrored), LorryCell(64));
    /// assert_eq!(UnitCell(63).to_lorry(Mounting::Plain), LorryCell(63));
    /// ```
    pub fn to_lorry(self, mounting: Mounting) -> LorryCell {
        LorryCell(calls::lorry_cell(mounting.number(), self.0))
    }

    pub fn ring(self) -> u16 {
        calls::ring(self.0)
    }

    pub fn sector(self) -> u16 {
        calls::sector(self.0)
    }
}

impl LorryCell {
    /// The same cell in the unit's numbers. A number that is no cell stays as it is.
    pub fn to_unit(self, mounting: Mounting) -> UnitCell {
        UnitCell(calls::unit_cell(mounting.number(), self.0))
    }

    /// ```
    /// let cell = kerb::LorryCell(130);
    /// assert_eq!((cell.ring(), cell.sector()), (2, 2));
    /// ```
    pub fn ring(self) -> u16 {
        calls::ring(self.0)
    }

    pub fn sector(self) -> u16 {
        calls::sector(self.0)
    }
}
