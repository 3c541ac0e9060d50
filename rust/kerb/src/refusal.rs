//! The numbers that a call can give, 0 aside. 8 is unassigned: no call gives it.

use core::fmt;

/// A refusal; each has its number in the table, and says it in words.
///
/// ```
/// let refusal = kerb::Refusal::Full;
/// assert_eq!(refusal.to_string(), "number 5: the link's slide already holds 256 links");
/// ```
#[derive(Clone, Copy, Debug, PartialEq, Eq)]
#[repr(u8)]
pub enum Refusal {
    NoBook = 1,
    Settings = 2,
    NoCell = 3,
    Early = 4,
    Full = 5,
    Short = 6,
    NoTrail = 7,
    Length = 9,
    Letters = 10,
    Offset = 11,
    Pad = 12,
    Line = 13,
    Apart = 14,
    Mask = 15,
}

impl Refusal {
    /// The number in the table.
    pub fn number(self) -> u8 {
        self as u8
    }

    /// What the number says.
    pub fn meaning(self) -> &'static str {
        match self {
            Refusal::NoBook => "the book was never opened, or was altered beyond its ranges",
            Refusal::Settings => "n, B or the mounting is outside its values",
            Refusal::NoCell => "a cell is 1024 or more",
            Refusal::Early => {
                "the tick is before the book's time, or 2,147,483,648 or more after it, which looks the same; or the total has run out"
            }
            Refusal::Full => "the link's slide already holds 256 links",
            Refusal::Short => "a lent buffer is too short",
            Refusal::NoTrail => "no links of the window chain the two cells",
            Refusal::Length => "the length is that of no link file, or of no records",
            Refusal::Letters => "the last four bytes of the file are not KERB",
            Refusal::Offset => "the file's offset and count do not agree with its length",
            Refusal::Pad => "a pad byte of the file is not zero",
            Refusal::Line => "a line of the text breaks the form",
            Refusal::Apart => "the link's two cells do not touch",
            Refusal::Mask => {
                "the body mask is under 1,024 bytes, or has a byte that is neither 0 nor 1 among the first 1,024"
            }
        }
    }

    pub(crate) fn unless_done(number: u8) -> Result<(), Refusal> {
        let refusal = match number {
            0 => return Ok(()),
            1 => Refusal::NoBook,
            2 => Refusal::Settings,
            3 => Refusal::NoCell,
            4 => Refusal::Early,
            5 => Refusal::Full,
            6 => Refusal::Short,
            7 => Refusal::NoTrail,
            9 => Refusal::Length,
            10 => Refusal::Letters,
            11 => Refusal::Offset,
            12 => Refusal::Pad,
            13 => Refusal::Line,
            14 => Refusal::Apart,
            15 => Refusal::Mask,
            _ => unreachable!("the library gives no number {number}"),
        };
        Err(refusal)
    }
}

impl fmt::Display for Refusal {
    fn fmt(&self, f: &mut fmt::Formatter) -> fmt::Result {
        write!(f, "number {}: {}", self.number(), self.meaning())
    }
}

impl core::error::Error for Refusal {}

#[cfg(test)]
mod tests {
    use super::*;

    #[test]
    fn a_number_gives_the_refusal_of_that_number() {
        assert_eq!(Refusal::unless_done(0), Ok(()));
        for number in (1..=7).chain(9..=15) {
            let refusal = Refusal::unless_done(number).unwrap_err();
            assert_eq!(refusal.number(), number);
        }
    }

    #[test]
    #[should_panic(expected = "the library gives no number 8")]
    fn no_refusal_has_number_8() {
        let _ = Refusal::unless_done(8);
    }
}
