//! "Numbers a call can give". 8 is unassigned.

/// The refusals of the table; each carries the table's number.
#[derive(Clone, Copy, Debug, PartialEq, Eq)]
pub enum Refusal {
    /// The book was never opened.
    NeverOpened = 1,
    /// n, B or mounting outside the stated values.
    Settings = 2,
    /// A cell is 1024 or more.
    Cell = 3,
    /// The tick is half a turn of the counter or more ahead of the book's time, as
    /// one before it is too; or the total has run out.
    Tick = 4,
    /// The link's slide already holds 256.
    SlideFull = 5,
    /// A lent buffer is too short.
    Buffer = 6,
    /// No trail.
    NoTrail = 7,
    /// The length of the file, or of the writer's records.
    Length = 9,
    /// The last four bytes are not KERB.
    Letters = 10,
    /// Offset not 8m, or m not (length - 24) / 8.
    Trailer = 11,
    /// A pad byte is not zero.
    Pad = 12,
    /// A line of the text breaks the form.
    Line = 13,
    /// Two cells that don't touch.
    Apart = 14,
    /// The body mask is under 1,024 bytes, or has another value than 0 or 1 among
    /// the first 1,024.
    Mask = 15,
}

impl Refusal {
    /// The number in the table.
    pub fn number(self) -> u32 {
        self as u32
    }
}

/// The number a call gave: 0 when it was done.
pub fn number<T>(answer: &Result<T, Refusal>) -> u32 {
    match answer {
        Ok(_) => 0,
        Err(refusal) => refusal.number(),
    }
}

/// The refusal when a condition of the table is met.
pub(crate) fn refuse_if(condition: bool, refusal: Refusal) -> Result<(), Refusal> {
    if condition {
        Err(refusal)
    } else {
        Ok(())
    }
}
