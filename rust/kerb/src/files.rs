//! Link files: records of 8 bytes, then settings and trailer. Their cells are in the unit's numbers. And links as text, one a line.

use crate::{calls, Mounting, Refusal, Settings};
use crate::{UnitCell, RECORD_BYTES};
use core::fmt;

/// The settings of a link file, and how many records stand at its front.
pub fn read(file: &[u8]) -> Result<(Settings, u32), Refusal> {
    let answer = calls::read(file);
    Refusal::unless_done(answer.number)?;
    let settings = Settings {
        t0: answer.settings.t0,
        b: answer.settings.b,
        n: answer.settings.n,
        mounting: Mounting::try_from(answer.settings.mounting)?,
    };
    Ok((settings, answer.m))
}

/// A link file of these settings and record bytes, at the front of the output: 24 bytes more than the records.
pub fn write(settings: Settings, records: &[u8], out: &mut [u8]) -> Result<(), Refusal> {
    Refusal::unless_done(calls::write(settings.raw(), records, out))
}

/// What kerblist prints for a link file, at the front of the output: how many bytes of text.
pub fn list(file: &[u8], out: &mut [u8]) -> Result<usize, Refusal> {
    let answer = calls::list(file, out);
    Refusal::unless_done(answer.number)?;
    Ok(answer.length)
}

/// A link as link files have it.
#[derive(Clone, Copy, Debug, PartialEq, Eq)]
pub struct Record {
    pub tick: u32,
    pub one: UnitCell,
    pub other: UnitCell,
}

/// Where playing a file stopped, and why.
#[derive(Clone, Copy, Debug, PartialEq, Eq)]
pub struct Stopped {
    /// How many records were taken before; they stay in the book. Where the link call refused it is the place of that record,
    /// and where the file itself was refused it is 0.
    pub taken: u32,
    pub refusal: Refusal,
}

impl fmt::Display for Stopped {
    fn fmt(&self, f: &mut fmt::Formatter) -> fmt::Result {
        write!(f, "after {} records, {}", self.taken, self.refusal)
    }
}

impl core::error::Error for Stopped {}

/// The bytes of one record.
pub fn pack(tick: u32, one: UnitCell, other: UnitCell) -> [u8; RECORD_BYTES] {
    let mut bytes = [0; RECORD_BYTES];
    let number = calls::pack(tick, one.0, other.0, &mut bytes);
    debug_assert_eq!(number, 0, "8 bytes are enough");
    bytes
}

/// Record i, counted from 0, of record bytes or of a link file.
///
/// ```
/// use kerb::{pack, unpack, Record, Refusal, UnitCell};
///
/// let bytes = pack(7, UnitCell(2), UnitCell(3));
/// assert_eq!(unpack(&bytes, 0), Ok(Record { tick: 7, one: UnitCell(2), other: UnitCell(3) }));
/// assert_eq!(unpack(&bytes, 1), Err(Refusal::Length));
/// ```
pub fn unpack(records: &[u8], i: u32) -> Result<Record, Refusal> {
    let answer = calls::unpack(records, i);
    Refusal::unless_done(answer.number)?;
    Ok(Record {
        tick: answer.tick,
        one: UnitCell(answer.one),
        other: UnitCell(answer.other),
    })
}

/// Where a text was refused, and why.
#[derive(Clone, Copy, Debug, PartialEq, Eq)]
pub struct TextRefused {
    pub refusal: Refusal,
    /// Of `Refusal::Line` the line's number, counted from 0; else 0.
    pub line: u64,
}

impl fmt::Display for TextRefused {
    fn fmt(&self, f: &mut fmt::Formatter) -> fmt::Result {
        match self.refusal {
            Refusal::Line => write!(f, "after {} lines, {}", self.line, self.refusal),
            refusal => refusal.fmt(f),
        }
    }
}

impl core::error::Error for TextRefused {}

/// A link file of these settings and the links of a text, at the front of the output: how many bytes of file, `RECORD_BYTES` for
/// each line and `ENDING_BYTES`. A line is two cells and a tick, in decimal, one blank between, and a line feed.
///
/// ```
/// use kerb::{text_in, text_out, Mounting, Refusal, Settings, TextRefused, FILE_BYTES, TEXT_BYTES};
///
/// let settings = Settings { t0: 0, b: 10, n: 3, mounting: Mounting::Plain };
/// let mut file = vec![0; FILE_BYTES];
/// let length = text_in(settings, b"1 2 0\n2 3 7\n", &mut file)?;
/// assert_eq!(kerb::read(&file[..length]), Ok((settings, 2)));
///
/// let mut text = vec![0; TEXT_BYTES];
/// let length = text_out(&file[..length], &mut text)?;
/// assert_eq!(text[..length], *b"1 2 0\n2 3 7\n");
///
/// let refused = text_in(settings, b"1 2 0\n2 3 07\n", &mut file).unwrap_err();
/// assert_eq!(refused, TextRefused { refusal: Refusal::Line, line: 1 });
/// assert_eq!(refused.to_string(), "after 1 lines, number 13: a line of the text breaks the form");
/// # Ok::<(), Box<dyn std::error::Error>>(())
/// ```
pub fn text_in(settings: Settings, text: &[u8], out: &mut [u8]) -> Result<usize, TextRefused> {
    let answer = calls::text_in(settings.raw(), text, out);
    let at_line = |refusal| TextRefused {
        refusal,
        line: answer.line,
    };
    Refusal::unless_done(answer.number).map_err(at_line)?;
    Ok(answer.length)
}

/// The links of a link file as text, at the front of the output: how many bytes of text, `TEXT_BYTES` at most.
pub fn text_out(file: &[u8], out: &mut [u8]) -> Result<usize, Refusal> {
    let answer = calls::text_out(file, out);
    Refusal::unless_done(answer.number)?;
    Ok(answer.length)
}
