//! The lorry's own bodywork: a list of cells and ranges, from the command line or out of a file, as the mask that the library takes.

use crate::args::digits;
use kerb::LorryCell;
use std::ops::RangeInclusive;

/// For each cell, in the lorry's numbers: 1 where it is bodywork, 0 where it is not.
pub type Mask = Vec<u8>;

/// What is wrong with a list, and in which of its lines, counted from 1 as editors do.
#[derive(Debug, PartialEq)]
pub struct Fault {
    pub line: usize,
    pub what: String,
}

/// No cell is bodywork.
pub fn nothing() -> Mask {
    vec![0; kerb::CELLS]
}

/// The cells that are bodywork, the smallest first.
pub fn cells(mask: &[u8]) -> impl Iterator<Item = LorryCell> + '_ {
    let marked = (0..).zip(mask).filter(|(_, &byte)| byte == 1);
    marked.map(|(cell, _)| LorryCell(cell))
}

/// The mask of a list: cells and ranges, parted by commas, blanks and line feeds. From # on a line is a remark. The same cell may
/// stand twice.
pub fn mask(list: &str) -> Result<Mask, Fault> {
    let list = list.strip_prefix('\u{feff}').unwrap_or(list); // a mark that some editors put in front of a text
    let mut mask = nothing();
    for (line, text) in (1..).zip(list.lines()) {
        let cells_of_line = text.split('#').next().unwrap_or("");
        let words = cells_of_line.split(|of: char| of == ',' || of.is_whitespace());
        for word in words.filter(|word| !word.is_empty()) {
            let range = range(word).map_err(|what| Fault { line, what })?;
            mask[range].fill(1);
        }
    }
    Ok(mask)
}

/// The cells of a word: the one, or all of a range.
fn range(word: &str) -> Result<RangeInclusive<usize>, String> {
    let (first, last) = word.split_once('-').unwrap_or((word, word));
    let (Some(first), Some(last)) = (digits(first), digits(last)) else {
        let word = shown(word);
        return Err(format!(
            "{word} is neither a cell nor a range of cells, as 64-70"
        ));
    };
    let end = kerb::CELLS - 1;
    if first.max(last) > end as u64 {
        return Err(format!("{word} goes beyond {end}, the last cell"));
    }
    if first > last {
        return Err(format!(
            "{word} runs backwards: the smaller cell comes first"
        ));
    }
    Ok(first as usize..=last as usize)
}

/// A word for a message: of a file that is no list it can be of any length, and have anything in it.
fn shown(word: &str) -> String {
    const LONGEST: usize = 40;
    let front: String = word.chars().take(LONGEST).collect();
    let more = if front.len() < word.len() { "..." } else { "" };
    format!("{}{more}", front.escape_debug())
}

#[cfg(test)]
mod tests {
    use super::*;

    fn listed(list: &str) -> Vec<u16> {
        let mask = mask(list).unwrap();
        assert_eq!(mask.len(), kerb::CELLS);
        cells(&mask).map(|cell| cell.0).collect()
    }

    #[test]
    fn a_list_is_cells_and_ranges() {
        let three = [94, 95, 96];
        for list in [
            "94,95,96",
            "94-96",
            "96,94-95",
            "95,94-96,95",
            "94, 95, 96",
            " 94\t95 96 ",
            "94,\n95,\n96,\n",
            "94\r\n95-96\r\n",
            "# 1\n94-95 # 2, 3\n\n96#4\n#",
            "\u{feff}94-96",
            "094-096",
        ] {
            assert_eq!(listed(list), three, "{list:?}");
        }
        assert_eq!(listed("0,1023-1023"), [0, 1023]);
        assert_eq!(listed("0-1023"), Vec::from_iter(0..1024));
        for empty in ["", " \n\n", "# nothing", ","] {
            assert_eq!(listed(empty), [0; 0], "{empty:?}");
        }
    }

    #[test]
    fn what_is_no_list_is_told_with_its_word_and_line() {
        let junk = "is neither a cell nor a range of cells, as 64-70";
        for (list, line, what) in [
            (
                "1024",
                1,
                "1024 goes beyond 1023, the last cell".to_string(),
            ),
            (
                "5\n\n1000-1024",
                3,
                "1000-1024 goes beyond 1023, the last cell".to_string(),
            ),
            (
                "1024-5",
                1,
                "1024-5 goes beyond 1023, the last cell".to_string(),
            ),
            (
                "5,99999999999999999999999",
                1,
                "99999999999999999999999 goes beyond 1023, the last cell".to_string(),
            ),
            (
                "# lift\n70-64",
                2,
                "70-64 runs backwards: the smaller cell comes first".to_string(),
            ),
            ("5 five 6", 1, format!("five {junk}")),
            ("64-", 1, format!("64- {junk}")),
            ("-64", 1, format!("-64 {junk}")),
            ("-", 1, format!("- {junk}")),
            ("64--70", 1, format!("64--70 {junk}")),
            ("64-70-80", 1, format!("64-70-80 {junk}")),
            ("+5", 1, format!("+5 {junk}")),
            ("5\n6\n7.0", 3, format!("7.0 {junk}")),
            ("94;95", 1, format!("94;95 {junk}")),
            ("\0\u{1b}[2J", 1, format!("\\0\\u{{1b}}[2J {junk}")),
            (&"x".repeat(41), 1, format!("{}... {junk}", "x".repeat(40))),
            (&"x".repeat(40), 1, format!("{} {junk}", "x".repeat(40))),
        ] {
            assert_eq!(mask(list), Err(Fault { line, what }), "{list:?}");
        }
    }
}
