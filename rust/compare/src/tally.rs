//! How often each class was seen. The classes are declared beforehand, row by
//! row, and each has to be seen: one that stayed empty is a failure of the run.

use std::fmt;

/// Counts of declared classes.
#[derive(Clone, Debug)]
pub struct Tally {
    rows: Vec<Row>,
}

#[derive(Clone, Debug)]
struct Row {
    name: &'static str,
    classes: Vec<(&'static str, u64)>,
}

impl Tally {
    /// Rows of classes, none of them seen yet.
    pub fn of(rows: &[(&'static str, &[&'static str])]) -> Tally {
        let row = |&(name, classes): &(&'static str, &[&'static str])| Row {
            name,
            classes: classes.iter().map(|&class| (class, 0)).collect(),
        };
        Tally {
            rows: rows.iter().map(row).collect(),
        }
    }

    /// One more of a class. A class that was not declared is one that no call may
    /// fall in.
    pub fn count(&mut self, row: &str, class: &str) {
        *self.at(row, class) += 1;
    }

    fn at(&mut self, row: &str, class: &str) -> &mut u64 {
        self.rows
            .iter_mut()
            .find(|of| of.name == row)
            .and_then(|of| of.classes.iter_mut().find(|of| of.0 == class))
            .map(|of| &mut of.1)
            .unwrap_or_else(|| panic!("{row}: {class} is no class that may be seen"))
    }

    /// How often the classes of a row were seen, in their order.
    pub fn seen(&self, row: &str) -> Vec<u64> {
        let mut rows = self.rows.iter().filter(|of| of.name == row);
        let row = rows.next().expect("a row that was declared");
        row.classes.iter().map(|of| of.1).collect()
    }

    /// What another tally of the same rows has seen as well.
    pub fn add(&mut self, other: &Tally) {
        for (row, more) in self.rows.iter_mut().zip(&other.rows) {
            for (class, more) in row.classes.iter_mut().zip(&more.classes) {
                class.1 += more.1;
            }
        }
    }

    /// The classes that stayed empty.
    pub fn empty(&self) -> Vec<String> {
        let mut empty = Vec::new();
        for row in &self.rows {
            for (class, count) in &row.classes {
                if *count == 0 {
                    empty.push(format!("{}: {}", row.name, class));
                }
            }
        }
        empty
    }
}

impl fmt::Display for Tally {
    fn fmt(&self, f: &mut fmt::Formatter) -> fmt::Result {
        let width = self.rows.iter().map(|row| row.name.len()).max();
        for row in &self.rows {
            write!(f, "{:>1$} |", row.name, width.unwrap_or(0))?;
            for (class, count) in &row.classes {
                write!(f, " {class}: {count} |")?;
            }
            writeln!(f)?;
        }
        Ok(())
    }
}

/// The names of the numbers up to 16, as classes.
pub const NUMBERS: [&str; 17] = [
    "0", "1", "2", "3", "4", "5", "6", "7", "8", "9", "10", "11", "12", "13", "14", "15", "16",
];

/// The class of a number up to 16.
pub fn number(number: u32) -> &'static str {
    NUMBERS[number as usize]
}

/// Classes of larger numbers: where each begins, and its name. The first begins
/// at the least number there is.
pub type Spans = [(u64, &'static str)];

/// Their names.
pub fn names(spans: &Spans) -> Vec<&'static str> {
    spans.iter().map(|of| of.1).collect()
}

/// The class that a number is in.
pub fn span(spans: &Spans, number: u64) -> &'static str {
    let mut latest_first = spans.iter().rev();
    let begun = latest_first.find(|of| of.0 <= number);
    begun.expect("a span that has begun").1
}

#[cfg(test)]
mod tests {
    use super::*;

    fn two_rows() -> Tally {
        Tally::of(&[("joined", &["yes", "no"]), ("hold", &["0"])])
    }

    #[test]
    fn what_was_not_seen_is_empty() {
        let mut tally = two_rows();
        assert_eq!(tally.empty(), ["joined: yes", "joined: no", "hold: 0"]);
        tally.count("joined", "no");
        let mut other = two_rows();
        other.count("hold", "0");
        tally.add(&other);
        assert_eq!(tally.empty(), ["joined: yes"]);
        assert_eq!(tally.seen("joined"), [0, 1]);
    }

    #[test]
    #[should_panic(expected = "hold: 17 is no class")]
    fn a_class_that_was_not_declared_may_not_be_seen() {
        two_rows().count("hold", "17");
    }

    #[test]
    fn spans() {
        let spans = [(0, "none"), (1, "one"), (2, "more")];
        let names = [0, 1, 2, 900].map(|number| span(&spans, number));
        assert_eq!(names, ["none", "one", "more", "more"]);
    }
}
