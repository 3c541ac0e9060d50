//! "The listing": what kerblist prints for a file.

use crate::book::{Book, History};
use crate::cells::CELLS;
use crate::file::{play, PlayRefused};
use crate::search::{CellSet, Linked};

/// The whole output of kerblist for the bytes on standard input.
pub fn listing(file: &[u8]) -> String {
    match play(file) {
        Ok(book) => lines_of(&book),
        Err(PlayRefused::File(refusal)) => format!("refused {} file\n", refusal.number()),
        Err(PlayRefused::Record(refusal, place)) => {
            format!("refused {} {}\n", refusal.number(), place)
        }
    }
}

fn lines_of(book: &Book) -> String {
    match &book.history {
        Some(history) => history.lines(),
        None => unreachable!("a played book was opened"),
    }
}

impl History {
    /// The window line, a line for each group, the links line.
    fn lines(&self) -> String {
        let settings = self.settings;
        let mut text = format!(
            "window {} {} {} {}\n",
            settings.n,
            settings.b,
            settings.mounting,
            self.open_slide()
        );
        for group in self.groups() {
            text += &format!(
                "group {} {} {}\n",
                smallest(&group),
                group.count(),
                self.least_hold(&group)
            );
        }
        text += &format!("links {}\n", self.window().len());
        text
    }

    /// The groups of two or more cells, by smallest cell.
    pub fn groups(&self) -> Vec<CellSet> {
        let linked = Linked::by(self.window());
        let mut listed = CellSet::EMPTY;
        let mut groups = Vec::new();
        for cell in 0..CELLS {
            if listed.contains(cell) {
                continue;
            }
            let group = linked.group_of(cell);
            if group.count() >= 2 {
                listed.insert_all(&group);
                groups.push(group);
            }
        }
        groups
    }

    /// The least hold over the group's pairs. Links of slides L to k that chain
    /// two cells are also there for every smaller L. So every pair has its own
    /// L at or above a given one exactly when links from that one on chain the
    /// whole group; the largest such is the least L over the pairs.
    pub fn least_hold(&self, group: &CellSet) -> u32 {
        let cell = smallest(group);
        let whole = |linked: &Linked| linked.group_of(cell) == *group;
        let (l, _) = self
            .largest_slide(whole)
            .expect("the links of the whole window chain the group");
        self.hold(l)
    }
}

fn smallest(group: &CellSet) -> u32 {
    group.cells().next().expect("a group has cells")
}
