//! What can stand in the way of an answer, in words, and the status that it ends with.

use crate::json::Json;
use kerb::{Refusal, UnitCell};
use std::fmt;
use std::io::{self, Write};

/// What a refusal is about.
#[derive(Clone, Debug)]
pub enum About {
    File,
    /// A record of the file, by its place from 0, and the cells that it links.
    Record(u32, [UnitCell; 2]),
    /// The tick of `--at`.
    Tick(u32),
    /// A cell or a setting of the command line.
    CommandLine,
    /// A text list, and what is wrong with it.
    Text(String),
    /// A line of a text list, by its number from 0, and what is wrong with it.
    Line(u64, String),
}

/// A number that the library gave, and what for.
#[derive(Debug)]
pub struct Refused {
    pub refusal: Refusal,
    pub about: About,
}

impl Refused {
    /// A refusal of this.
    pub fn of(about: About) -> impl Fn(Refusal) -> Refused {
        move |refusal| Refused {
            refusal,
            about: about.clone(),
        }
    }

    pub fn json(&self) -> Json {
        let mut fields = vec![("refused", Json::from(self.refusal.number()))];
        match self.about {
            About::Record(place, _) => fields.push(("record", Json::from(place))),
            About::Tick(tick) => fields.push(("tick", Json::from(tick))),
            _ => (),
        }
        if let Some([one, other]) = self.cells_apart() {
            fields.push(("one", Json::from(one.0)));
            fields.push(("other", Json::from(other.0)));
        }
        fields.push(("meaning", Json::Text(self.refusal.meaning())));
        Json::Object(fields)
    }

    /// The cells of a record that is refused because they do not touch.
    fn cells_apart(&self) -> Option<[UnitCell; 2]> {
        match self.about {
            About::Record(_, cells) if self.refusal == Refusal::Apart => Some(cells),
            _ => None,
        }
    }
}

impl fmt::Display for Refused {
    fn fmt(&self, f: &mut fmt::Formatter) -> fmt::Result {
        write!(f, "refused {} ", self.refusal.number())?;
        let meaning = self.refusal.meaning();
        match &self.about {
            About::File => write!(f, "in the file: {meaning}"),
            About::Record(place, _) => write!(f, "at record {place}: {meaning}"),
            About::Tick(tick) => write!(f, "at tick {tick}: {meaning}"),
            About::CommandLine => write!(f, "on the command line: {meaning}"),
            About::Text(fault) => write!(f, "in the text: {fault}"),
            About::Line(line, fault) => write!(f, "at line {line} (counted from 0): {fault}"),
        }?;
        let Some([one, other]) = self.cells_apart() else {
            return Ok(());
        };
        let place = |of: UnitCell| format!("{} (ring {}, sector {})", of.0, of.ring(), of.sector());
        write!(f, ": the unit's {} and {}", place(one), place(other))
    }
}

/// Why there is no answer.
#[derive(Debug)]
pub enum Trouble {
    /// The command line is not one that the command takes.
    Use(String),
    /// The file, by its name, cannot be read.
    Unread(String, io::Error),
    /// The file, or standard output, cannot be written.
    Unwritten(String, io::Error),
    /// The library refused; what goes to standard output all the same.
    Refused(Refused, String),
}

impl Trouble {
    /// What stands on standard output nevertheless: of a refusal the listing's line, or its JSON.
    pub fn on_standard_output(&self) -> &str {
        match self {
            Trouble::Refused(_, text) => text,
            _ => "",
        }
    }

    /// Says it on standard error, and gives the status. Where standard error cannot be written either, the status is all there is.
    pub fn complain(&self) -> u8 {
        let _ = writeln!(io::stderr(), "{self}");
        match self {
            Trouble::Refused(..) => 2,
            _ => 3,
        }
    }
}

impl fmt::Display for Trouble {
    fn fmt(&self, f: &mut fmt::Formatter) -> fmt::Result {
        match self {
            Trouble::Use(what) => write!(f, "kerb: {what}"),
            Trouble::Unread(name, error) => write!(f, "kerb: {name} cannot be read: {error}"),
            Trouble::Unwritten(name, error) => write!(f, "kerb: {name} cannot be written: {error}"),
            Trouble::Refused(refused, _) => write!(f, "{refused}"),
        }
    }
}
