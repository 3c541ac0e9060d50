//! The answers in words.

use crate::body;
use crate::lamps::{Lamp, Side, Tied};
use crate::recording::{Groups, Moment, Recording, Why};
use kerb::{LorryCell, Mounting, Settings, SlideTicks, UnitCell};
use std::io::Write;

pub fn version() -> String {
    let (command, library) = (env!("CARGO_PKG_VERSION"), kerb::calls::version());
    format!("kerb {command}, with version {library} of the library\n")
}

/// Says something beside the answer, on standard error, where that can be written.
pub fn aside(text: &str) {
    let _ = write!(std::io::stderr(), "{text}");
}

/// Somebody who forgot the file name would otherwise wait for ever.
pub fn reading_a_terminal(what: &str) {
    aside(&format!(
        "kerb: reading {what} from the terminal; kerb help says how to name a file\n"
    ));
}

/// The settings as `kerb to-file` takes them.
pub fn settings(settings: Settings) -> String {
    let Settings { t0, b, n, mounting } = settings;
    let mounting = mounting.number();
    format!("settings: --n {n} --b {b} --mounting {mounting} --t0 {t0}\n")
}

pub fn why(
    recording: &Recording,
    (one, other): (LorryCell, LorryCell),
    why: Option<&Why>,
) -> String {
    let until = why.and_then(|why| why.until);
    let told = Told::of(recording, until);
    let now = told.moment(recording.now());
    let Some(why) = why else {
        let (one, other, window) = (one.0, other.0, window(recording));
        return format!(
            "Cells {one} and {other} are not joined {now}: nothing in the {window}, ties them.\n"
        );
    };
    if one == other {
        let until = told.until(why.until);
        return format!("Cell {} is joined with itself, {until}.\n", one.0);
    }
    let (one, other, chain) = (one.0, other.0, chain(why, told));
    format!("Cells {one} and {other} are joined {now}, by this chain:\n\n{chain}")
}

/// The chain of two different cells, and for how long it ties them.
fn chain(why: &Why, told: Told) -> String {
    let mut text = String::new();
    for link in &why.links {
        text += &format!("  {}\n", place(link.one));
        text += &format!(
            "      linked with cell {}, last {}\n",
            link.other.0,
            told.moment(link.last)
        );
    }
    text += &format!("  {}\n\n", place(why.ends().1));
    let (newest, ticks) = (why.newest, told.ticks(why.newest_ticks));
    text += &format!("L is slide {newest}, {ticks}: links from it on tie the two, and links from the next slide on do not.\n");
    text += &format!(
        "Hold {}: if nothing more is seen, they stay joined {}.\n",
        why.hold,
        told.until(why.until)
    );
    text
}

pub fn groups(recording: &Recording, groups: &Groups) -> String {
    let (found, links) = (
        counted(groups.groups.len(), "group"),
        counted(groups.links as usize, "link"),
    );
    let told = Told::of(recording, groups.groups.iter().map(|group| group.until));
    let (now, window) = (told.moment(recording.now()), window(recording));
    let mut text = format!("{found} {now}; {links} in the {window}.\n");
    for group in &groups.groups {
        let size = counted(group.cells.len(), "cell");
        text += &format!(
            "\n{size}, least hold {}: if nothing more is seen, all stay together {}\n",
            group.hold,
            told.until(Some(group.until))
        );
        text += &format!("  {}\n", numbers(&group.cells));
    }
    text
}

pub fn lamps(recording: &Recording, body: &[u8], lamps: &[Lamp; 2]) -> String {
    let tied = lamps.iter().filter_map(|lamp| match lamp {
        Lamp::Dark { tied, .. } => tied.as_deref(),
        Lamp::Lit(_) => None,
    });
    let moments = tied.flat_map(|tied| [tied.why.until, tied.lights.map(|(at, _)| at)]);
    let told = Told::of(recording, moments.flatten());
    let now = told.moment(recording.now());
    let bodywork = counted(body::cells(body).count(), "cell");
    let mut text = format!("The lamps {now}, with {bodywork} of bodywork:\n");
    for (side, lamp) in Side::BOTH.iter().zip(lamps) {
        text += &format!("\nThe {} lamp is {}", side.name(), state(lamp, told));
    }
    text
}

/// Lit or dark, and why.
fn state(lamp: &Lamp, told: Told) -> String {
    let (bodywork, tied) = match lamp {
        Lamp::Lit(cell) => return format!("lit, by {}.\n", place(*cell)),
        Lamp::Dark { bodywork, tied } => (bodywork, tied),
    };
    if bodywork.is_empty() && tied.is_none() {
        return "dark: no cell of its zone is linked.\n".to_string();
    }
    let mut text = "dark: each linked cell of its zone is bodywork or tied to it.\n".to_string();
    if !bodywork.is_empty() {
        let (count, cells) = (counted(bodywork.len(), "cell"), numbers(bodywork));
        text += &format!("  {count} of bodywork: {cells}\n");
    }
    let dark_by = tied.as_ref().map(|tied| keeps_dark(tied, told));
    text + &dark_by.unwrap_or_default()
}

/// What keeps a lamp dark, and until when.
fn keeps_dark(tied: &Tied, told: Told) -> String {
    let (count, cells) = (counted(tied.cells.len(), "cell"), numbers(&tied.cells));
    let (smallest, end) = tied.why.ends();
    let then = match tied.lights {
        Some((at, cell)) => format!("comes on {}, by {}", told.moment(at), place(cell)),
        None => "stays dark".to_string(),
    };
    format!(
        "  {count} tied to bodywork: {cells}\n\n\
         Cell {}, the smallest of these, is tied to cell {}, which is bodywork, by this chain:\n\n\
         {}\
         If nothing more is seen, the lamp {then}.\n",
        smallest.0,
        end.0,
        chain(&tied.why, told)
    )
}

fn numbers(cells: &[LorryCell]) -> String {
    let numbers: Vec<String> = cells.iter().map(|cell| cell.0.to_string()).collect();
    numbers.join(" ")
}

pub fn cell(number: u16, mountings: &[Mounting]) -> String {
    let mut text = format!("{}\n", place(LorryCell(number)));
    for &mounting in mountings {
        let to_lorry = UnitCell(number).to_lorry(mounting);
        let to_unit = LorryCell(number).to_unit(mounting);
        let (name, of_mounting) = (name(mounting), mounting.number());
        text += &format!(
            "mounting {of_mounting}, {name}: the unit's {number} is the lorry's {} (ring {}, sector {}); the lorry's {number} is the unit's {}\n",
            to_lorry.0,
            to_lorry.ring(),
            to_lorry.sector(),
            to_unit.0
        );
    }
    text
}

/// A line for each cell, and the rings apart, each under its own heading.
pub fn mirror_table(cells: &[(UnitCell, LorryCell)]) -> String {
    const HEADING: &str = "unit's cell  ring  sector  lorry's cell  ring  sector\n";
    let line = |&(unit, lorry): &(UnitCell, LorryCell)| {
        format!(
            "{:>11}{:>6}{:>8}{:>14}{:>6}{:>8}\n",
            unit.0,
            unit.ring(),
            unit.sector(),
            lorry.0,
            lorry.ring(),
            lorry.sector()
        )
    };
    let rings = cells.chunk_by(|(one, _), (next, _)| one.ring() == next.ring());
    let rings: Vec<String> = rings
        .map(|ring| HEADING.to_string() + &ring.iter().map(line).collect::<String>())
        .collect();
    rings.join("\n")
}

fn name(mounting: Mounting) -> &'static str {
    match mounting {
        Mounting::Plain => "plain",
        Mounting::Mirrored => "mirrored",
    }
}

pub fn counted(number: usize, of: &str) -> String {
    format!("{number} {of}{}", if number == 1 { "" } else { "s" })
}

fn window(recording: &Recording) -> String {
    let slides = counted(usize::from(recording.settings.n), "slide");
    format!("window, the last {slides}")
}

fn place(cell: LorryCell) -> String {
    format!(
        "cell {}: ring {}, sector {}",
        cell.0,
        cell.ring(),
        cell.sector()
    )
}

/// How the moments of an answer are told. Their ticks alone tell which comes first, as long as the counter does not pass its end
/// between T0 and the last of them. Where it does, all have their totals beside the ticks.
#[derive(Clone, Copy)]
struct Told {
    totals: bool,
}

impl Told {
    /// For an answer that tells of these moments and of now. Links that were seen, and the slide that L is, come before the last of them.
    fn of(recording: &Recording, moments: impl IntoIterator<Item = Moment>) -> Told {
        let t0 = u64::from(recording.settings.t0);
        let mut all = moments.into_iter().chain([recording.now()]);
        Told {
            totals: all.any(|at| t0 + at.total > u32::MAX.into()),
        }
    }

    fn moment(self, at: Moment) -> String {
        format!("at {}, in slide {}", self.tick(at), at.slide)
    }

    fn until(self, at: Option<Moment>) -> String {
        match at {
            Some(at) => format!("up to and including {}", self.tick(at)),
            None => "always".to_string(),
        }
    }

    fn tick(self, at: Moment) -> String {
        let Moment { tick, total, .. } = at;
        if self.totals {
            format!("tick {tick}, total {total}")
        } else {
            format!("tick {tick}")
        }
    }

    fn ticks(self, of: SlideTicks) -> String {
        let ticks = format!("ticks {} to {}", of.first, of.last);
        if self.totals {
            format!("{ticks}, totals {} to {}", of.first_total, of.last_total)
        } else {
            ticks
        }
    }
}
