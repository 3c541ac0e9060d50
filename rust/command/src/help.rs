//! What `kerb help` prints.

use std::ffi::OsStr;

/// The command of this name, and its help.
pub fn of(name: &OsStr) -> Option<(&'static str, &'static str)> {
    let commands = [
        ("list", LIST),
        ("why", WHY),
        ("groups", GROUPS),
        ("lamps", LAMPS),
        ("cell", CELL),
        ("mirror-table", MIRROR_TABLE),
        ("to-file", TO_FILE),
        ("to-text", TO_TEXT),
        ("help", ALL),
    ];
    commands.into_iter().find(|(command, _)| name == *command)
}

pub const ALL: &str = "\
kerb: ask a recording (a link file) what the panel saw as one thing, and why

  kerb list [FILE]                     what kerblist prints: the window, its groups, its links
  kerb why [FILE] ONE OTHER            the chain that joins two cells, and until when it does
  kerb groups [FILE]                   each group with all its cells, and until when it holds
  kerb lamps [FILE] --body LIST        which lamp is lit, by which cell; what keeps a dark one dark
  kerb cell N                          ring and sector of a cell, the unit's and the lorry's number
  kerb mirror-table                    all cells of a mirrored unit, and which of the lorry they are
  kerb to-file SETTINGS [TEXT]         a text list of links brought into a link file
  kerb to-text [FILE]                  a link file put out as a text list, with its settings
  kerb help [COMMAND]                  this page, or that of a command
  kerb --version

  --at TICK        why, groups, lamps: as it was when the counter first stood at that tick
  --total N        why, groups, lamps: as it was N ticks after T0, past the counter's end too
  --body LIST      lamps: the bodywork's cells, as 94-96,128; or a file that has them; or none
  --mounting M     cell, to-file: how the unit is fitted, 1 (plain) or 2 (mirrored)
  --n, --b, --t0   to-file: the other settings; all four are wanted
  -o FILE          to-file, to-text: the file to write, whole or not at all
  --json           list, why, groups, lamps, cell, mirror-table: the answer as one line of JSON

No FILE or TEXT, or -, is standard input. Cells are numbered as the lorry has them, in text lists
as the unit has them. Where the counter has passed its end, the total, the ticks since T0, stands
beside each tick.

Status: 0 done, or joined; 1 not joined; 2 refused, with the number and its meaning on standard
error; 3 wrong use, or a file that cannot be read or written.
";

const LIST: &str = "\
kerb list [FILE] [--json]

Plays the recording into a book and prints what kerblist prints, byte for byte: a line for the
window (n, B, mounting, open slide), one for each group of two cells or more (smallest cell, number
of cells, least hold), and the number of links in the window.

A recording that is refused prints its one line, as 'refused 4 2' or 'refused 9 file', says what the
number means on standard error, and ends with status 2. A record that links two cells that do not touch
is refused with number 14, and the two are told.
";

const WHY: &str = "\
kerb why [FILE] ONE OTHER [--at TICK | --total N] [--json]

Why two cells, in the lorry's numbers, count as one thing: the chain of cells from ONE to OTHER, each
with its ring and sector; for each link of the chain the newest slide that has it; L, the newest slide
from which on links tie the two; and until which tick they stay joined if nothing more is seen.

The unit's counter goes round: after 4294967295 comes 0. The book counts the total, the ticks since T0,
and a slide is a stretch of totals. An answer that tells of a moment past the counter's end has the
totals beside all its ticks. One without them tells of none: there the total is the tick less T0.

--at TICK plays only the records up to that tick and then moves the clock to it: the answer that the
panel would have had then. It is the first moment since T0 at which the counter stands at TICK.
--total N is the same for the total N, in any turn of the counter. Without either the answer is that at
the last record.

Status 0: joined. Status 1: nothing in the window ties them.
";

const GROUPS: &str = "\
kerb groups [FILE] [--at TICK | --total N] [--json]

Each group of two cells or more that links of the window tie together: all its cells, in the lorry's
numbers, its least hold, and until which tick all of them stay together if nothing more is seen.

--at TICK plays only the records up to that tick and then moves the clock to it; --total N the same for
the total, the ticks since T0. kerb help why has more on both.
";

const LAMPS: &str = "\
kerb lamps [FILE] --body LIST [--at TICK | --total N] [--json]

Which of the two lamps is lit, and why. The left lamp's zone is sectors 33 to 63, the right one's sectors
1 to 31, both in rings 0 to 5. A lamp is lit where its zone has a cell that is an end of a link of the
window and that is joined with no cell of the lorry's own bodywork.

Of a lit lamp the smallest such cell is told, with its ring and sector. Of a dark one the linked cells of
its zone, those that are bodywork and those that are tied to it; for the smallest that is tied the chain
to the bodywork, as kerb why tells it; and when the lamp comes on if nothing more is seen. Where several
cells of the bodywork are joined with it, the chain is the one that ties it for longest, of those the one
with the fewest links, of those the first by cell numbers.

LIST says which cells are bodywork, in the lorry's numbers: cells and ranges, as 94,95,96 or 64-70,128;
or none, where there is no bodywork; or else the name of a file that has such a list. In a file the cells
stand on any number of lines, parted by commas or blanks, and from # on a line is a remark; an empty file
says that there is no bodywork. - is standard input.

--at TICK plays only the records up to that tick and then moves the clock to it; --total N the same for
the total, the ticks since T0. kerb help why has more on both.

Status 0: told, whether lit or dark.
";

const CELL: &str = "\
kerb cell N [--mounting M] [--json]

Ring and sector of cell N; which cell of the lorry the unit's N is, and which of the unit the lorry's N
is. M is 1 (plain) or 2 (mirrored). No mounting is the default: without one both are told.

On a mirrored unit sector s of the unit is sector (64 - s) mod 64 of the lorry, in the same ring: 0, dead
ahead, and 32, dead astern, stay. Recordings hold the unit's numbers, so one from before 0.2.2, when the
rule was 63 - s, shows the corrected cells when it is played again.
";

const MIRROR_TABLE: &str = "\
kerb mirror-table [--json]

Prints all cells of a mirrored unit, a line each: the unit's number with its ring and sector, and the lorry's
number of that cell with its ring and sector. Each ring stands by itself, 64 lines under a heading.

Mirroring twice changes nothing, so the table can be read either way: where the unit's 1 is the lorry's 63,
the unit's 63 is the lorry's 1. A plain unit needs no table: its numbers are the lorry's.
";

const TO_FILE: &str = "\
kerb to-file --n N --b B --mounting M --t0 T [TEXT] [-o FILE]

Brings a text list into a link file, which goes to FILE or to standard output. Each line of the text is
a link: two cells, in the unit's numbers, and a tick, in decimal, one blank between, a line feed after
each. No sign, no leading zero, at most 8,000 lines.

The text does not have the settings, and none has a default: N slides of B ticks in the window, the
mounting M, 1 (plain) or 2 (mirrored), the first tick T. kerb to-text prints those of a link file.

A line that breaks the form is refused with number 13, its own number, counted from 0, and what is
wrong with it. FILE is written whole or not at all: on a refusal it stays as it was.
";

const TO_TEXT: &str = "\
kerb to-text [FILE] [-o TEXT]

Puts a link file out as a text list, which goes to TEXT or to standard output: of each record the two
cells, in the unit's numbers, and the tick. The settings go to standard error, as kerb to-file takes
them: with these the text gives the same file again.
";
