//! The stack of each call of the library, where it uses most. A call's arguments and answer count, as the wrapper passes them.

use crate::any_book::AnyBook;
use crate::library::Library;
use crate::scenes::{deep_crossing, dense, file, long_chain};
use crate::stack::used;
use crate::workload::{Calls, Pair, Workload};
use kerb::{LorryCell, Mounting, RawBook, Settings, UnitCell};
use kerb::{CHAIN_PLACES, LISTING_BYTES, LOG_PLACES, TEXT_BYTES};
use oracle::{LONGEST_FILE, MOST_RECORDS, TAIL_BYTES};
use std::hint::black_box;

/// A call, and the bytes of stack that it used.
pub type Stack = (&'static str, usize);

pub fn measured() -> Vec<Stack> {
    let mut stacks = Vec::new();
    changes(&mut stacks);
    questions(&mut stacks);
    files(&mut stacks);
    stacks
}

fn changes(stacks: &mut Vec<Stack>) {
    let settings = Settings {
        t0: 0,
        b: 1,
        n: 2,
        mounting: Mounting::Mirrored,
    };
    let mut book = Box::new(RawBook::never_opened());
    let mut log = vec![0; LOG_PLACES];
    let never_opened = used(|| *book = RawBook::never_opened());
    stacks.push(("never_opened", never_opened));
    let opening = used(|| book.opening(&mut log, settings).expect("good settings"));
    stacks.push(("opening", opening));
    let link_at =
        |book: &mut RawBook, log: &mut [u16], tick| book.link(log, tick, UnitCell(1), UnitCell(2));
    let link = used(|| link_at(&mut book, &mut log, 1).expect("a good link"));
    stacks.push(("link", link));
    let link = used(|| link_at(&mut book, &mut log, 2).expect("a good link"));
    stacks.push(("link into the next chunk", link));
    let clock = used(|| book.clock(&log, 3).expect("a good tick"));
    stacks.push(("clock", clock));
    let clock = used(|| book.clock(&log, 4).expect("a good tick"));
    stacks.push(("clock over a chunk's end", clock));
}

fn questions(stacks: &mut Vec<Stack>) {
    let (mut library, (one, other)) = played(&dense(16, 256));
    stacks.push((
        "joined, one forest decides",
        joined(&mut library, one, other),
    ));
    let (mut library, (one, other)) = played(&deep_crossing(1024));
    stacks.push((
        "joined, the deepest crossing",
        joined(&mut library, one, other),
    ));
    let (mut library, (one, other)) = played(&long_chain(1024));
    let mut lent = vec![0; CHAIN_PLACES];
    let chain = used(|| {
        black_box(library.chain(one, other, &mut lent));
    });
    stacks.push(("chain of 1,023 links", chain));
    let (mut library, _) = played(&dense(16, 256));
    stacks.push(("groups", groups(&library)));
    let mask = [0; kerb::CELLS];
    let lamps = used(|| {
        black_box(library.lamps(&mask));
    });
    stacks.push(("lamps", lamps));
}

fn groups(library: &Library) -> usize {
    let (mut first, mut size) = (vec![0; kerb::CELLS], vec![0; kerb::CELLS]);
    let mut hold = vec![0; kerb::CELLS];
    used(|| {
        let groups = library
            .0
            .raw()
            .groups(library.0.log(), &mut first, &mut size, &mut hold);
        black_box(groups.expect("a good book"));
    })
}

fn joined(library: &mut Library, one: u16, other: u16) -> usize {
    used(|| {
        black_box(library.joined(one, other));
    })
}

/// The library after a workload, and the first pair that was asked about last.
fn played(workload: &Workload) -> (Box<Library>, Pair) {
    let mut library = Box::new(Library::opened(workload.settings));
    let mut asked = (0, 0);
    for batch in &workload.batches {
        match &batch.calls {
            Calls::Clock(tick) => {
                library.clock(*tick);
            }
            Calls::Links(tick, pairs) => {
                for &(one, other) in pairs {
                    library.link(*tick, one, other);
                }
            }
            Calls::Joined(pairs) => asked = pairs[0],
            Calls::Chains(_) | Calls::Lamps(_) => {}
        }
    }
    (library, asked)
}

fn files(stacks: &mut Vec<Stack>) {
    let file = file(&dense(16, 250), MOST_RECORDS);
    let mut out = vec![0; LONGEST_FILE];
    let mut read = None;
    let reading = used(|| read = kerb::read(&file).ok());
    stacks.push(("read", reading));
    let (settings, _) = read.expect("a good file");
    let records = &file[..file.len() - TAIL_BYTES];
    let writing = used(|| kerb::write(settings, records, &mut out).expect("a good file"));
    stacks.push(("write", writing));
    let mut text = vec![0; LISTING_BYTES];
    let listing = used(|| {
        kerb::list(&file, &mut text).expect("a long enough output");
    });
    stacks.push(("list, 8,000 records", listing));
    let mut text = vec![0; TEXT_BYTES];
    let mut length = 0;
    let putting_out = used(|| length = kerb::text_out(&file, &mut text).expect("a good file"));
    let text = &text[..length];
    let bringing_in = used(|| {
        kerb::text_in(settings, text, &mut out).expect("a good text");
    });
    stacks.push(("text in, 8,000 lines", bringing_in));
    stacks.push(("text out, 8,000 records", putting_out));
    let mut book = kerb::Book::open(settings).expect("good settings");
    let playing = used(|| {
        book.play(&file).expect("a good file");
    });
    stacks.push(("play, 8,000 records", playing));
    let small = used(|| {
        black_box(kerb::pack(black_box(1), UnitCell(2), UnitCell(3)));
        black_box(kerb::unpack(&file, black_box(7)).expect("a record"));
        black_box((book.time(), book.open_slide()));
        black_box(book.slide_ticks(black_box(2)));
    });
    stacks.push(("pack, unpack, time, open slide, slide ticks", small));
    let cells = used(|| {
        black_box(UnitCell(black_box(5)).to_lorry(Mounting::Mirrored));
        black_box(LorryCell(black_box(5)).to_unit(Mounting::Mirrored));
    });
    stacks.push(("lorry_cell, unit_cell, mirrored", cells));
}
