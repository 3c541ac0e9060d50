//! The listing: a file is played into a book, and the groups are read off the window's links, newest first. Number 1 is asked at no
//! record: what calls since an opening leave never earns it.

use super::forest::CELLS;
use super::scratch::{Scratch, United};
use super::Peer;
use crate::any_book::AnyBook;
use crate::script::for_library;
use oracle::{record, Record};
use std::io::Write;

/// What kerblist prints for a file of which every record is taken, at the front of the output; gives its length.
pub fn list(file: &[u8], out: &mut [u8]) -> usize {
    let head = oracle::read(file).expect("a good file");
    let settings = for_library(head.settings);
    let mut book = Peer::<false, true>::opened(settings);
    for place in 0..head.m as usize {
        let Record { tick, a, b } = record(file, place);
        assert_eq!(book.link(tick, a, b), 0, "a good record");
    }
    let room = out.len();
    let mut rest = out;
    book.write_listing(&mut rest).expect("a long enough output");
    room - rest.len()
}

impl Peer<false, true> {
    fn write_listing(&self, out: &mut impl Write) -> std::io::Result<()> {
        let open = self.open_slide();
        let (n, b) = (self.clock.n, self.clock.b);
        writeln!(out, "window {n} {b} {} {open}", self.mounting)?;
        let mut groups = Groups::fresh();
        let mut count = 0;
        for (hold, slide) in (0..n).rev().zip(self.window_slides()) {
            for (one, other) in self.links(slide) {
                groups.unite(one, other, hold);
                count += 1;
            }
        }
        groups.write(out)?;
        writeln!(out, "links {count}")
    }
}

/// Groups of cells, of each root how many cells its group has, and the hold of the last link that united it, which is its least.
struct Groups {
    scratch: Scratch,
    cells: [u16; CELLS],
    least_hold: [u8; CELLS],
}

impl Groups {
    fn fresh() -> Groups {
        Groups {
            scratch: Scratch::fresh(),
            cells: [1; CELLS],
            least_hold: [0; CELLS],
        }
    }

    fn unite(&mut self, one: u16, other: u16, hold: u8) {
        if let Some(United { child, top }) = self.scratch.unite(one, other) {
            self.cells[usize::from(top)] += self.cells[usize::from(child)];
            self.least_hold[usize::from(top)] = hold;
        }
    }

    fn write(&mut self, out: &mut impl Write) -> std::io::Result<()> {
        for cell in 0..CELLS {
            let cells = self.cells[cell];
            if cells > 1 && usize::from(self.scratch.root(cell as u16)) == cell {
                writeln!(out, "group {cell} {cells} {}", self.least_hold[cell])?;
            }
        }
        Ok(())
    }
}
