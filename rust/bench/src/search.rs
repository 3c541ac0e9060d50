//! Baseline (d): nothing is kept but the window's links, and each question is a search of them. For the chain a search from the first cell over
//! the newest slide's links, that goes on as each older slide's are added: the slide at which it meets the second cell is L, and nothing
//! older is looked at; then the fewest links, then the first by cell numbers. For the lamps a search from all body cells at once. It counts
//! no steps.

use crate::any_book::{chain_refused, joined_refused, lamps_by, lamps_refused, of_cells, AnyBook};
use crate::neighbours::Neighbours;
use crate::window::{are_cells, Link, Window, CELLS};
use kerb::calls::{ChainAnswer, JoinedAnswer, LampsAnswer};
use kerb::Settings;

pub struct Search {
    window: Window,
    /// Of the links that were asked about last: the memory is kept from question to question.
    neighbours: Neighbours,
}

impl Search {
    /// L: links from it on chain the two, those from the next slide on do not. They are then listed, and no others.
    fn newest(&mut self, one: u16, other: u16) -> Option<u64> {
        self.neighbours.clear();
        let mut met = [false; CELLS];
        let mut reached = vec![one];
        let mut links = self.window.links().rev().peekable();
        while let Some(&&Link { slide, .. }) = links.peek() {
            while let Some(link) = links.next_if(|link| link.slide == slide) {
                self.neighbours.add(link.one, link.other);
                match (met[usize::from(link.one)], met[usize::from(link.other)]) {
                    (true, false) => reached.push(link.other),
                    (false, true) => reached.push(link.one),
                    _ => (),
                }
            }
            self.spread(&mut met, &mut reached);
            if met[usize::from(other)] {
                return Some(slide);
            }
        }
        None
    }

    /// Lists all links of the window.
    fn list(&mut self) {
        self.neighbours.clear();
        for link in self.window.links() {
            self.neighbours.add(link.one, link.other);
        }
    }

    /// Goes on from cells that were just reached, as far as it can.
    fn spread(&self, met: &mut [bool; CELLS], reached: &mut Vec<u16>) {
        while let Some(cell) = reached.pop() {
            if !std::mem::replace(&mut met[usize::from(cell)], true) {
                let neighbours = self.neighbours.of(cell);
                reached.extend(neighbours.filter(|&next| !met[usize::from(next)]));
            }
        }
    }
}

impl AnyBook for Search {
    const COUNTS_STEPS: bool = false;
    const FINDS_CHAINS: bool = true;

    fn opened(settings: Settings) -> Search {
        Search {
            window: Window::opened(settings),
            neighbours: Neighbours::none(),
        }
    }

    fn link(&mut self, tick: u32, one: u16, other: u16) -> u8 {
        match self.window.judge_link(tick, one, other) {
            Err(number) => number,
            Ok(total) => {
                self.window.move_to(tick, total);
                self.window.store(one, other);
                0
            }
        }
    }

    fn clock(&mut self, tick: u32) -> u8 {
        match self.window.judge_clock(tick) {
            Err(number) => number,
            Ok(total) => {
                self.window.move_to(tick, total);
                0
            }
        }
    }

    fn joined(&mut self, one: u16, other: u16) -> JoinedAnswer {
        if !are_cells(one, other) {
            return joined_refused(3);
        }
        self.list();
        let far = self.neighbours.search(one, other);
        JoinedAnswer {
            number: 0,
            yes: far[usize::from(other)] != 0,
            steps: 0,
        }
    }

    fn chain(&mut self, one: u16, other: u16, lent: &mut [u16]) -> ChainAnswer {
        if lent.len() < CELLS {
            return chain_refused(6);
        }
        if !are_cells(one, other) {
            return chain_refused(3);
        }
        let (open, n) = (self.window.open_slide(), self.window.n());
        if one == other {
            lent[0] = one;
            return ChainAnswer {
                newest: open + 1,
                cells: 1,
                hold: n as u8,
                number: 0,
            };
        }
        match self.newest(one, other) {
            None => chain_refused(7),
            Some(newest) => ChainAnswer {
                newest,
                cells: self.neighbours.write_chain(one, other, lent),
                hold: (newest + n - 1 - open) as u8,
                number: 0,
            },
        }
    }

    fn lamps(&mut self, mask: &[u8]) -> LampsAnswer {
        let Some(body) = of_cells(mask) else {
            return lamps_refused(15);
        };
        self.list();
        let mut dark = [false; CELLS];
        let mut reached: Vec<u16> = (0..CELLS as u16)
            .filter(|&cell| body[usize::from(cell)] == 1)
            .collect();
        self.spread(&mut dark, &mut reached);
        lamps_by(|cell| self.neighbours.has_any(cell) && !dark[usize::from(cell)])
    }
}
