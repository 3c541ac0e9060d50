//! Baseline (c): connected components of the window by union-find. `EACH_CHANGE` recomputes them for each change of the window;
//! its better sibling adds links as they come and rebuilds once a slide. It counts no steps and finds no chain.

use crate::any_book::{chain_refused, joined_refused, lamps_by, lamps_refused, of_cells, AnyBook};
use crate::window::{are_cells, Window, CELLS};
use kerb::calls::{ChainAnswer, JoinedAnswer, LampsAnswer};
use kerb::Settings;

/// Groups of cells; parents are shortened on the way.
struct Groups {
    parent: [u16; CELLS],
    size: [u16; CELLS],
}

impl Groups {
    fn fresh() -> Groups {
        let mut parent = [0; CELLS];
        for (cell, parent) in parent.iter_mut().enumerate() {
            *parent = cell as u16;
        }
        Groups {
            parent,
            size: [1; CELLS],
        }
    }

    fn of(window: &Window) -> Groups {
        let mut groups = Groups::fresh();
        for link in window.links() {
            groups.unite(link.one, link.other);
        }
        groups
    }

    fn root(&mut self, cell: u16) -> usize {
        let mut at = usize::from(cell);
        while usize::from(self.parent[at]) != at {
            let above = self.parent[at];
            self.parent[at] = self.parent[usize::from(above)];
            at = usize::from(self.parent[at]);
        }
        at
    }

    fn unite(&mut self, one: u16, other: u16) {
        let one = self.root(one);
        let other = self.root(other);
        if one == other {
            return;
        }
        let (child, top) = if self.size[one] < self.size[other] {
            (one, other)
        } else {
            (other, one)
        };
        self.parent[child] = top as u16;
        self.size[top] += self.size[child];
    }
}

pub struct Components<const EACH_CHANGE: bool> {
    window: Window,
    groups: Groups,
}

impl<const EACH_CHANGE: bool> AnyBook for Components<EACH_CHANGE> {
    const COUNTS_STEPS: bool = false;
    const FINDS_CHAINS: bool = false;

    fn opened(settings: Settings) -> Self {
        Components {
            window: Window::opened(settings),
            groups: Groups::fresh(),
        }
    }

    fn link(&mut self, tick: u32, one: u16, other: u16) -> u8 {
        let total = match self.window.judge_link(tick, one, other) {
            Ok(total) => total,
            Err(number) => return number,
        };
        let slid = self.window.move_to(tick, total);
        let link = self.window.store(one, other);
        if slid || EACH_CHANGE {
            self.groups = Groups::of(&self.window);
        } else {
            self.groups.unite(link.one, link.other);
        }
        0
    }

    fn clock(&mut self, tick: u32) -> u8 {
        let total = match self.window.judge_clock(tick) {
            Ok(total) => total,
            Err(number) => return number,
        };
        if self.window.move_to(tick, total) {
            self.groups = Groups::of(&self.window);
        }
        0
    }

    fn joined(&mut self, one: u16, other: u16) -> JoinedAnswer {
        if !are_cells(one, other) {
            return joined_refused(3);
        }
        JoinedAnswer {
            number: 0,
            yes: self.groups.root(one) == self.groups.root(other),
            steps: 0,
        }
    }

    fn chain(&mut self, _one: u16, _other: u16, _lent: &mut [u16]) -> ChainAnswer {
        chain_refused(7)
    }

    /// No link is of a cell with itself, so the ends of links are the cells of groups of two or more.
    fn lamps(&mut self, mask: &[u8]) -> LampsAnswer {
        let Some(body) = of_cells(mask) else {
            return lamps_refused(15);
        };
        let mut dark = [false; CELLS];
        for (cell, _) in (0..).zip(body).filter(|of| *of.1 == 1) {
            dark[self.groups.root(cell)] = true;
        }
        lamps_by(|cell| {
            let root = self.groups.root(cell);
            self.groups.size[root] > 1 && !dark[root]
        })
    }
}
