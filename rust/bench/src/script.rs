//! A workload as it is written down, slide by slide. The oracle's book beside it says which cells are joined, so that chains can
//! be asked for where there are some.

use crate::workload::{Batch, Calls, Kind, Mask, Pair, Workload};
use kerb::{Mounting, Settings};
use oracle::{Book, LOG_PLACES};
use std::collections::VecDeque;
use streams::masks::mask_of;
use streams::touching::{path, touching_cell};
use streams::Dice;

/// Ticks of a slide.
const B: u32 = 100;
/// Chains asked for at a time, at most.
const CHAINS: usize = 8;
/// How often the lamps are asked for by each of two masks.
const LAMPS: usize = 4;

pub struct Script {
    pub workload: Workload,
    pub dice: Dice,
    book: Book,
    /// The links of the window's slides, the oldest slide first.
    window: VecDeque<Vec<Pair>>,
}

impl Script {
    pub fn opened(name: String, n: u8) -> Script {
        let settings = Settings {
            t0: 0,
            b: B,
            n,
            mounting: Mounting::Plain,
        };
        let mut book = Book::new();
        book.opening(for_oracle(settings), LOG_PLACES)
            .expect("good settings");
        Script {
            workload: Workload {
                name,
                settings,
                batches: Vec::new(),
            },
            dice: Dice::new(u64::from(n)),
            book,
            window: VecDeque::new(),
        }
    }

    fn push(&mut self, calls: Calls, kind: Option<Kind>) {
        self.workload.batches.push(Batch { calls, kind });
    }

    /// The next slide, opened by a clock call, and its links.
    pub fn slide(&mut self, slide: u32, links: Vec<Pair>, timed: bool) {
        let n = u32::from(self.workload.settings.n);
        let tick = slide * B;
        for &(one, other) in &links {
            self.book
                .link(tick, u32::from(one), u32::from(other), LOG_PLACES)
                .expect("a link that is taken");
        }
        self.window.push_back(links.clone());
        if self.window.len() > n as usize {
            self.window.pop_front();
        }
        let ends_chunk = timed && slide % n == 0;
        self.push(Calls::Clock(tick), ends_chunk.then_some(Kind::ChunkEnd));
        self.push(Calls::Links(tick, links), timed.then_some(Kind::Link));
    }

    /// Links over so many slides, as evenly as can be, not timed.
    pub fn spread(&mut self, first_slide: u32, slides: u32, links: &[Pair]) {
        let share = links.len().div_ceil(slides as usize);
        for (slide, some) in (first_slide..).zip(links.chunks(share)) {
            self.slide(slide, some.to_vec(), false);
        }
    }

    /// Asks whether the pairs are joined, and for the chains of some that are; where none are, for that of a link. Then for the lamps.
    pub fn ask(&mut self, pairs: Vec<Pair>) {
        let chained = |&(one, other): &Pair| {
            let answer = self.book.joined(u32::from(one), u32::from(other));
            one != other && answer.is_ok_and(|answer| answer.joined)
        };
        let mut chains: Vec<Pair> = pairs.iter().copied().filter(chained).take(CHAINS).collect();
        if chains.is_empty() {
            chains.push(self.any_link());
        }
        self.push(Calls::Joined(pairs), Some(Kind::Joined));
        self.push(Calls::Chains(chains), Some(Kind::Chain));
        let masks = [self.some_things(), mask_of(&[]).into()];
        let masks = vec![masks; LAMPS].concat();
        self.push(Calls::Lamps(masks), Some(Kind::Lamps));
    }

    /// Every second thing of the window, from the first on, as the lorry's own bodywork.
    fn some_things(&self) -> Mask {
        let history = self.book.history.as_ref().expect("an opened book");
        let things = history.groups().into_iter().step_by(2);
        let cells: Vec<u32> = things.flat_map(|thing| thing.cells()).collect();
        mask_of(&cells).into()
    }

    /// Asks about two cells, both ways round, several times.
    pub fn ask_ends(&mut self, one: u16, other: u16) {
        for _ in 0..8 {
            self.ask([(one, other), (other, one)].repeat(4));
        }
    }

    pub fn any_pair(&mut self) -> Pair {
        (self.dice.cell() as u16, self.dice.cell() as u16)
    }

    pub fn touching_pair(&mut self) -> Pair {
        let one = self.dice.cell();
        (one as u16, touching_cell(&mut self.dice, one) as u16)
    }

    /// Two cells of links of the window.
    pub fn linked_pair(&mut self) -> Pair {
        (self.any_link().0, self.any_link().0)
    }

    fn any_link(&mut self) -> Pair {
        let slide = self.dice.below(self.window.len() as u64) as usize;
        self.dice.pick(&self.window[slide])
    }

    /// A path through all cells, each of which touches the next.
    pub fn path(&mut self) -> Vec<u16> {
        let cells = path(&mut self.dice);
        cells.into_iter().map(|cell| cell as u16).collect()
    }
}

pub fn for_oracle(settings: Settings) -> oracle::Settings {
    oracle::Settings {
        n: u32::from(settings.n),
        b: settings.b,
        mounting: u32::from(settings.mounting.number()),
        t0: settings.t0,
    }
}

/// Settings that were judged.
pub fn for_library(settings: oracle::Settings) -> Settings {
    Settings {
        t0: settings.t0,
        b: settings.b,
        n: settings.n as u8,
        mounting: Mounting::try_from(settings.mounting as u8).expect("a mounting"),
    }
}
