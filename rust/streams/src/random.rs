//! Random streams: history after history, each with its own settings, cells
//! and habits, with refused calls in between. Lamps are asked for between any two
//! calls and drawn by dice of their own, so that the other calls are what they would
//! be without them.

use crate::call::{ask, Call, MOST_LOG_PLACES};
use crate::dice::Dice;
use crate::hops::{ahead, back, huge_jump, FARTHEST_BACK, LONGEST_HOP};
use crate::masks::{draw_mask, window_of};
use crate::scene::Scene;
use oracle::{in_lorrys_numbers, Book, Refusal, Settings, CHAIN_PLACES, LOG_PLACES, TURN};

/// Which cells a random stream uses. Its links are of cells that touch and its
/// ticks within a hop of the book's time, but for the last three kinds: some of
/// their links or ticks are what they are named for, and refused.
#[derive(Clone, Copy, Debug, PartialEq, Eq)]
pub enum Kind {
    /// Patches of 4 to 40 cells.
    Few,
    /// All 1,024 cells.
    All,
    /// Cells around a few things that drift, as a lidar sees them.
    Touching,
    /// The first three in turn, by chance.
    Mixed,
    /// Mixed, and links of cells that do not touch.
    FarLinks,
    /// Mixed, and links of a cell with itself.
    SelfLinks,
    /// Mixed, and ticks beyond a hop.
    HugeJumps,
}

/// What one history is like.
#[derive(Clone, Debug)]
struct Habits {
    scene: Scene,
    /// One link or tick in so many is what the stream's kind is named for.
    strays: u64,
    /// Of 100 calls so many are questions.
    questions: u64,
    /// One link or clock call in so many moves the time.
    moves: u64,
    /// The time goes from slide to slide and jumps over none.
    creeps: bool,
    /// One argument in so many is spoilt; 0 for none.
    spoils: u64,
    /// One call in so many begins a burst of links at one tick; 0 for none.
    bursts: u64,
    /// Calls until the next opening.
    calls: u64,
}

/// One call in so many asks for the lamps.
const LAMPS: u64 = 16;

/// An endless random stream.
#[derive(Clone, Debug)]
pub struct Random {
    dice: Dice,
    /// For the lamps alone.
    lamps: Dice,
    kind: Kind,
    /// Follows the stream, so that times, full slides and jumps are aimed at
    /// what the book then is.
    book: Book,
    habits: Habits,
    /// Calls of this history still to come.
    left: u64,
    /// Links of the burst still to come.
    burst: u64,
    /// The total near a pass of the counter's end that the history starts with
    /// going to.
    leap: Option<u128>,
    /// The latest call that was no question found its slide full.
    full: bool,
    /// The latest links, in the unit's numbers, for repeats and questions.
    recent: Vec<(u32, u32)>,
}

/// Where the open history stands.
struct Now {
    settings: Settings,
    time: u32,
    total: u128,
}

impl Random {
    /// The stream of a seed. It starts with some calls to a book that was never
    /// opened.
    pub fn new(seed: u64, kind: Kind) -> Random {
        let mut dice = Dice::new(seed);
        let mut habits = draw_habits(&mut dice, kind);
        habits.bursts = 0;
        Random {
            left: dice.below(20),
            dice,
            lamps: Dice::new(!seed),
            kind,
            book: Book::new(),
            habits,
            burst: 0,
            leap: None,
            full: false,
            recent: Vec::new(),
        }
    }

    /// A book that was never opened refuses all, whatever is used in its place.
    fn now(&self) -> Now {
        match &self.book.history {
            Some(history) => Now {
                settings: history.settings,
                time: history.time,
                total: history.total,
            },
            None => Now {
                settings: Settings {
                    n: 4,
                    b: 10,
                    mounting: 1,
                    t0: 100,
                },
                time: 100,
                total: 0,
            },
        }
    }

    fn spoilt(&mut self) -> bool {
        self.habits.spoils > 0 && self.dice.one_in(self.habits.spoils)
    }

    /// Whether a link or a tick is what streams of this kind are named for.
    fn strays(&mut self, kind: Kind) -> bool {
        self.kind == kind && self.dice.one_in(self.habits.strays)
    }

    fn begin_history(&mut self) -> Call {
        self.habits = draw_habits(&mut self.dice, self.kind);
        self.left = self.habits.calls;
        self.recent.clear();
        let settings = draw_settings(&mut self.dice);
        self.leap = if self.dice.one_in(5) {
            Some(total_near_an_end(&mut self.dice, settings))
        } else {
            None
        };
        Call::Opening {
            settings,
            log_places: long_log(&mut self.dice),
        }
    }

    fn draw(&mut self) -> Call {
        if let Some(total) = self.leap {
            return self.leap_call(total);
        }
        if self.burst > 0 && !self.dice.one_in(4) {
            self.burst -= 1;
            return self.link_call();
        }
        if self.habits.bursts > 0 && self.dice.one_in(self.habits.bursts) {
            self.burst = self.dice.between(200, 300);
        }
        if self.dice.below(100) < self.habits.questions {
            return self.question();
        }
        match self.dice.below(20) {
            0 if self.habits.spoils > 0 => self.bad_opening(),
            0..=3 => self.clock_call(),
            _ => self.link_call(),
        }
    }

    /// A clock call far ahead, hop by hop to where the end is a few slides away.
    fn leap_call(&mut self, wanted: u128) -> Call {
        let now = self.now();
        let ticks = wanted - now.total;
        if ticks <= u128::from(LONGEST_HOP) {
            self.leap = None;
        }
        Call::Clock {
            tick: ahead(now.time, ticks),
            log_places: LOG_PLACES,
        }
    }

    fn clock_call(&mut self) -> Call {
        Call::Clock {
            tick: self.tick(),
            log_places: self.log_places(),
        }
    }

    fn link_call(&mut self) -> Call {
        let tick = self.tick();
        let (a, b) = self.link_cells();
        self.remember(a, b);
        Call::Link {
            tick,
            a: self.spoil_cell(a),
            b: self.spoil_cell(b),
            log_places: self.log_places(),
        }
    }

    fn question(&mut self) -> Call {
        let (first, second) = self.question_cells();
        let first = self.spoil_cell(first);
        let second = self.spoil_cell(second);
        if self.dice.one_in(2) {
            Call::Joined { first, second }
        } else {
            Call::Chain {
                first,
                second,
                log_places: self.log_places(),
                chain_places: self.chain_places(),
            }
        }
    }

    fn lamps_call(&mut self) -> Call {
        let dice = &mut self.lamps;
        Call::Lamps {
            log_places: if dice.one_in(20) {
                short_log(dice)
            } else {
                long_log(dice)
            },
            mask: draw_mask(dice, window_of(&self.book)),
        }
    }

    /// An opening that is refused, so that the old history goes on.
    fn bad_opening(&mut self) -> Call {
        let good = draw_settings(&mut self.dice);
        match self.dice.below(3) {
            0 => Call::Opening {
                settings: good,
                log_places: short_log(&mut self.dice),
            },
            1 => Call::Opening {
                settings: spoil_settings(&mut self.dice, good),
                log_places: short_log(&mut self.dice),
            },
            _ => Call::Opening {
                settings: spoil_settings(&mut self.dice, good),
                log_places: long_log(&mut self.dice),
            },
        }
    }

    /// Lets the stream's own book follow the call.
    fn follow(&mut self, call: &Call) {
        if call.is_question() {
            return;
        }
        let number = ask(&mut self.book, call).number();
        self.full = number == Refusal::SlideFull.number();
        if self.full && self.dice.one_in(10) {
            self.burst = 0;
        }
    }

    // Ticks.

    fn tick(&mut self) -> u32 {
        let time = self.now().time;
        if self.strays(Kind::HugeJumps) {
            huge_jump(&mut self.dice, time)
        } else if self.spoilt() {
            self.old_tick()
        } else if self.moves_on() {
            self.later_tick()
        } else {
            time
        }
    }

    /// Whether the time moves: by habit, and soon where a slide is full.
    fn moves_on(&mut self) -> bool {
        if self.full {
            self.dice.one_in(4)
        } else {
            self.burst == 0 && self.dice.one_in(self.habits.moves)
        }
    }

    /// A tick before the book's time: mostly the one before it, else that before T0
    /// or any that is not too far back.
    fn old_tick(&mut self) -> u32 {
        let Now { time, total, .. } = self.now();
        match self.dice.below(4) {
            0 => back(time, total + 1),
            1 => back(time, self.dice.between(1, FARTHEST_BACK.into()).into()),
            _ => back(time, 1),
        }
    }

    /// A later tick: by one, to the edges of slides and chunks, out of the
    /// window, over chunks, or as far as a hop goes. Where that is farther than a
    /// hop, a hop ahead.
    fn later_tick(&mut self) -> u32 {
        self.habits.scene.drift(&mut self.dice);
        let now = self.now();
        let n = u64::from(now.settings.n);
        let b = u128::from(now.settings.b);
        let k = now.settings.slide_of(now.total);
        let next_chunk = (k / n + 1) * n;
        let start_of = |slide: u64| u128::from(slide) * b;
        let ways = if self.habits.creeps { 8 } else { 15 };
        let total = match self.dice.below(ways) {
            0 | 1 => now.total + 1,
            2 => start_of(k + 1) - 1,
            3..=5 => start_of(k + 1),
            6 | 7 => start_of(k + 1) + u128::from(self.dice.below(now.settings.b.into())),
            8 => start_of(k + 1 + self.dice.below(n)),
            9 => start_of(next_chunk) - 1,
            10 => start_of(next_chunk),
            11 => start_of(k + n + self.dice.below(2)),
            12 => start_of(next_chunk + n - 1 + self.dice.below(3)),
            13 => start_of(next_chunk + n * self.dice.below(4) + self.dice.below(n)),
            _ if self.dice.one_in(4) => now.total + u128::from(LONGEST_HOP),
            _ => now.total + 1,
        };
        ahead(now.time, total - now.total)
    }

    // Cells.

    /// The ends of a link, in the unit's numbers.
    fn link_cells(&mut self) -> (u32, u32) {
        if !self.recent.is_empty() && self.dice.one_in(8) {
            let (a, b) = self.dice.pick(&self.recent);
            return if self.dice.one_in(2) { (a, b) } else { (b, a) };
        }
        let a = self.scene_cell();
        let b = if self.strays(Kind::SelfLinks) {
            a
        } else if self.strays(Kind::FarLinks) {
            self.habits.scene.far_from(&mut self.dice, a)
        } else {
            self.habits.scene.beside(&mut self.dice, a)
        };
        (self.mirror_for_unit(a), self.mirror_for_unit(b))
    }

    /// The cells of a question, in the lorry's numbers.
    fn question_cells(&mut self) -> (u32, u32) {
        let first = self.scene_cell();
        match self.dice.below(12) {
            0 => (first, first),
            1 | 2 if !self.recent.is_empty() => {
                let (a, b) = self.dice.pick(&self.recent);
                (self.mirror_for_unit(a), self.mirror_for_unit(b))
            }
            3 if !self.recent.is_empty() => {
                let (_, b) = self.dice.pick(&self.recent);
                (first, self.mirror_for_unit(b))
            }
            4 => (first, self.dice.cell()),
            _ => (first, self.scene_cell()),
        }
    }

    /// Mirroring twice changes nothing, so this goes both ways.
    fn mirror_for_unit(&self, cell: u32) -> u32 {
        in_lorrys_numbers(cell, self.now().settings.mounting)
    }

    fn scene_cell(&mut self) -> u32 {
        self.habits.scene.cell(&mut self.dice)
    }

    fn remember(&mut self, a: u32, b: u32) {
        if self.recent.len() == 8 {
            self.recent.remove(0);
        }
        self.recent.push((a, b));
    }

    fn spoil_cell(&mut self, cell: u32) -> u32 {
        if self.spoilt() {
            let any = self.dice.between(1024, 65_535) as u32;
            self.dice
                .pick(&[1024, 1024, 1025, cell + 1024, 2047, 32_768, 65_535, any])
        } else {
            cell
        }
    }

    // Buffers.

    fn log_places(&mut self) -> usize {
        if self.spoilt() {
            short_log(&mut self.dice)
        } else {
            long_log(&mut self.dice)
        }
    }

    fn chain_places(&mut self) -> usize {
        if self.spoilt() {
            let any = self.dice.below(CHAIN_PLACES as u64) as usize;
            self.dice.pick(&[0, 1, CHAIN_PLACES - 1, any])
        } else if self.dice.one_in(8) {
            CHAIN_PLACES + self.dice.between(1, 16) as usize
        } else {
            CHAIN_PLACES
        }
    }
}

impl Iterator for Random {
    type Item = Call;

    fn next(&mut self) -> Option<Call> {
        if self.lamps.one_in(LAMPS) {
            return Some(self.lamps_call());
        }
        let call = if self.left == 0 {
            self.begin_history()
        } else {
            self.left -= 1;
            self.draw()
        };
        self.follow(&call);
        Some(call)
    }
}

/// A log that is long enough, sometimes longer.
fn long_log(dice: &mut Dice) -> usize {
    if dice.one_in(8) {
        dice.between(LOG_PLACES as u64 + 1, MOST_LOG_PLACES as u64) as usize
    } else {
        LOG_PLACES
    }
}

fn short_log(dice: &mut Dice) -> usize {
    let any = dice.below(LOG_PLACES as u64) as usize;
    dice.pick(&[0, 1, LOG_PLACES / 2, LOG_PLACES - 1, any])
}

/// A total a few slides before the counter passes its end: mostly for the first time,
/// else later on.
fn total_near_an_end(dice: &mut Dice, settings: Settings) -> u128 {
    let turns = dice.pick(&[1, 1, 2, 3, 4]);
    let end = turns * TURN - u128::from(settings.t0);
    let few_slides = 3 * u64::from(settings.n) * u64::from(settings.b);
    end.saturating_sub(dice.below(few_slides + 1).into())
}

/// Settings that are taken: all n, both mountings, small and huge B, T0 near
/// either end of the range and between.
pub fn draw_settings(dice: &mut Dice) -> Settings {
    Settings {
        n: dice.between(1, 16) as u32,
        b: draw_b(dice),
        mounting: dice.between(1, 2) as u32,
        t0: draw_t0(dice),
    }
}

fn draw_b(dice: &mut Dice) -> u32 {
    match dice.below(16) {
        0..=3 => 1,
        4..=6 => dice.between(2, 12) as u32,
        7..=9 => dice.between(1, 1_000) as u32,
        10..=12 => dice.between(1_000, 100_000_000) as u32,
        13 => dice.between(1, u64::from(u32::MAX)) as u32,
        14 => 1 << dice.between(24, 31),
        _ => u32::MAX - dice.below(3) as u32,
    }
}

fn draw_t0(dice: &mut Dice) -> u32 {
    match dice.below(10) {
        0..=3 => 0,
        4 | 5 => dice.below(50) as u32,
        6 | 7 => dice.bits() as u32,
        8 => u32::MAX - dice.below(5_000) as u32,
        _ => u32::MAX - dice.below(3) as u32,
    }
}

/// Settings that are refused: one of n, B and mounting outside, or more.
pub(crate) fn spoil_settings(dice: &mut Dice, good: Settings) -> Settings {
    let mut bad = good;
    let spoil = dice.between(1, 7);
    if spoil & 1 != 0 {
        bad.n = dice.pick(&[0, 17, 18, 32, 255]);
    }
    if spoil & 2 != 0 {
        bad.b = 0;
    }
    if spoil & 4 != 0 {
        bad.mounting = dice.pick(&[0, 3, 4, 255]);
    }
    bad
}

fn draw_habits(dice: &mut Dice, kind: Kind) -> Habits {
    let kind = match kind {
        Kind::Few | Kind::All | Kind::Touching => kind,
        _ => dice.pick(&[Kind::Few, Kind::Few, Kind::All, Kind::Touching]),
    };
    let scene = match kind {
        Kind::All => Scene::All,
        Kind::Touching => Scene::things(dice),
        _ => Scene::few(dice),
    };
    let in_bursts = dice.one_in(if kind == Kind::All { 6 } else { 25 });
    let spoils = dice.pick(&[0, 100, 30, 10, 3]);
    Habits {
        scene,
        strays: dice.pick(&[2, 4, 10]),
        questions: dice.pick(&[20, 40, 60, 80]),
        moves: dice.pick(&[1, 3, 6, 12, 30, 60]),
        creeps: dice.one_in(3),
        spoils,
        bursts: if in_bursts { dice.between(20, 80) } else { 0 },
        calls: if spoils == 3 {
            dice.between(20, 100)
        } else if in_bursts {
            dice.between(500, 6_000)
        } else {
            dice.between(20, 600)
        },
    }
}
