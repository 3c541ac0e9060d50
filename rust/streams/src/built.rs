//! Built streams: the ends of the ranges that chance does not reach. Where a
//! stream needs many cells it takes them from a [`path`], on which each cell
//! touches the next.
//!
//! - [`deep_walks`]: 10 steps in a walk of either forest, 40 in all for a cell
//!   with itself and 38 for two different cells;
//! - [`zigzag`]: 1,023 groups crossed one after the other;
//! - [`long_chain`]: a chain of 1,023 links;
//! - [`grid`]: many chains with the fewest links;
//! - [`full_log`]: every slide of two chunks full;
//! - [`over_the_end`]: windows on both sides of the counter's end, the first time or a
//!   later one, in slides of 2^32 and more;
//! - [`longest_hops`]: as far as ticks go at once, over and over;
//! - [`far_links`], [`self_links`], [`huge_jumps`]: what no other stream has;
//! - [`zones`]: the ends of the lamps' zones;
//! - [`all`]: all of these for all n and both mountings, half of them with the
//!   counter's end among their slides.

use crate::call::{ask, Call};
use crate::dice::Dice;
use crate::hops::{ahead, back, FARTHEST_BACK, LONGEST_HOP};
use crate::masks::{draw_good_mask, mask_of, window_of};
use crate::touching::{far, patch, path, touching_cell, touching_cell_of};
use oracle::{
    in_lorrys_numbers, tick_after, touching_cells, Book, CellSet, History, Settings, CELLS,
    CHAIN_PLACES, LINKS_PER_SLIDE, LOG_PLACES, RINGS, SECTORS, TURN,
};

/// A link in the lorry's numbers.
type Pair = (u32, u32);

/// Calls written down one after the other, in slides and the lorry's numbers.
struct Script {
    settings: Settings,
    dice: Dice,
    /// For the masks alone, so that the other calls are what they would be without.
    mask_dice: Dice,
    /// Follows the calls, so that masks are drawn for what the window then is.
    book: Book,
    calls: Vec<Call>,
}

impl Script {
    fn opened(settings: Settings, seed: u64) -> Script {
        let mut script = Script {
            settings,
            dice: Dice::new(seed),
            mask_dice: Dice::new(!seed),
            book: Book::new(),
            calls: Vec::new(),
        };
        script.push(Call::Opening {
            settings,
            log_places: LOG_PLACES,
        });
        script
    }

    fn push(&mut self, call: Call) {
        if !call.is_question() {
            ask(&mut self.book, &call);
        }
        self.calls.push(call);
    }

    fn n(&self) -> u64 {
        u64::from(self.settings.n)
    }

    fn history(&self) -> &History {
        self.book.history.as_ref().expect("a script is opened")
    }

    fn time(&self) -> u32 {
        self.history().time
    }

    /// The first total of a slide.
    fn start(&self, slide: u64) -> u128 {
        u128::from(slide) * u128::from(self.settings.b)
    }

    /// The first tick of a slide.
    fn tick(&self, slide: u64) -> u32 {
        tick_after(self.settings.t0, self.start(slide))
    }

    fn clock(&mut self, slide: u64) {
        self.clock_at(self.tick(slide));
    }

    fn clock_at(&mut self, tick: u32) {
        self.push(Call::Clock {
            tick,
            log_places: LOG_PLACES,
        });
    }

    fn link(&mut self, slide: u64, pair: Pair) {
        self.link_at(self.tick(slide), pair);
    }

    fn link_at(&mut self, tick: u32, pair: Pair) {
        let mounting = self.settings.mounting;
        self.push(Call::Link {
            tick,
            a: in_lorrys_numbers(pair.0, mounting),
            b: in_lorrys_numbers(pair.1, mounting),
            log_places: LOG_PLACES,
        });
    }

    /// Clock calls to a total, hop by hop.
    fn hop_to(&mut self, total: u128) {
        while self.history().total < total {
            let before = self.history().total;
            self.clock_at(ahead(self.time(), total - before));
            assert!(self.history().total > before, "a hop is taken");
        }
    }

    /// A tick by a clock call and by a link, which the book refuses or takes.
    fn both_at(&mut self, tick: u32, pair: Pair) {
        self.clock_at(tick);
        self.link_at(tick, pair);
    }

    /// The links in their order over so many slides, as evenly as can be.
    fn links(&mut self, first_slide: u64, slides: u64, pairs: &[Pair]) {
        for (place, &pair) in pairs.iter().enumerate() {
            let slide = place as u64 * slides / pairs.len() as u64;
            self.link(first_slide + slide, pair);
        }
    }

    fn joined(&mut self, first: u32, second: u32) {
        self.push(Call::Joined { first, second });
    }

    fn chain(&mut self, first: u32, second: u32) {
        self.push(Call::Chain {
            first,
            second,
            log_places: LOG_PLACES,
            chain_places: CHAIN_PLACES,
        });
    }

    fn lamps(&mut self, mask: Vec<u8>) {
        self.push(Call::Lamps {
            log_places: LOG_PLACES,
            mask,
        });
    }

    /// The lamps by a mask for the window.
    fn lamps_by_a_mask(&mut self) {
        let mask = draw_good_mask(&mut self.mask_dice, window_of(&self.book));
        self.lamps(mask);
    }

    /// Both questions, both ways round.
    fn both_questions(&mut self, first: u32, second: u32) {
        self.joined(first, second);
        self.joined(second, first);
        self.chain(first, second);
        self.chain(second, first);
    }

    /// Questions about a cell and some others, and about the lamps.
    fn some_questions(&mut self, cell: u32, cells: &[u32], times: u64) {
        self.joined(cell, cell);
        self.chain(cell, cell);
        self.lamps_by_a_mask();
        for _ in 0..times {
            let other = self.dice.pick(cells);
            let another = self.dice.pick(cells);
            self.joined(cell, other);
            self.joined(other, another);
            self.chain(other, another);
        }
    }

    /// Closes slide after slide until the window is empty and asks on the way.
    fn run_out(&mut self, open_slide: u64, ends: Pair, cells: &[u32]) {
        for slide in open_slide + 1..=open_slide + self.n() + 1 {
            self.clock(slide);
            self.both_questions(ends.0, ends.1);
            self.some_questions(ends.0, cells, 4);
        }
    }
}

/// The most cells, a power of two, that links of so many slides can unite:
/// 2^j cells take 2^j - 1 links.
fn cells_for(slides: u64) -> usize {
    let links = slides as usize * LINKS_PER_SLIDE;
    let mut cells = 1;
    while 2 * cells <= CELLS as usize && 2 * cells - 1 <= links {
        cells *= 2;
    }
    cells
}

/// Links that unite equal sizes only: the cells of a path to pairs, pairs to
/// fours, and so on. Each uniting puts one more step before every cell of the
/// child's tree, so 2^j cells come to a walk of j steps. Which cells of two trees
/// the link names makes no difference to the forest; they are drawn from those
/// that touch, as the last of the one and the first of the other do.
fn unite_equal_sizes(cells: &[u32], dice: &mut Dice) -> Vec<Pair> {
    let mut pairs = Vec::new();
    let mut size = 1;
    while size < cells.len() {
        for two_trees in cells.chunks(2 * size) {
            let (left, right) = two_trees.split_at(size);
            pairs.push(dice.pick(&touching_pairs(left, right)));
        }
        size *= 2;
    }
    pairs
}

/// All two cells that touch, one of the left and one of the right.
fn touching_pairs(left: &[u32], right: &[u32]) -> Vec<Pair> {
    let mut to_the_right = CellSet::EMPTY;
    for &cell in right {
        to_the_right.insert(cell);
    }
    let mut pairs = Vec::new();
    for &one in left {
        let others = touching_cells(one);
        let others = others.filter(|&other| to_the_right.contains(other));
        pairs.extend(others.map(|other| (one, other)));
    }
    pairs
}

/// The cell with the longest walk in the tree of [`unite_equal_sizes`]. The
/// root of each tree is its smallest cell; of two equal trees the one with the
/// larger root becomes the child, so the longest walk lies there.
fn deepest(cells: &[u32]) -> u32 {
    if cells.len() == 1 {
        return cells[0];
    }
    let (left, right) = cells.split_at(cells.len() / 2);
    if left.iter().min() > right.iter().min() {
        deepest(left)
    } else {
        deepest(right)
    }
}

/// Trees as deep as links of the slides allow, in both forests: the last
/// `back` places of one chunk and the first `ahead` places of the next, all
/// within one window. With 4 and 4 slides (so n from 8 on) both forests unite
/// all 1,024 cells and the deepest cell, the same in both, walks 10 steps in
/// each: 40 with itself, and 38 with one that walks 9 and 9.
///
/// The backward forest scans the last arrival first, so its links arrive in
/// the opposite order.
pub fn deep_walks(settings: Settings, chunk: u64, back: u64, ahead: u64, seed: u64) -> Vec<Call> {
    let mut script = Script::opened(settings, seed);
    let n = script.n();
    assert!(chunk >= 1 && ahead >= 1 && back + ahead <= n);
    let cells = path(&mut script.dice);
    let start = chunk * n;

    if back > 0 {
        let behind = &cells[..cells_for(back)];
        let mut pairs = unite_equal_sizes(behind, &mut script.dice);
        pairs.reverse();
        script.links(start - back, back, &pairs);
        script.some_questions(deepest(behind), behind, 4);
        script.clock(start);
        script.some_questions(deepest(behind), behind, 4);
    }
    let before = &cells[..cells_for(ahead)];
    let pairs = unite_equal_sizes(before, &mut script.dice);
    script.links(start, ahead, &pairs);

    let deepest = deepest(before);
    if back == 4 && ahead == 4 {
        // The deepest cell of both forests, with itself and with all others.
        for cell in 0..CELLS {
            script.joined(deepest, cell);
        }
    }
    script.some_questions(deepest, before, 20);
    script.run_out(start + ahead - 1, (deepest, cells[0]), &cells);
    script.calls
}

/// A zigzag: cells 1 2, 3 4, 5 6, ... of a path linked in the last `back`
/// places of one chunk, 2 3, 4 5, ... in the first `ahead` places of the next.
/// From 2 and 2 slides on (n from 4 on) it runs through all 1,024 cells, by 512
/// groups of the backward forest and 511 of the forward forest.
pub fn zigzag(settings: Settings, chunk: u64, back: u64, ahead: u64, seed: u64) -> Vec<Call> {
    let mut script = Script::opened(settings, seed);
    let n = script.n();
    assert!(chunk >= 1 && back >= 1 && ahead >= 1 && back + ahead <= n);
    let room = LINKS_PER_SLIDE as u64 * back.min(ahead);
    let count = (2 * room as usize).min(CELLS as usize);
    let mut cells = path(&mut script.dice);
    let others = cells.split_off(count);
    let start = chunk * n;

    let mut behind: Vec<Pair> = cells.chunks_exact(2).map(|two| (two[0], two[1])).collect();
    let ahead_cells = &cells[1..];
    let mut before: Vec<Pair> = ahead_cells
        .chunks_exact(2)
        .map(|two| (two[1], two[0]))
        .collect();
    script.dice.shuffle(&mut behind);
    script.dice.shuffle(&mut before);
    script.links(start - back, back, &behind);
    script.clock(start);
    script.links(start, ahead, &before);

    let ends = (cells[0], cells[count - 1]);
    script.both_questions(ends.0, ends.1);
    script.both_questions(cells[count / 2], ends.1);
    if let Some(&other) = others.first() {
        script.both_questions(ends.0, other);
    }
    script.some_questions(ends.0, &cells, 30);
    script.run_out(start + ahead - 1, ends, &cells);
    script.calls
}

/// A path through all 1,024 cells, its 1,023 links in any order over the
/// window's n slides, which begin at `first_slide`. For n from 4 on.
pub fn long_chain(settings: Settings, first_slide: u64, seed: u64) -> Vec<Call> {
    let mut script = Script::opened(settings, seed);
    let n = script.n();
    assert!(n >= 4);
    let cells = path(&mut script.dice);
    let mut pairs: Vec<Pair> = cells.windows(2).map(|two| (two[0], two[1])).collect();
    script.dice.shuffle(&mut pairs);
    script.links(first_slide, n, &pairs);

    let ends = (cells[0], cells[cells.len() - 1]);
    script.both_questions(ends.0, ends.1);
    for _ in 0..20 {
        let first = script.dice.pick(&cells);
        let second = script.dice.pick(&cells);
        script.both_questions(first, second);
    }
    script.run_out(first_slide + n - 1, ends, &cells);
    script.calls
}

/// A grid of cells, all 16 rings and as many columns as the window has room for,
/// each cell linked with those beside and below it: between most cells there are
/// many chains with the fewest links, and only their cell numbers tell which
/// comes first.
pub fn grid(settings: Settings, first_slide: u64, seed: u64) -> Vec<Call> {
    let mut script = Script::opened(settings, seed);
    let n = script.n();
    let room = n as usize * LINKS_PER_SLIDE;
    let mut columns = SECTORS as usize;
    let rows = RINGS as usize;
    while rows * (columns - 1) + (rows - 1) * columns > room {
        columns -= 1;
    }
    let cells = draw_grid(&mut script.dice, columns);
    let mut pairs = Vec::new();
    for row in 0..rows {
        for column in 0..columns {
            if column + 1 < columns {
                pairs.push((cells[row][column], cells[row][column + 1]));
            }
            if row + 1 < rows {
                pairs.push((cells[row][column], cells[row + 1][column]));
            }
        }
    }
    script.dice.shuffle(&mut pairs);
    script.links(first_slide, n, &pairs);

    let used = cells.concat();
    let ends = (cells[0][0], cells[rows - 1][columns - 1]);
    script.both_questions(ends.0, ends.1);
    script.both_questions(cells[0][columns - 1], cells[rows - 1][0]);
    script.some_questions(ends.0, &used, 60);
    script.run_out(first_slide + n - 1, ends, &used);
    script.calls
}

/// The cells of a grid, a row in each ring. A row begins in any sector that keeps
/// it touching the row above, so that columns slant, and rows go on beyond sector
/// 63.
fn draw_grid(dice: &mut Dice, columns: usize) -> Vec<Vec<u32>> {
    let mut start = dice.below(u64::from(SECTORS)) as u32;
    let mut rows = Vec::new();
    for ring in 0..RINGS {
        start += dice.pick(&[SECTORS - 1, 0, 1]);
        let sectors = start..start + columns as u32;
        let cell = |sector| SECTORS * ring + sector % SECTORS;
        rows.push(sectors.map(cell).collect());
    }
    rows
}

/// Every slide of two chunks and of the beginning of a third full, and one
/// link more each time. The cells of a slide's links lie together, so that
/// groups stay apart for a while.
pub fn full_log(settings: Settings, seed: u64) -> Vec<Call> {
    let mut script = Script::opened(settings, seed);
    let cells: Vec<u32> = (0..CELLS).collect();
    let more = script.dice.between(1, script.n());
    for slide in 0..2 * script.n() + more {
        let middle = script.dice.cell();
        for _ in 0..LINKS_PER_SLIDE + 1 {
            let near = (middle + script.dice.below(100) as u32) % CELLS;
            let beside = touching_cell(&mut script.dice, near);
            script.link(slide, (near, beside));
        }
        script.some_questions(middle, &cells, 8);
        script.both_questions(middle, (middle + 50) % CELLS);
    }
    script.calls
}

/// The counter passes its end for the first time, the second or a later one: the time
/// hops to some slides before, and goes on slide by slide to some slides after it. In
/// each slide are links among a few cells, at its first tick, its last and between, and
/// at the ticks on either side of the end; then a tick that lies back, and questions.
/// With B 1 these are the slides round 2^32 or a multiple of it.
pub fn over_the_end(settings: Settings, times: u128, seed: u64) -> Vec<Call> {
    let mut script = Script::opened(settings, seed);
    let cells = draw_patch(&mut script.dice);
    let around = 3 * script.n();
    // Here the counter shows 0.
    let end = times * TURN - u128::from(settings.t0);
    let middle = settings.slide_of(end);
    script.hop_to(script.start(middle.saturating_sub(around)));
    for slide in middle.saturating_sub(around)..=middle + around {
        let (first, next) = (script.start(slide), script.start(slide + 1));
        let between = first + u128::from(script.dice.below(settings.b.into()));
        let mut totals = vec![first, between, next - 1];
        totals.extend(
            [end - 1, end]
                .iter()
                .filter(|of| (first..next).contains(of)),
        );
        totals.sort_unstable();
        for total in totals {
            script.hop_to(total);
            for _ in 0..script.dice.between(0, 2) {
                let pair = draw_pair(&mut script.dice, &cells);
                script.link_at(script.time(), pair);
            }
        }
        let any = script.dice.between(1, FARTHEST_BACK.into());
        let ticks = script
            .dice
            .pick(&[1, 1, u128::from(settings.b), any.into()]);
        let pair = draw_pair(&mut script.dice, &cells);
        script.both_at(back(script.time(), ticks), pair);
        script.some_questions(cells[0], &cells, 3);
    }
    script.calls
}

/// One longest hop after the other, by a clock call or by a link, and after each some
/// links there and a tick later. With B as long as a hop, each leads to the next slide
/// and a window goes round the counter several times; with B 1, each leads far out of
/// the window.
pub fn longest_hops(settings: Settings, seed: u64) -> Vec<Call> {
    let mut script = Script::opened(settings, seed);
    let cells = draw_patch(&mut script.dice);
    for _ in 0..2 * script.n() + 4 {
        let tick = ahead(script.time(), LONGEST_HOP.into());
        if script.dice.one_in(2) {
            script.clock_at(tick);
        }
        for later in [0, 0, 1] {
            let pair = draw_pair(&mut script.dice, &cells);
            script.link_at(tick.wrapping_add(later), pair);
        }
        script.some_questions(cells[0], &cells, 2);
    }
    script.calls
}

/// Two stretches of a path with links along each, and in each slide of a window a
/// link from one to the other, of cells that do not touch: it is refused.
pub fn far_links(settings: Settings, first_slide: u64, seed: u64) -> Vec<Call> {
    let mut script = Script::opened(settings, seed);
    let n = script.n();
    let cells = path(&mut script.dice);
    let (one, other) = (&cells[..20], &cells[500..520]);
    for slide in first_slide..first_slide + n {
        for stretch in [one, other] {
            for _ in 0..10 {
                let pair = draw_pair(&mut script.dice, stretch);
                script.link(slide, pair);
            }
        }
        let pair = draw_far_pair(&mut script.dice, one, other);
        script.link(slide, pair);
        script.both_questions(pair.0, pair.1);
        script.both_questions(one[0], other[0]);
        script.some_questions(one[0], one, 5);
    }
    script.run_out(first_slide + n - 1, (one[0], other[0]), &cells[..20]);
    script.calls
}

/// Links of cells with themselves between links of a patch, in each slide of a
/// window; they are refused, and do not count. In the last slide there are more of
/// them than a slide takes, and still it is not full.
pub fn self_links(settings: Settings, first_slide: u64, seed: u64) -> Vec<Call> {
    let mut script = Script::opened(settings, seed);
    let n = script.n();
    let cells = draw_patch(&mut script.dice);
    let last_slide = first_slide + n - 1;
    for slide in first_slide..=last_slide {
        for _ in 0..4 {
            let pair = draw_pair(&mut script.dice, &cells);
            script.link(slide, pair);
            let cell = script.dice.pick(&cells);
            script.link(slide, (cell, cell));
        }
        script.some_questions(cells[0], &cells, 5);
    }
    for _ in 0..=LINKS_PER_SLIDE {
        script.link(last_slide, (cells[0], cells[0]));
    }
    let pair = draw_pair(&mut script.dice, &cells);
    script.link(last_slide, pair);
    script.some_questions(cells[0], &cells, 5);
    script.run_out(last_slide, (cells[0], cells[9]), &cells);
    script.calls
}

/// Jumps of 2^31 ticks and more, which are refused, in slides of every length and from
/// T0 in every part of the counter.
pub fn huge_jumps(n: u32, mounting: u32, seed: u64) -> Vec<Call> {
    let mut dice = Dice::new(seed);
    let mut calls = Vec::new();
    for b in [1, 1_000, LONGEST_HOP, u32::MAX] {
        for t0 in [0, LONGEST_HOP, u32::MAX - 500, dice.bits() as u32] {
            let settings = Settings { n, b, mounting, t0 };
            calls.extend(jumps_and_hops(settings, dice.bits()));
        }
    }
    calls
}

/// Some links, then jumps by a clock call and by a link: by 2^31 ticks, as far as a tick
/// that lies back, between the two, and by 2^32 - 1, which is one tick back. All of them
/// change nothing. Then a hop that is one tick shorter than the shortest of them and is
/// taken, and all of it again.
fn jumps_and_hops(settings: Settings, seed: u64) -> Vec<Call> {
    let mut script = Script::opened(settings, seed);
    let cells = draw_patch(&mut script.dice);
    for _ in 0..3 {
        for _ in 0..5 {
            let pair = draw_pair(&mut script.dice, &cells);
            script.link_at(script.time(), pair);
        }
        let half_a_turn = LONGEST_HOP + 1;
        let last = FARTHEST_BACK.wrapping_neg() - 1;
        let between = script.dice.between(half_a_turn.into(), last.into()) as u32;
        for jump in [half_a_turn, between, last, u32::MAX] {
            let pair = draw_pair(&mut script.dice, &cells);
            script.both_at(script.time().wrapping_add(jump), pair);
            script.some_questions(cells[0], &cells, 1);
        }
        let tick = ahead(script.time(), LONGEST_HOP.into());
        if script.dice.one_in(2) {
            script.clock_at(tick);
        } else {
            let pair = draw_pair(&mut script.dice, &cells);
            script.link_at(tick, pair);
        }
        script.some_questions(cells[0], &cells, 2);
    }
    script.calls
}

/// The ends of the zones: sectors and rings next to where a zone begins or ends, each
/// cell in a history of its own.
pub fn zones(settings: Settings, slide: u64, seed: u64) -> Vec<Call> {
    let mut dice = Dice::new(seed);
    let mut calls = Vec::new();
    for ring in [0, 4, 5, 6] {
        for sector in [0, 1, 31, 32, 33, 63] {
            let cell = SECTORS * ring + sector;
            calls.extend(end_of_a_zone(settings, slide, cell, dice.bits()));
        }
    }
    calls
}

/// One link of a cell with one that touches it, and the lamps by every body that makes
/// a difference: none, either cell, all others, and again until the link is gone.
fn end_of_a_zone(settings: Settings, slide: u64, cell: u32, seed: u64) -> Vec<Call> {
    let mut script = Script::opened(settings, seed);
    let other = touching_cell(&mut script.dice, cell);
    let pair = script.dice.pick(&[(cell, other), (other, cell)]);
    script.link(slide, pair);
    script.both_questions(cell, other);
    let others = (0..CELLS).filter(|of| ![cell, other].contains(of));
    for body in [vec![], vec![cell], vec![other], others.collect()] {
        script.lamps(mask_of(&body));
    }
    for later in [script.n() - 1, script.n()] {
        script.clock(slide + later);
        script.lamps(mask_of(&[]));
        script.lamps(mask_of(&[cell]));
    }
    script.calls
}

/// 10 cells that hang together.
fn draw_patch(dice: &mut Dice) -> Vec<u32> {
    let first = dice.cell();
    patch(dice, first, 10)
}

/// Two cells of a patch that touch.
fn draw_pair(dice: &mut Dice, patch: &[u32]) -> Pair {
    let cell = dice.pick(patch);
    (cell, touching_cell_of(dice, patch, cell))
}

/// Two cells that do not touch, one of each stretch of a path.
fn draw_far_pair(dice: &mut Dice, one: &[u32], other: &[u32]) -> Pair {
    loop {
        let pair = (dice.pick(one), dice.pick(other));
        if far(pair.0, pair.1) {
            return pair;
        }
    }
}

/// Settings with T0 0, with any, or so that the counter passes its end in one of the
/// slides up to a given one.
fn draw_settings(dice: &mut Dice, n: u32, mounting: u32, last_slide: u64) -> Settings {
    let b = dice.between(1, 1_000) as u32;
    let any = dice.bits() as u32;
    let before_the_end = dice.between(1, (last_slide + 1) * u64::from(b)) as u32;
    let t0 = before_the_end.wrapping_neg();
    Settings {
        n,
        b,
        mounting,
        t0: dice.pick(&[0, any, t0, t0]),
    }
}

/// All built streams, each with a name, for all n and both mountings. Deep
/// walks and zigzags have every number of slides behind and ahead that makes a
/// difference, with one mounting or the other; the fullest have both.
pub fn all(seed: u64) -> Vec<(String, Vec<Call>)> {
    let mut dice = Dice::new(seed);
    let mut streams = Vec::new();
    let mut add = |n: u32, mounting: u32, what: &str, build: &dyn Fn(Site) -> Vec<Call>| {
        let chunk = dice.between(1, 5);
        let site = Site {
            settings: draw_settings(&mut dice, n, mounting, (chunk + 1) * u64::from(n)),
            chunk,
            seed: dice.bits(),
        };
        let name = format!("{} n {} mounting {}", what, n, mounting);
        streams.push((name, build(site)));
    };
    for n in 1..=16 {
        for (place, (back, ahead)) in splits(u64::from(n)).into_iter().enumerate() {
            let fullest = back == 4 && ahead == 4;
            for mounting in 1..=2 {
                if !fullest && (place as u32 + n + mounting) % 2 == 0 {
                    continue;
                }
                add(
                    n,
                    mounting,
                    &format!("deep walks {} {}", back, ahead),
                    &|at| deep_walks(at.settings, at.chunk, back, ahead, at.seed),
                );
                if back >= 1 {
                    add(n, mounting, &format!("zigzag {} {}", back, ahead), &|at| {
                        zigzag(at.settings, at.chunk, back, ahead, at.seed)
                    });
                }
            }
        }
        for mounting in 1..=2 {
            if n >= 4 {
                add(n, mounting, "long chain", &|at| {
                    long_chain(at.settings, at.any_slide(), at.seed)
                });
            }
            add(n, mounting, "grid", &|at| {
                grid(at.settings, at.any_slide(), at.seed)
            });
            add(n, mounting, "full log", &|at| {
                full_log(at.settings, at.seed)
            });
            for times in [1, 2, 5] {
                add(n, mounting, &format!("over the end {}", times), &|at| {
                    over_the_end(at.settings, times, at.seed)
                });
            }
            add(n, mounting, "over the end in slides of one tick", &|at| {
                let settings = Settings {
                    b: 1,
                    t0: 0,
                    ..at.settings
                };
                let mut calls = over_the_end(settings, 1, at.seed);
                calls.extend(over_the_end(settings, 3, !at.seed));
                calls
            });
            for b in [1, FARTHEST_BACK, LONGEST_HOP, u32::MAX] {
                add(n, mounting, &format!("longest hops {}", b), &|at| {
                    longest_hops(Settings { b, ..at.settings }, at.seed)
                });
            }
            add(n, mounting, "far links", &|at| {
                far_links(at.settings, at.any_slide(), at.seed)
            });
            add(n, mounting, "self links", &|at| {
                self_links(at.settings, at.any_slide(), at.seed)
            });
            add(n, mounting, "huge jumps", &|at| {
                huge_jumps(n, mounting, at.seed)
            });
        }
    }
    for n in 1..=16 {
        for mounting in 1..=2 {
            add(n, mounting, "zones", &|at| {
                zones(at.settings, at.any_slide(), at.seed)
            });
        }
    }
    streams
}

/// Where and with what a stream of [`all`] is built.
struct Site {
    settings: Settings,
    chunk: u64,
    seed: u64,
}

impl Site {
    /// A slide at any place, so that windows lie across chunks in every way.
    fn any_slide(&self) -> u64 {
        let n = u64::from(self.settings.n);
        self.chunk * n + self.seed % n
    }
}

/// Slides behind and ahead, up to 4 each, within one window of n slides. Three
/// slides unite no more equal sizes than two.
fn splits(n: u64) -> Vec<(u64, u64)> {
    let mut splits = Vec::new();
    for back in [0, 1, 2, 4] {
        for ahead in [1, 2, 4] {
            if back + ahead <= n {
                splits.push((back, ahead));
            }
        }
    }
    splits
}
