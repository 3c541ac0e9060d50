//! What docs/BOOK.md says that each call gives, for any book and log, written
//! again in Rust. What the document says of links and forests is the oracle's:
//! here it is put to whatever the fields and the log hold.

use super::order::disorder;
use crate::fields::{book_of, labels_of, log_place, narrow, settings_of, spot, HALF};
use crate::library::Told;
use crate::state::State;
use kerb::calls::{Clock, SlideAnswer};
use kerb::RawBook;
use oracle::{
    in_lorrys_numbers, is_cell, number, tick_after, touch, Chain, Forest, History, Joined, Lamps,
    Link, Linked, Refusal, Settings, LINKS_PER_SLIDE, LOG_PLACES, MOST_TOTAL,
};
use streams::{lamps_answer, lent_places, Answer, Call};

/// What a call to a book gives; the state becomes what it leaves.
pub fn ask(state: &mut State, call: &Call) -> Answer {
    match call {
        Call::Opening {
            settings,
            log_places,
        } => Answer::Number {
            number: number(&opening(state, *settings, *log_places)),
        },
        Call::Link {
            tick,
            a,
            b,
            log_places,
        } => Answer::Number {
            number: number(&link(state, *tick, [*a, *b], *log_places)),
        },
        Call::Clock { tick, log_places } => Answer::Number {
            number: number(&clock(state, *tick, *log_places)),
        },
        Call::Joined { first, second } => {
            let answer = joined(state, [*first, *second]);
            let fields = answer.unwrap_or_default();
            Answer::Joined {
                number: number(&answer),
                joined: fields.joined,
                steps: fields.steps,
            }
        }
        Call::Chain {
            first,
            second,
            log_places,
            chain_places,
        } => {
            let mut lent = lent_places(*chain_places);
            let answer = chain(state, [*first, *second], *log_places, &mut lent);
            let fields = answer.unwrap_or_default();
            Answer::Chain {
                number: number(&answer),
                l: fields.l,
                hold: fields.hold,
                cells: fields.cells,
                lent,
            }
        }
        Call::Lamps { log_places, mask } => lamps_answer(lamps(state, *log_places, mask)),
        Call::Read { .. }
        | Call::Write { .. }
        | Call::List { .. }
        | Call::TextIn { .. }
        | Call::TextOut { .. } => unreachable!("a call without a book"),
    }
}

// The calls, each with its checks in the order of the table.

/// Does not look at the book, and opens any.
fn opening(state: &mut State, settings: Settings, log_places: usize) -> Result<(), Refusal> {
    settings.check()?;
    log_is_long(log_places)?;
    state.book = empty_book(settings, 0);
    state.log[..LOG_PLACES].fill(0);
    Ok(())
}

fn link(state: &mut State, tick: u32, cells: [u32; 2], log_places: usize) -> Result<(), Refusal> {
    in_order(&state.book)?;
    log_is_long(log_places)?;
    are_cells(cells)?;
    refuse_if(!touch(cells[0], cells[1]), Refusal::Apart)?;
    let total = total_at(&state.book, tick)?;
    refuse_if(
        held(&state.book, total) >= LINKS_PER_SLIDE,
        Refusal::SlideFull,
    )?;
    move_time(state, total);
    let mounting = u32::from(state.book.fitting.mounting);
    store(state, cells.map(|cell| in_lorrys_numbers(cell, mounting)));
    Ok(())
}

fn clock(state: &mut State, tick: u32, log_places: usize) -> Result<(), Refusal> {
    in_order(&state.book)?;
    log_is_long(log_places)?;
    let total = total_at(&state.book, tick)?;
    move_time(state, total);
    Ok(())
}

/// By the parent steps of the two forests, the backward ones at the cut.
fn joined(state: &State, cells: [u32; 2]) -> Result<Joined, Refusal> {
    in_order(&state.book)?;
    are_cells(cells)?;
    let cut = open_place(&state.book) + 1;
    let (backward, forward) = (backward_forest(&state.book), forward_forest(&state.book));
    let walks = cells.map(|cell| backward.walk_at_cut(cell, cut).steps + forward.walk(cell).steps);
    let linked = Linked::by(&parent_steps(&state.book));
    Ok(Joined {
        joined: linked.group_of(cells[0]).contains(cells[1]),
        steps: walks.iter().sum(),
    })
}

/// By the log alone.
fn chain(
    state: &State,
    cells: [u32; 2],
    log_places: usize,
    lent: &mut [u16],
) -> Result<Chain, Refusal> {
    in_order(&state.book)?;
    logged_book(state).chain(cells[0], cells[1], log_places, lent)
}

/// By the log alone, as the chain.
fn lamps(state: &State, log_places: usize, mask: &[u8]) -> Result<Lamps, Refusal> {
    in_order(&state.book)?;
    logged_book(state).lamps(log_places, mask)
}

// The checks.

fn refuse_if(condition: bool, refusal: Refusal) -> Result<(), Refusal> {
    if condition {
        Err(refusal)
    } else {
        Ok(())
    }
}

fn in_order(book: &RawBook) -> Result<(), Refusal> {
    refuse_if(disorder(book).is_some(), Refusal::NeverOpened)
}

fn log_is_long(places: usize) -> Result<(), Refusal> {
    refuse_if(places < LOG_PLACES, Refusal::Buffer)
}

fn are_cells(cells: [u32; 2]) -> Result<(), Refusal> {
    refuse_if(!cells.iter().all(|&cell| is_cell(cell)), Refusal::Cell)
}

// The questions about the clock, as its numbers say, in order or not.

/// The time: so many ticks after T0 as the total says.
pub fn time(clock: &Clock) -> u32 {
    tick_after(clock.t0, clock.total.into())
}

/// The open slide; 0 for B 0.
fn open_slide(clock: &Clock) -> u64 {
    clock.total.checked_div(clock.b.into()).unwrap_or(0)
}

/// The two together.
pub fn told(book: &RawBook) -> Told {
    Told {
        time: time(&book.clock),
        open_slide: open_slide(&book.clock),
    }
}

/// The totals of a slide, as far as totals go, and the ticks at the first and at the
/// last of them; none for B 0, and where the slide begins beyond the last total.
pub fn slide_ticks(clock: &Clock, slide: u64) -> SlideAnswer {
    let b = u128::from(clock.b);
    let first = u128::from(slide) * b;
    if b == 0 || first > MOST_TOTAL {
        return SlideAnswer {
            first_total: 0,
            last_total: 0,
            first: 0,
            last: 0,
            exists: false,
        };
    }
    let last = (first + b - 1).min(MOST_TOTAL);
    SlideAnswer {
        first_total: first as u64,
        last_total: last as u64,
        first: tick_after(clock.t0, first),
        last: tick_after(clock.t0, last),
        exists: true,
    }
}

// Slides, chunks and places, by the fields. The book is in order.

/// The total that a tick makes, or number 4.
pub fn total_at(book: &RawBook, tick: u32) -> Result<u64, Refusal> {
    let history = History::at_total(settings_of(book), book.clock.total.into());
    Ok(history.total_at(tick)? as u64)
}

/// The chunk and the place of a total's slide.
pub fn chunk_and_place(book: &RawBook, total: u64) -> (u64, u64) {
    let slide = settings_of(book).slide_of(total.into());
    let n = u64::from(book.clock.n);
    (slide / n, slide % n)
}

/// The open chunk.
pub fn open_chunk(book: &RawBook) -> u64 {
    chunk_and_place(book, book.clock.total).0
}

/// The place of the open slide.
pub fn open_place(book: &RawBook) -> u64 {
    chunk_and_place(book, book.clock.total).1
}

/// How many links the slide of a total holds already: what is counted at its
/// place, where it is of the open chunk; else none.
pub fn held(book: &RawBook, total: u64) -> usize {
    let (chunk, place) = chunk_and_place(book, total);
    if chunk == open_chunk(book) {
        usize::from(book.counts[spot(chunk, place)])
    } else {
        0
    }
}

// What changes the state.

/// A book with both forests fresh and all counts 0.
fn empty_book(settings: Settings, total: u64) -> RawBook {
    book_of(&History::at_total(settings, total.into()))
}

/// Within the chunk nothing changes but the total. The pad bytes never do: an
/// opening alone makes them 0.
fn move_time(state: &mut State, total: u64) {
    let before = open_chunk(&state.book);
    let (after, _) = chunk_and_place(&state.book, total);
    if after == before + 1 {
        turn(state, before);
    } else if after > before {
        let (of_clock, of_fitting) = (state.book.clock.pad, state.book.fitting.pad);
        state.book = empty_book(settings_of(&state.book), total);
        state.book.clock.pad = of_clock;
        state.book.fitting.pad = of_fitting;
    }
    state.book.clock.total = total;
}

/// Into the next chunk: the backward forest is built from the log, the forward
/// forest is fresh, and the counts of the new chunk's half are 0.
fn turn(state: &mut State, ending: u64) {
    let mut backward = Forest::start();
    for place in (1..u64::from(state.book.clock.n)).rev() {
        for (a, b) in logged_links(state, spot(ending, place)).into_iter().rev() {
            backward.unite(a, b, place);
        }
    }
    let forward = Forest::start();
    let book = &mut state.book;
    book.backward_parent = narrow(&backward.parent);
    book.backward_size = narrow(&backward.size);
    book.backward_label = labels_of(&backward);
    book.forward_parent = narrow(&forward.parent);
    book.forward_size = narrow(&forward.size);
    let new_half = spot(ending + 1, 0);
    book.counts[new_half..new_half + HALF].fill(0);
}

/// A link of two of the lorry's cells, in the open slide.
fn store(state: &mut State, cells: [u32; 2]) {
    let (chunk, place) = chunk_and_place(&state.book, state.book.clock.total);
    let spot = spot(chunk, place);
    let at = log_place(spot, usize::from(state.book.counts[spot]));
    state.log[at] = cells[0] as u16;
    state.log[at + 1] = cells[1] as u16;
    state.book.counts[spot] += 1;

    let mut forward = forward_forest(&state.book);
    forward.unite(cells[0], cells[1], place);
    state.book.forward_parent = narrow(&forward.parent);
    state.book.forward_size = narrow(&forward.size);
}

// What the fields and the log hold.

/// The links of a spot as far as its count reaches, pairs with an entry that is
/// no cell left out.
fn logged_links(state: &State, spot: usize) -> Vec<(u32, u32)> {
    let count = usize::from(state.book.counts[spot]);
    let pairs = state.log[log_place(spot, 0)..log_place(spot, count)].chunks(2);
    pairs
        .map(|pair| (u32::from(pair[0]), u32::from(pair[1])))
        .filter(|&(a, b)| is_cell(a) && is_cell(b))
        .collect()
}

/// A book of the oracle's with the links that the log holds.
fn logged_book(state: &State) -> oracle::Book {
    oracle::Book {
        history: Some(logged_window(state)),
    }
}

/// The window's slides, as far as they exist, with the links that the log holds.
pub fn logged_window(state: &State) -> History {
    let settings = settings_of(&state.book);
    let mut history = History::at_total(settings, state.book.clock.total.into());
    let n = u64::from(settings.n);
    for slide in history.oldest_slide()..=history.open_slide() {
        for (a, b) in logged_links(state, spot(slide / n, slide % n)) {
            history.links.push(Link { slide, a, b });
        }
    }
    history
}

fn forward_forest(book: &RawBook) -> Forest {
    Forest {
        parent: book.forward_parent.map(u32::from),
        size: book.forward_size.map(u32::from),
        label: [0; 1024],
    }
}

fn backward_forest(book: &RawBook) -> Forest {
    Forest {
        parent: book.backward_parent.map(u32::from),
        size: book.backward_size.map(u32::from),
        label: book.backward_label.map(u64::from),
    }
}

/// The parent steps of the two forests, the backward ones at the cut, as links.
pub fn parent_steps(book: &RawBook) -> Vec<Link> {
    let cut = open_place(book) + 1;
    let mut steps = steps_of(&forward_forest(book), 0);
    steps.extend(steps_of(&backward_forest(book), cut));
    steps
}

/// A forest's parent steps at a cut, as links.
fn steps_of(forest: &Forest, cut: u64) -> Vec<Link> {
    let cells = forest.parent.iter().zip(&forest.label).enumerate();
    cells
        .filter(|&(cell, (&parent, &label))| parent != cell as u32 && label >= cut)
        .map(|(cell, (&parent, _))| Link {
            slide: 0,
            a: cell as u32,
            b: parent,
        })
        .collect()
}
