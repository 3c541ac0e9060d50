//! Calls for an altered book: to its cells, at ticks round its time, with all
//! that a call can be refused for now and then.

use super::order::disorder;
use super::said;
use crate::state::State;
use oracle::{Link, CHAIN_PLACES, LOG_PLACES, MOST_TOTAL};
use streams::hops::{ahead, back, huge_jump};
use streams::masks::draw_mask;
use streams::touching::{far_cell, touching_cell};
use streams::{draw_settings, Call, Dice, MOST_LOG_PLACES};

/// One argument in so many is spoilt.
const SPOILT: u64 = 25;

/// Draws a call.
pub fn draw(dice: &mut Dice, state: &State, cells: &[u32]) -> Call {
    match dice.below(27) {
        0 => {
            let mut settings = draw_settings(dice);
            if dice.one_in(3) {
                settings.mounting = 0;
            }
            Call::Opening {
                settings,
                log_places: draw_log_places(dice),
            }
        }
        1..=7 => {
            let (a, b) = draw_link(dice, cells);
            Call::Link {
                tick: draw_tick(dice, state),
                a: spoil(dice, a),
                b: spoil(dice, b),
                log_places: draw_log_places(dice),
            }
        }
        8..=11 => Call::Clock {
            tick: draw_tick(dice, state),
            log_places: draw_log_places(dice),
        },
        12..=17 => Call::Joined {
            first: draw_cell(dice, cells),
            second: draw_cell(dice, cells),
        },
        18..=20 => Call::Lamps {
            log_places: draw_log_places(dice),
            mask: draw_mask(dice, &logged_links(state)),
        },
        _ => Call::Chain {
            first: draw_cell(dice, cells),
            second: draw_cell(dice, cells),
            log_places: draw_log_places(dice),
            chain_places: if dice.one_in(SPOILT) {
                CHAIN_PLACES - 1
            } else {
                CHAIN_PLACES + dice.below(3) as usize
            },
        },
    }
}

/// The links of the window, of a book that has one.
fn logged_links(state: &State) -> Vec<Link> {
    match disorder(&state.book) {
        None => said::logged_window(state).links,
        Some(_) => Vec::new(),
    }
}

fn draw_cell(dice: &mut Dice, cells: &[u32]) -> u32 {
    let cell = draw_good_cell(dice, cells);
    spoil(dice, cell)
}

/// The ends of a link: two cells that touch, now and then a cell and itself or two
/// cells far from one another.
fn draw_link(dice: &mut Dice, cells: &[u32]) -> (u32, u32) {
    let one = draw_good_cell(dice, cells);
    let other = match dice.below(10) {
        0 => one,
        1 => far_cell(dice, one),
        _ => touching_cell(dice, one),
    };
    (one, other)
}

fn draw_good_cell(dice: &mut Dice, cells: &[u32]) -> u32 {
    if dice.one_in(10) {
        dice.cell()
    } else {
        dice.pick(cells)
    }
}

fn spoil(dice: &mut Dice, cell: u32) -> u32 {
    if dice.one_in(SPOILT) {
        dice.pick(&[1024, 65_535])
    } else {
        cell
    }
}

fn draw_log_places(dice: &mut Dice) -> usize {
    if dice.one_in(SPOILT) {
        dice.pick(&[0, LOG_PLACES - 1])
    } else {
        dice.between(LOG_PLACES as u64, MOST_LOG_PLACES as u64) as usize
    }
}

/// The book's time, or a later tick of the slide, the chunk, the next chunk or
/// one after it, within a hop; where the total is about to run out, mostly the last
/// tick that it has room for or the next. Sometimes an earlier one, or a huge jump.
fn draw_tick(dice: &mut Dice, state: &State) -> u32 {
    let clock = &state.book.clock;
    let time = said::time(clock);
    let (n, b) = (u128::from(clock.n), u128::from(clock.b));
    if dice.one_in(30) {
        return huge_jump(dice, time);
    }
    let left = MOST_TOTAL.saturating_sub(clock.total.into());
    if left <= n * b && dice.one_in(2) {
        return ahead(time, left + u128::from(dice.below(2)));
    }
    let ticks = match dice.below(10) {
        0 => return back(time, dice.between(1, 3).into()),
        1..=3 => 0,
        4 => dice.below(u64::from(clock.b) + 1).into(),
        5 | 6 => b * u128::from(dice.below(u64::from(clock.n) + 1)),
        7 | 8 => b * n,
        _ => b * n * u128::from(dice.between(1, 3)),
    };
    ahead(time, ticks)
}
