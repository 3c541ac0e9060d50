//! The fields of a book drawn from their ranges, and a log for it. They need not
//! agree with one another.

use oracle::{Settings, MOST_TOTAL, TURN};
use streams::touching::patch;
use streams::{Dice, MOST_LOG_PLACES};

/// Trees over some of the cells: one walk has so many steps, where there are
/// cells enough, and none has more. All other cells are roots.
pub fn trees(dice: &mut Dice, cells: &[u32], steps: usize) -> [u16; 1024] {
    let mut order = cells.to_vec();
    dice.shuffle(&mut order);
    let mut parents = own_parents();
    let mut taken = vec![0; order.len()];
    for place in 1..order.len() {
        let of_the_walk = place <= steps;
        let under = if of_the_walk {
            place - 1
        } else {
            dice.below(place as u64) as usize
        };
        if of_the_walk || (taken[under] < steps && !dice.one_in(3)) {
            parents[order[place] as usize] = order[under] as u16;
            taken[place] = taken[under] + 1;
        }
    }
    parents
}

fn own_parents() -> [u16; 1024] {
    let mut parents = [0; 1024];
    for (cell, parent) in parents.iter_mut().enumerate() {
        *parent = cell as u16;
    }
    parents
}

/// Sizes that add up, or double, or are any. For parents without a circle.
pub fn draw_sizes(dice: &mut Dice, parents: &[u16; 1024]) -> [u16; 1024] {
    match dice.below(5) {
        0 => true_sizes(parents),
        1 => doubling_sizes(parents),
        2 => [dice.pick(&[1, 600, 1024]); 1024],
        _ => [0; 1024].map(|_| any_size(dice)),
    }
}

/// How many cells each cell's tree has, itself included.
fn true_sizes(parents: &[u16; 1024]) -> [u16; 1024] {
    let mut sizes = [1; 1024];
    for cell in 0..1024 {
        let mut at = cell;
        while usize::from(parents[at]) != at {
            at = usize::from(parents[at]);
            sizes[at] += 1;
        }
    }
    sizes
}

/// Sizes that double with each parent step, up to 1,024 at the roots. Where a walk
/// is longer than 10, its first steps go from size 1 to size 1.
pub fn doubling_sizes(parents: &[u16; 1024]) -> [u16; 1024] {
    let mut sizes = [1024; 1024];
    for (cell, size) in sizes.iter_mut().enumerate() {
        let mut at = cell;
        while usize::from(parents[at]) != at && *size > 1 {
            at = usize::from(parents[at]);
            *size /= 2;
        }
    }
    sizes
}

pub fn draw_labels(dice: &mut Dice) -> [u8; 1024] {
    let most = dice.between(0, 15);
    [0; 1024].map(|_| dice.between(0, most) as u8)
}

/// Bytes that have no meaning: 0, as calls leave them, or any.
pub fn draw_pad(dice: &mut Dice) -> [u8; 7] {
    if dice.one_in(2) {
        [0; 7]
    } else {
        [0; 7].map(|_| dice.bits() as u8)
    }
}

/// A few links in each place, or any number of them.
pub fn draw_counts(dice: &mut Dice) -> [u16; 32] {
    let few = dice.one_in(2);
    [0; 32].map(|_| {
        if few {
            dice.below(4) as u16
        } else {
            any_count(dice)
        }
    })
}

/// Entries that are such cells or, here and there, no cell at all.
pub fn draw_log(dice: &mut Dice, cells: &[u32]) -> Vec<u16> {
    let no_cells = dice.pick(&[3, 10, 1_000_000]);
    let mut entry = || {
        if dice.one_in(no_cells) {
            dice.pick(&[1024, 1025, 2047, 65_535])
        } else {
            dice.pick(cells) as u16
        }
    };
    (0..MOST_LOG_PLACES).map(|_| entry()).collect()
}

/// A total in the first few chunks, near a pass of the counter's end, at the limit or
/// near it, or any.
pub fn draw_total(dice: &mut Dice, settings: Settings) -> u64 {
    let limit = MOST_TOTAL as u64;
    let end = dice.between(1, 3) * TURN as u64 - u64::from(settings.t0);
    let chunks = 4 * u64::from(settings.n) * u64::from(settings.b);
    let few = dice.below(chunks);
    match dice.below(12) {
        0 | 1 => end.saturating_sub(few),
        2 => limit - few,
        3 => limit - dice.below(3),
        4 => limit,
        5 => dice.below(limit + 1),
        _ => few,
    }
}

/// A total outside its range.
pub fn draw_total_outside(dice: &mut Dice) -> u64 {
    let first = MOST_TOTAL as u64 + 1;
    let any = first + dice.below(first);
    dice.pick(&[first, first + 1, any, u64::MAX - 1, u64::MAX])
}

/// A few cells that hang together, so that links and steps meet, or all.
pub fn draw_cells(dice: &mut Dice) -> Vec<u32> {
    if dice.one_in(6) {
        return dice.shuffled_cells();
    }
    let (first, size) = (dice.cell(), dice.between(4, 40) as usize);
    patch(dice, first, size)
}

pub fn any_size(dice: &mut Dice) -> u16 {
    dice.between(1, 1024) as u16
}

pub fn any_count(dice: &mut Dice) -> u16 {
    let any = dice.between(0, 256) as u16;
    dice.pick(&[0, 1, 2, 255, 256, any])
}
