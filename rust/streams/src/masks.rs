//! Body masks, drawn for the links of a window: so that they darken some things and
//! not others, and with everything that a mask can be refused for.

use crate::dice::Dice;
use oracle::{ends_of, Book, History, Link, Linked, CELLS, MASK_BYTES};

/// The links of a book's window; none where it was never opened.
pub fn window_of(book: &Book) -> &[Link] {
    book.history.as_ref().map_or(&[], History::window)
}

/// The mask of a lamps call: mostly a good one, else one of another length or with
/// another value.
pub fn draw_mask(dice: &mut Dice, links: &[Link]) -> Vec<u8> {
    let mut mask = draw_good_mask(dice, links);
    match dice.below(12) {
        0 => mask.truncate(draw_short(dice)),
        1 => put_another_value(dice, &mut mask),
        2 => lengthen(dice, &mut mask, &[0, 1]),
        3 => lengthen(dice, &mut mask, &[2, 255]),
        _ => {}
    }
    mask
}

/// A mask that is taken: a byte for each cell, 0 or 1.
pub fn draw_good_mask(dice: &mut Dice, links: &[Link]) -> Vec<u8> {
    let body = match dice.below(8) {
        0 => Vec::new(),
        1 => some_cells(dice, 2),
        2 => some_cells(dice, 100),
        _ if links.is_empty() => some_cells(dice, 10),
        3 | 4 => some_groups(dice, links),
        5 => all_but_the_ends(links),
        _ => some_ends(dice, links),
    };
    mask_of(&body)
}

/// The mask of a bodywork of these cells.
pub fn mask_of(body: &[u32]) -> Vec<u8> {
    let mut mask = vec![0; MASK_BYTES];
    for &cell in body {
        mask[cell as usize] = 1;
    }
    mask
}

/// One cell of all in so many.
fn some_cells(dice: &mut Dice, one_in: u64) -> Vec<u32> {
    (0..CELLS).filter(|_| dice.one_in(one_in)).collect()
}

/// All cells of a group, or of a few.
fn some_groups(dice: &mut Dice, links: &[Link]) -> Vec<u32> {
    let linked = Linked::by(links);
    let few = dice.between(1, 3);
    (0..few)
        .flat_map(|_| linked.group_of(dice.pick(links).a).cells())
        .collect()
}

/// No lamp is dark by such a body.
fn all_but_the_ends(links: &[Link]) -> Vec<u32> {
    let ends = ends_of(links);
    (0..CELLS).filter(|&cell| !ends.contains(cell)).collect()
}

/// A few ends of links, so that most of what is dark is dark by another cell.
fn some_ends(dice: &mut Dice, links: &[Link]) -> Vec<u32> {
    let few = dice.between(1, 4);
    (0..few).map(|_| dice.pick(links).b).collect()
}

/// Too few bytes: often by one.
fn draw_short(dice: &mut Dice) -> usize {
    let any = dice.below(MASK_BYTES as u64) as usize;
    dice.pick(&[0, any, MASK_BYTES - 1, MASK_BYTES - 1])
}

/// A byte that is neither 0 nor 1, often the first or the last of those that count.
fn put_another_value(dice: &mut Dice, mask: &mut [u8]) {
    let any = dice.below(MASK_BYTES as u64) as usize;
    let place = dice.pick(&[0, any, any, MASK_BYTES - 1]);
    let value = dice.between(2, 255) as u8;
    mask[place] = dice.pick(&[2, value, 255]);
}

/// Bytes after the last cell's, which are not looked at.
fn lengthen(dice: &mut Dice, mask: &mut Vec<u8>, values: &[u8]) {
    for _ in 0..dice.pick(&[1, 2, 1_024]) {
        mask.push(dice.pick(values));
    }
}

#[cfg(test)]
mod tests {
    use super::*;
    use oracle::{number, Settings, LOG_PLACES};

    /// Two things, one on either side.
    fn book() -> Book {
        let mut book = Book::new();
        let settings = Settings {
            n: 3,
            b: 10,
            mounting: 1,
            t0: 0,
        };
        book.opening(settings, LOG_PLACES).unwrap();
        for (a, b) in [(5, 6), (6, 7), (40, 41), (41, 42)] {
            book.link(0, a, b, LOG_PLACES).unwrap();
        }
        book
    }

    #[test]
    fn good_masks_are_taken_and_darken_each_side_now_and_then() {
        let (book, mut dice) = (book(), Dice::new(1));
        let mut seen = [[0; 2]; 2];
        for _ in 0..1_000 {
            let mask = draw_good_mask(&mut dice, window_of(&book));
            assert_eq!(mask.len(), MASK_BYTES);
            let lamps = book.lamps(LOG_PLACES, &mask).unwrap();
            seen[usize::from(lamps.left.is_some())][usize::from(lamps.right.is_some())] += 1;
        }
        assert!(seen.concat().iter().all(|&times| times > 50), "{:?}", seen);
    }

    /// (too short, longer, another value that counts, another that does not): each is
    /// drawn, and 15 is given for the first and the third.
    #[test]
    fn masks_are_refused_for_their_length_and_their_values_alone() {
        let (book, mut dice) = (book(), Dice::new(2));
        let mut seen = [0; 4];
        for _ in 0..1_000 {
            let mask = draw_mask(&mut dice, window_of(&book));
            let (counts, beyond) = mask.split_at(MASK_BYTES.min(mask.len()));
            let other = |bytes: &[u8]| bytes.iter().any(|&byte| byte > 1);
            let is = [
                counts.len() < MASK_BYTES,
                !beyond.is_empty(),
                other(counts),
                other(beyond),
            ];
            let given = number(&book.lamps(LOG_PLACES, &mask));
            assert_eq!(given, if is[0] || is[2] { 15 } else { 0 });
            for (seen, is) in seen.iter_mut().zip(is) {
                *seen += u32::from(is);
            }
        }
        assert!(seen.iter().all(|&times| times > 40), "{:?}", seen);
    }

    #[test]
    fn a_book_that_was_never_opened_has_masks_too() {
        let book = Book::new();
        assert_eq!(window_of(&book), []);
        let mut dice = Dice::new(3);
        for _ in 0..100 {
            let mask = draw_mask(&mut dice, window_of(&book));
            assert_eq!(number(&book.lamps(LOG_PLACES, &mask)), 1);
        }
    }
}
