//! The lamps, put to the oracle and to the library: every link that there can be, alone in the window, by every body that makes a
//! difference, against the plain rule too; things of many cells; and the library's own groups and joined calls, which have to
//! say the same.

mod common;
use common::*;
use compare::{run, Lockstep};
use kerb::calls;
use oracle::{in_lorrys_numbers, touching_cells, CELLS, LOG_PLACES, MASK_BYTES};
use streams::masks::{draw_good_mask, mask_of, window_of};
use streams::{ask, Call, Dice, Kind, Random};

/// The smallest of some cells that lies in a zone: rings 0 to 5, sectors 33 to 63 on the left, 1 to 31 on the right.
fn smallest(cells: &[u32], left: bool) -> Option<u32> {
    let in_zone = |cell: &u32| {
        let (ring, sector) = (cell / 64, cell % 64);
        let beside = if left { 33..=63 } else { 1..=31 };
        ring <= 5 && beside.contains(&sector)
    };
    cells.iter().copied().filter(in_zone).min()
}

/// What the lamps are when these cells alone light one.
fn lit_by(cells: &[u32]) -> (u32, Option<u32>, Option<u32>) {
    (0, smallest(cells, true), smallest(cells, false))
}

/// With slides of one tick and n 1, a link is alone in the window until the next one.
fn every_link_alone(mounting: u32) {
    let mut books = opened(settings(1, 1, mounting, 0));
    let mut tick = 0;
    let mut lit = [0; 2];
    for one in 0..CELLS {
        for other in touching_cells(one).filter(|&other| other > one) {
            let [a, b] = [one, other].map(|cell| in_lorrys_numbers(cell, mounting));
            assert_eq!(link(&mut books, tick, a, b), 0);
            let others: Vec<u32> = (0..CELLS).filter(|of| ![one, other].contains(of)).collect();
            let ends = lit_by(&[one, other]);
            for (body, expected) in [
                (&[][..], ends),
                (&others[..], ends),
                (&[one], lit_by(&[])),
                (&[other], lit_by(&[])),
            ] {
                assert_eq!(lamps(&mut books, mask_of(body)), expected);
            }
            lit[0] += u32::from(ends.1.is_some());
            lit[1] += u32::from(ends.2.is_some());
            tick += 1;
            assert_eq!(clock(&mut books, tick), 0);
            assert_eq!(lamps(&mut books, mask_of(&[])), lit_by(&[]));
        }
    }
    assert_eq!(tick, 14 * 64 * 4 + 2 * 64 * 5 / 2);
    // A zone's 31 × 6 cells have 1,395 neighbours, 635 of the links within the zone.
    assert_eq!(lit, [1_395 - 635; 2]);
}

#[test]
fn every_link_alone_on_a_plain_unit() {
    every_link_alone(1);
}

#[test]
fn every_link_alone_on_a_mirrored_unit() {
    every_link_alone(2);
}

/// A thing of all cells of a zone and more is dark by any one of them, wherever it lies.
#[test]
fn one_body_cell_darkens_all_that_is_joined_to_it() {
    let mut books = opened(settings(4, 1, 1, 0));
    for cell in 0..1023 {
        assert_eq!(link(&mut books, cell / 256, cell, cell + 1), 0);
    }
    assert_eq!(lamps(&mut books, mask_of(&[])), (0, Some(33), Some(1)));
    for body in 0..CELLS {
        assert_eq!(lamps(&mut books, mask_of(&[body])), (0, None, None));
    }
    // The first slide's links are gone: cells 0 to 255 are linked with nothing.
    assert_eq!(clock(&mut books, 4), 0);
    assert_eq!(lamps(&mut books, mask_of(&[])), (0, Some(289), Some(257)));
    assert_eq!(
        lamps(&mut books, mask_of(&[255])),
        (0, Some(289), Some(257))
    );
    assert_eq!(lamps(&mut books, mask_of(&[256])), (0, None, None));
}

/// RULES 11.6, by the links of samples/tail_lift_and_walker.kerb that tie the lift and the walker together.
#[test]
fn the_walker_lights_once_the_old_link_has_left() {
    let mut books = opened(settings(5, 100, 1, 0));
    for (tick, a, b) in [
        (20, 96, 161),
        (400, 94, 95),
        (400, 95, 96),
        (450, 161, 162),
        (450, 162, 227),
    ] {
        assert_eq!(link(&mut books, tick, a, b), 0);
    }
    let lift = || mask_of(&[94, 95, 96]);
    assert_eq!(lamps(&mut books, lift()), (0, None, None));
    assert_eq!(clock(&mut books, 499), 0);
    assert_eq!(lamps(&mut books, lift()), (0, None, None));
    assert_eq!(clock(&mut books, 500), 0);
    assert_eq!(lamps(&mut books, lift()), (0, Some(161), None));
    assert_eq!(lamps(&mut books, mask_of(&[])), (0, Some(161), Some(94)));
}

/// The lamps as the library's groups call tells them: the cells of a group of two or more that has no body cell.
fn by_groups(books: &Lockstep, mask: &[u8]) -> (u32, Option<u32>, Option<u32>) {
    let state = books.library();
    let (mut first, mut size, mut hold) = ([0; 1024], [0; 1024], [0; 1024]);
    let log = &state.log[..LOG_PLACES];
    let answer = calls::groups(&state.book, log, &mut first, &mut size, &mut hold);
    assert_eq!(answer.number, 0);
    let mut dark = [false; MASK_BYTES];
    for (&first, _) in first.iter().zip(mask).filter(|of| *of.1 == 1) {
        dark[usize::from(first)] = true;
    }
    let lights = |cell: &u32| {
        let at = *cell as usize;
        size[at] >= 2 && !dark[usize::from(first[at])]
    };
    lit_by(&(0..CELLS).filter(lights).collect::<Vec<u32>>())
}

/// The lamps as the library's joined call tells them, asked for each end in a zone with every body cell.
fn by_joined(books: &Lockstep, mask: &[u8]) -> (u32, Option<u32>, Option<u32>) {
    let history = books.history().expect("an opened book");
    let joined = |one: u32, other: u32| {
        let answer = calls::joined(&books.library().book, one as u16, other as u16);
        assert_eq!(answer.number, 0);
        answer.yes
    };
    let body: Vec<u32> = (0..CELLS)
        .filter(|&cell| mask[cell as usize] == 1)
        .collect();
    let lights = |end: &u32| {
        let in_a_zone = lit_by(&[*end]) != lit_by(&[]);
        in_a_zone && body.iter().all(|&cell| !joined(*end, cell))
    };
    let ends = oracle::ends_of(history.window()).cells();
    lit_by(&ends.filter(lights).collect::<Vec<u32>>())
}

#[test]
fn the_groups_call_and_the_joined_call_say_the_same() {
    let mut dice = Dice::new(run::seed());
    let mut lit = [0; 3];
    for kind in [Kind::Few, Kind::All, Kind::Touching] {
        for _ in 0..4 {
            let (mut books, mut book) = (Lockstep::new(), oracle::Book::new());
            for call in Random::new(dice.bits(), kind).take(2_000) {
                ask(&mut book, &call);
                put(&mut books, call);
                if book.history.is_none() || !dice.one_in(40) {
                    continue;
                }
                let mask = draw_good_mask(&mut dice, window_of(&book));
                let given = lamps(&mut books, mask.clone());
                assert_eq!(given, by_groups(&books, &mask));
                if dice.one_in(10) {
                    assert_eq!(given, by_joined(&books, &mask));
                }
                lit[usize::from(given.1.is_some()) + usize::from(given.2.is_some())] += 1;
            }
        }
    }
    println!(
        "lamps by groups and by joined: none lit {}, one {}, both {}",
        lit[0], lit[1], lit[2]
    );
    assert!(lit.iter().all(|&times| times > 5), "{lit:?}");
}

/// The call is a question, done or refused: the book and the log stay, and with them the time.
#[test]
fn the_lamps_move_no_time() {
    let mut books = opened(settings(1, 10, 1, 0));
    assert_eq!(link(&mut books, 3, 1, 2), 0);
    let before = books.library().clone();
    assert_eq!(lamps(&mut books, mask_of(&[])), (0, None, Some(1)));
    assert_eq!(
        number(
            &mut books,
            Call::Lamps {
                log_places: 0,
                mask: vec![]
            }
        ),
        6
    );
    assert_eq!(books.library(), &before);
    assert_eq!(clock(&mut books, 2), 4);
    assert_eq!(clock(&mut books, 3), 0);
}
