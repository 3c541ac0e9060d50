//! "The lamp layer", from the request's words: the ends of the zones, which cells light
//! a lamp and which do not, the smallest of them, masks good and bad.

mod common;
use common::*;
use oracle::*;

/// A mask with these cells as body.
fn body(cells: &[u32]) -> Vec<u8> {
    let mut mask = vec![0; MASK_BYTES];
    for &cell in cells {
        mask[cell as usize] = 1;
    }
    mask
}

/// (left, right): the cell that lights each lamp.
fn lamps(book: &Book, mask: &[u8]) -> (Option<u32>, Option<u32>) {
    let lamps = book.lamps(LOG_PLACES, mask).unwrap();
    (lamps.left, lamps.right)
}

/// The lamps of a book with these links alone, on a plain unit.
fn lit(pairs: &[(u32, u32)], mask: &[u8]) -> (Option<u32>, Option<u32>) {
    let mut book = opened(3, 10, PLAIN, 0);
    for &(a, b) in pairs {
        links(&mut book, &[(0, a, b)]);
    }
    lamps(&book, mask)
}

const DARK: (Option<u32>, Option<u32>) = (None, None);

fn cell(ring: u32, sector: u32) -> u32 {
    SECTORS * ring + sector
}

#[test]
fn zones_cell_by_cell() {
    for ring in 0..RINGS {
        for sector in 0..SECTORS {
            let beside = ring < 6 && sector != 0 && sector != 32;
            let expected = match (beside, sector < 32) {
                (false, _) => None,
                (true, true) => Some(Side::Right),
                (true, false) => Some(Side::Left),
            };
            assert_eq!(zone_of(cell(ring, sector)), expected);
        }
    }
    let zone = |side| (0..CELLS).filter(move |&cell| zone_of(cell) == Some(side));
    assert_eq!(zone(Side::Left).count(), 6 * 31);
    assert_eq!(zone(Side::Right).count(), 6 * 31);
}

#[test]
fn sectors_0_and_32_and_ring_6_never_light() {
    for ring in 0..15 {
        for axis in [0, 32] {
            let along_the_axis = (cell(ring, axis), cell(ring + 1, axis));
            assert_eq!(lit(&[along_the_axis], &body(&[])), DARK);
        }
    }
    for sector in 0..64 {
        let along_ring_6 = (cell(6, sector), cell(6, (sector + 1) % 64));
        let outwards = (cell(6, sector), cell(7, sector));
        assert_eq!(lit(&[along_ring_6, outwards], &body(&[])), DARK);
    }
}

#[test]
fn the_first_and_the_last_sectors_of_the_zones_light() {
    for ring in 0..6 {
        for (axis, sector, side) in [
            (0, 1, Side::Right),
            (32, 31, Side::Right),
            (32, 33, Side::Left),
            (0, 63, Side::Left),
        ] {
            let (on_the_axis, beside) = (cell(ring, axis), cell(ring, sector));
            let expected = match side {
                Side::Left => (Some(beside), None),
                Side::Right => (None, Some(beside)),
            };
            assert_eq!(lit(&[(on_the_axis, beside)], &body(&[])), expected);
        }
    }
}

#[test]
fn ring_5_lights_and_ring_6_does_not() {
    for (sector, side) in [(1, Side::Right), (31, Side::Right), (33, Side::Left)] {
        let (inner, outer) = (cell(5, sector), cell(6, sector));
        let (left, right) = lit(&[(outer, inner)], &body(&[]));
        let (this, other) = match side {
            Side::Left => (left, right),
            Side::Right => (right, left),
        };
        assert_eq!((this, other), (Some(inner), None));
    }
}

/// One thing round the stern lights both.
#[test]
fn one_thing_can_light_both() {
    let round = [(31, 32), (32, 33)];
    assert_eq!(lit(&round, &body(&[])), (Some(33), Some(31)));
    assert_eq!(lit(&round, &body(&[32])), DARK);
}

#[test]
fn no_link_no_light() {
    let mut book = opened(3, 10, PLAIN, 7);
    for mask in [body(&[]), body(&[1, 40]), vec![1; MASK_BYTES]] {
        assert_eq!(lamps(&book, &mask), DARK);
    }
    // A refused link is none either.
    assert_eq!(link(&mut book, 6, 40, 41), 4);
    assert_eq!(lamps(&book, &body(&[])), DARK);
}

/// A thing is dark by one cell of it, wherever that lies; a cell beside it changes
/// nothing, and a body cell that no link ties to it neither.
#[test]
fn body_goes_by_what_is_joined_and_not_by_the_cell() {
    // From ring 4 out to ring 8, on the left.
    let outwards: Vec<(u32, u32)> = (4..8)
        .map(|ring| (cell(ring, 40), cell(ring + 1, 40)))
        .collect();
    assert_eq!(lit(&outwards, &body(&[])), (Some(cell(4, 40)), None));
    for ring in 4..=8 {
        assert_eq!(lit(&outwards, &body(&[cell(ring, 40)])), DARK);
    }
    let beside: Vec<u32> = (3..=9).map(|ring| cell(ring, 41)).collect();
    assert_eq!(lit(&outwards, &body(&beside)), (Some(cell(4, 40)), None));
    assert_eq!(
        lit(&outwards, &body(&[cell(9, 40)])),
        (Some(cell(4, 40)), None)
    );
}

#[test]
fn a_body_cell_of_the_zone_never_lights() {
    assert_eq!(lit(&[(40, 41)], &body(&[40])), DARK);
    assert_eq!(lit(&[(40, 41)], &body(&[41])), DARK);
    assert_eq!(lit(&[(40, 41), (50, 51)], &body(&[40])), (Some(50), None));
}

#[test]
fn the_smallest_cell_lights() {
    let things = [(104, 103), (50, 51), (170, 171), (70, 71), (5, 6)];
    assert_eq!(lit(&things, &body(&[])), (Some(50), Some(5)));
    // The smaller ones are body, by a cell that is not the smallest of its thing.
    assert_eq!(lit(&things, &body(&[51, 6])), (Some(103), Some(70)));
    assert_eq!(lit(&things, &body(&[51, 6, 103, 71])), (Some(170), None));
}

/// Of a thing that lights, the smallest cell of the zone and not of the thing.
#[test]
fn the_smallest_cell_of_the_zone() {
    // 0 on the axis is the smallest, then 1 on the right, then 63 on the left.
    assert_eq!(lit(&[(0, 63), (0, 1)], &body(&[])), (Some(63), Some(1)));
    // 384 and 383: sector 0 of ring 6, sector 63 of ring 5.
    assert_eq!(
        lit(&[(384, 383), (384, 320)], &body(&[])),
        (Some(383), None)
    );
}

#[test]
fn an_all_zero_mask_lights_wherever_a_link_ends() {
    let mut dice = Dice(21);
    for _ in 0..300 {
        let book = random_book(&mut dice, 60);
        let mut expected = DARK;
        for link in history(&book).window() {
            for end in [link.a, link.b] {
                let lamp = match zone_of(end) {
                    None => continue,
                    Some(Side::Left) => &mut expected.0,
                    Some(Side::Right) => &mut expected.1,
                };
                *lamp = Some(lamp.map_or(end, |least| least.min(end)));
            }
        }
        assert_eq!(lamps(&book, &body(&[])), expected);
    }
}

/// The promise that the customer reads: by the joined call with every body cell.
#[test]
fn lit_exactly_where_joined_says_no_with_every_body_cell() {
    let mut dice = Dice(22);
    let (mut dark, mut passed_over) = (0, 0);
    for _ in 0..300 {
        let book = random_book(&mut dice, 16);
        let bodywork: Vec<u32> = (0..4).map(|_| cell_of(&mut dice, &book, 16)).collect();
        let window = history(&book).window();
        let is_end = |cell| window.iter().any(|link| [link.a, link.b].contains(&cell));
        let ends =
            |side| (0..CELLS).filter(move |&cell| zone_of(cell) == Some(side) && is_end(cell));
        let lights = |&cell: &u32| bodywork.iter().all(|&body| !joined(&book, cell, body).0);
        let mut smallest = |side| {
            let lit = ends(side).find(lights);
            dark += u32::from(lit.is_none() && ends(side).next().is_some());
            passed_over += u32::from(lit.is_some() && lit != ends(side).next());
            lit
        };
        let expected = (smallest(Side::Left), smallest(Side::Right));
        assert_eq!(lamps(&book, &body(&bodywork)), expected);
    }
    assert!(dark > 20 && passed_over > 20, "{} {}", dark, passed_over);
}

#[test]
fn a_link_lights_as_long_as_the_window_has_it() {
    for n in 1..=16 {
        let mut book = opened(n, 1, PLAIN, 0);
        links(&mut book, &[(40, 1, 2)]);
        assert_eq!(clock(&mut book, 40 + n - 1), 0);
        assert_eq!(lamps(&book, &body(&[])), (None, Some(1)));
        assert_eq!(clock(&mut book, 40 + n), 0);
        assert_eq!(lamps(&book, &body(&[])), DARK);
    }
}

/// The walker whom one old link ties to the tail lift: lit once it has left the window.
#[test]
fn an_old_link_to_the_body_keeps_dark_until_it_ages_out() {
    let mut book = opened(2, 10, PLAIN, 0);
    let lift = body(&[96]);
    links(&mut book, &[(0, 96, 95), (0, 95, 94)]);
    links(&mut book, &[(10, 94, 93)]);
    assert_eq!(lamps(&book, &lift), DARK);
    links(&mut book, &[(20, 94, 93)]);
    assert_eq!(lamps(&book, &lift), (None, Some(93)));
}

#[test]
fn zones_and_mask_are_in_the_lorrys_numbers() {
    let mut book = opened(3, 10, MIRRORED, 0);
    // The unit's sectors 1 and 2 are the lorry's 63 and 62.
    links(&mut book, &[(0, 1, 2)]);
    assert_eq!(lamps(&book, &body(&[])), (Some(62), None));
    assert_eq!(lamps(&book, &body(&[1, 2])), (Some(62), None));
    assert_eq!(lamps(&book, &body(&[63])), DARK);
}

/// Which no call takes, and only an altered log can have.
#[test]
fn a_link_of_a_cell_with_itself_has_that_cell_for_its_end() {
    let mut book = opened(3, 10, PLAIN, 0);
    let history = book.history.as_mut().unwrap();
    history.links.push(Link {
        slide: 0,
        a: 40,
        b: 40,
    });
    assert_eq!(lamps(&book, &body(&[])), (Some(40), None));
    assert_eq!(lamps(&book, &body(&[40])), DARK);
    assert_eq!(lamps(&book, &body(&[39, 41])), (Some(40), None));
}

#[test]
fn the_call_changes_nothing() {
    let book = listing_book();
    let before = book.clone();
    assert_eq!(lamps(&book, &body(&[3])), DARK);
    assert_eq!(lamps(&book, &body(&[7])), (None, Some(3)));
    assert_eq!(number(&book.lamps(LOG_PLACES, &[])), 15);
    assert_eq!(book, before);
}

#[test]
fn masks_short_long_and_with_other_values() {
    let book = listing_book();
    let given = |mask: &[u8]| number(&book.lamps(LOG_PLACES, mask));
    for (bytes, expected) in [(0, 15), (1, 15), (1_023, 15), (1_024, 0), (1_025, 0)] {
        assert_eq!(given(&vec![0; bytes]), expected, "{} bytes", bytes);
        assert_eq!(given(&vec![1; bytes]), expected, "{} bytes", bytes);
    }
    for (place, expected) in [(0, 15), (511, 15), (1_023, 15), (1_024, 0), (1_999, 0)] {
        for value in [2, 3, 128, 255] {
            let mut mask = vec![0; 2_000];
            mask[place] = value;
            assert_eq!(given(&mask), expected, "{} at byte {}", value, place);
        }
    }
    // What is not looked at is no body either.
    let mut mask = body(&[]);
    mask.extend([1; 1_024]);
    assert_eq!(lamps(&book, &mask), (None, Some(3)));
}
