//! "Chain and hold", by hand and by brute force.

mod common;
use common::*;
use oracle::*;

#[test]
fn l_is_the_largest_slide_even_if_an_older_chain_is_shorter() {
    // 1-2 in slide 0; 1-65-2 in slide 1.
    let mut book = opened(4, 10, PLAIN, 0);
    links(&mut book, &[(0, 1, 2), (10, 1, 65), (10, 65, 2)]);
    assert_eq!(chain(&book, 1, 2), Ok((1, 3, vec![1, 65, 2])));
}

#[test]
fn the_fewest_links_among_slides_l_to_k() {
    let mut book = opened(4, 10, PLAIN, 0);
    links(
        &mut book,
        &[(10, 1, 65), (10, 65, 2), (20, 65, 66), (20, 1, 2)],
    );
    assert_eq!(chain(&book, 1, 2), Ok((2, 3, vec![1, 2])));
    assert_eq!(chain(&book, 1, 66), Ok((1, 2, vec![1, 65, 66])));
}

#[test]
fn the_cell_numbers_that_come_first_from_the_start() {
    // From 63 to 255, ring by ring where sectors 63 and 0 meet: by 126 and 190,
    // by 127 and 128, or by 126 and 191.
    let mut book = opened(1, 10, PLAIN, 0);
    for (a, b) in [
        (63, 127),
        (127, 128),
        (128, 255),
        (63, 126),
        (126, 191),
        (191, 255),
        (126, 190),
        (190, 255),
    ] {
        links(&mut book, &[(0, a, b)]);
    }
    assert_eq!(chain(&book, 63, 255).unwrap().2, [63, 126, 190, 255]);
    // From the other end the first differing cell is 128, 190 or 191.
    assert_eq!(chain(&book, 255, 63).unwrap().2, [255, 128, 127, 63]);
}

#[test]
fn a_cell_and_itself() {
    let mut book = opened(5, 10, PLAIN, 0);
    assert_eq!(chain(&book, 8, 8), Ok((1, 5, vec![8])));
    links(&mut book, &[(70, 8, 9)]);
    assert_eq!(chain(&book, 8, 8), Ok((8, 5, vec![8])));
}

#[test]
fn later_places_keep_what_they_had() {
    let book = listing_book();
    let mut lent = vec![7u16; 1024];
    let answer = book.chain(3, 6, LOG_PLACES, &mut lent).unwrap();
    assert_eq!(
        answer,
        Chain {
            l: 2,
            hold: 0,
            cells: 4
        }
    );
    assert_eq!(lent[..5], [3, 4, 5, 6, 7]);
    assert!(lent[5..].iter().all(|&place| place == 7));
}

#[test]
fn a_chain_of_all_1024_cells() {
    let mut book = opened(4, 1, PLAIN, 0);
    for cell in 0..1023 {
        assert_eq!(link(&mut book, cell / 256, cell, cell + 1), 0);
    }
    let all: Vec<u16> = (0..1024).collect();
    assert_eq!(chain(&book, 0, 1023), Ok((0, 0, all.clone())));
    let back: Vec<u16> = all.into_iter().rev().collect();
    assert_eq!(chain(&book, 1023, 0), Ok((0, 0, back)));
    assert!(joined(&book, 0, 1023).0);
}

/// All chains without a cell met twice, by trying everything.
fn all_chains(links: &[Link], first: u32, second: u32) -> Vec<Vec<u16>> {
    let mut found = Vec::new();
    let mut open = vec![vec![first as u16]];
    while let Some(chain) = open.pop() {
        let end = *chain.last().unwrap();
        if u32::from(end) == second {
            found.push(chain);
            continue;
        }
        for next in 0..1024u16 {
            let linked = links.iter().any(|link| {
                (link.a, link.b) == (end.into(), next.into())
                    || (link.b, link.a) == (end.into(), next.into())
            });
            if linked && !chain.contains(&next) {
                let mut longer = chain.clone();
                longer.push(next);
                open.push(longer);
            }
        }
    }
    found
}

#[test]
fn chains_by_brute_force() {
    let mut dice = Dice(11);
    let (mut chained, mut ties) = (0, 0);
    for _ in 0..1500 {
        let mut book = random_book(&mut dice, 6);
        let a = cell_of(&mut dice, &book, 6);
        let b = cell_of(&mut dice, &book, 6);
        let tick = later(&book, dice.below(4));
        assert_eq!(clock(&mut book, tick), 0);
        let history = history(&book);
        let k = history.open_slide();
        let from = |l: u64| -> Vec<Link> {
            let links = history.links.iter();
            links.filter(|link| link.slide >= l).copied().collect()
        };
        if a == b {
            continue;
        }
        let l = (history.oldest_slide()..=k)
            .filter(|&l| !all_chains(&from(l), a, b).is_empty())
            .max();
        let expected = l.map(|l| {
            let mut chains = all_chains(&from(l), a, b);
            chains.sort_by_key(|chain| (chain.len(), chain.clone()));
            let fewest = chains[0].len();
            chained += 1;
            ties += u32::from(chains.len() > 1 && chains[1].len() == fewest);
            (l, (l + history.n() - 1 - k) as u32, chains[0].clone())
        });
        assert_eq!(chain(&book, a, b), expected.ok_or(Refusal::NoTrail));
    }
    assert!(chained > 100 && ties > 20, "{} {}", chained, ties);
}

/// Hold: for that many further closings the two stay joined if nothing is
/// logged, and not for one more; for a cell and itself always.
#[test]
fn hold_is_the_number_of_closings_survived() {
    let mut dice = Dice(12);
    let mut seen = [0; 7];
    for _ in 0..400 {
        let mut book = random_book(&mut dice, 5);
        let a = cell_of(&mut dice, &book, 5);
        let b = cell_of(&mut dice, &book, 5);
        let n = history(&book).settings.n;
        let hold = match chain(&book, a, b) {
            Ok((_, hold, _)) => hold,
            Err(_) => {
                assert!(!joined(&book, a, b).0);
                continue;
            }
        };
        assert!(if a == b { hold == n } else { hold < n });
        seen[hold as usize] += 1;
        for closing in 0..=n + 1 {
            let expected = a == b || closing <= hold;
            assert_eq!(joined(&book, a, b).0, expected);
            let tick = later(&book, history(&book).settings.b);
            assert_eq!(clock(&mut book, tick), 0);
        }
    }
    assert!(seen[..5].iter().all(|&times| times > 5), "{:?}", seen);
}
