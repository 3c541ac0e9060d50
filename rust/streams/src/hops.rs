//! How far a tick lies from the book's time, as the counter goes round. Ticks are
//! drawn within a hop ahead, which is taken, or a little back, which is refused. What
//! lies between the two is a huge jump, refused as well, and only the streams that are
//! named for these have any.

use crate::dice::Dice;

/// The longest hop ahead: less than half a turn of the counter.
pub const LONGEST_HOP: u32 = (1 << 31) - 1;

/// The farthest back: a quarter of a turn.
pub const FARTHEST_BACK: u32 = 1 << 30;

/// How many ticks ahead of the time the counter comes to show the tick.
pub fn distance(time: u32, tick: u32) -> u32 {
    tick.wrapping_sub(time)
}

/// Whether the tick lies within a hop ahead of the time, or a little back.
pub fn is_hop(time: u32, tick: u32) -> bool {
    let distance = distance(time, tick);
    distance <= LONGEST_HOP || distance >= FARTHEST_BACK.wrapping_neg()
}

/// The tick so many ticks ahead, or where that is farther than a hop, a hop ahead.
pub fn ahead(time: u32, ticks: u128) -> u32 {
    time.wrapping_add(ticks.min(u128::from(LONGEST_HOP)) as u32)
}

/// The tick so many ticks back, or as far back as ticks are drawn.
pub fn back(time: u32, ticks: u128) -> u32 {
    time.wrapping_sub(ticks.min(u128::from(FARTHEST_BACK)) as u32)
}

/// Any tick within a hop ahead or a little back: near, far, or as far as can be.
pub fn any_hop(dice: &mut Dice, time: u32) -> u32 {
    let few = dice.between(1, 100) as u32;
    let any = |dice: &mut Dice, most: u32| dice.between(1, u64::from(most)) as u32;
    if dice.one_in(2) {
        let any = any(dice, LONGEST_HOP);
        ahead(time, dice.pick(&[0, few, any, LONGEST_HOP]).into())
    } else {
        let any = any(dice, FARTHEST_BACK);
        back(time, dice.pick(&[1, few, any, FARTHEST_BACK]).into())
    }
}

/// A tick that lies beyond a hop: half a turn ahead, which is just beyond it, anywhere,
/// or just before those that lie back.
pub fn huge_jump(dice: &mut Dice, time: u32) -> u32 {
    let half_a_turn = LONGEST_HOP + 1;
    let last = FARTHEST_BACK.wrapping_neg() - 1;
    let any = dice.between(u64::from(half_a_turn), u64::from(last)) as u32;
    time.wrapping_add(dice.pick(&[half_a_turn, half_a_turn, any, last]))
}

#[cfg(test)]
mod tests {
    use super::*;
    use oracle::steps_to;

    const TIMES: [u32; 7] = [
        0,
        1,
        LONGEST_HOP,
        LONGEST_HOP + 1,
        3_000_000_000,
        u32::MAX - 1,
        u32::MAX,
    ];

    #[test]
    fn a_hop_ahead_is_less_than_half_a_turn_and_one_back_at_most_a_quarter() {
        for time in TIMES {
            for (distance, is) in [
                (0, true),
                ((1 << 31) - 1, true),
                (1 << 31, false),
                (3_221_225_471, false),
                (3_221_225_472, true),
                (u32::MAX, true),
            ] {
                assert_eq!(is_hop(time, time.wrapping_add(distance)), is);
            }
        }
    }

    #[test]
    fn what_lies_ahead_is_later_and_what_lies_back_is_not() {
        for time in TIMES {
            for ticks in [0, 1, 7, 1 << 30, (1 << 31) - 1, 1 << 31, 1 << 40] {
                let hop = ahead(time, ticks);
                assert_eq!(steps_to(time, hop), Some(ticks.min((1 << 31) - 1)));
                assert!(is_hop(time, hop));
            }
            for ticks in [1, 7, 1 << 30, 1 << 31, 1 << 32, 1 << 40] {
                let old = back(time, ticks);
                assert_eq!(steps_to(time, old), None);
                assert!(is_hop(time, old));
            }
        }
    }

    #[test]
    fn any_hops_lie_ahead_and_back() {
        let mut dice = Dice::new(1);
        for time in TIMES {
            let ticks: Vec<u32> = (0..400).map(|_| any_hop(&mut dice, time)).collect();
            assert!(ticks.iter().all(|&tick| is_hop(time, tick)));
            let is_later = |tick: &&u32| steps_to(time, **tick).is_some();
            let later = ticks.iter().filter(is_later).count();
            assert!((100..300).contains(&later), "{} of 400", later);
        }
    }

    #[test]
    fn huge_jumps_are_no_hops_and_are_not_later() {
        let mut dice = Dice::new(2);
        for time in TIMES {
            let mut halves = 0;
            for _ in 0..100 {
                let tick = huge_jump(&mut dice, time);
                assert!(!is_hop(time, tick));
                assert_eq!(steps_to(time, tick), None);
                halves += u32::from(distance(time, tick) == 1 << 31);
            }
            assert!((20..80).contains(&halves), "{} of 100", halves);
        }
    }
}
