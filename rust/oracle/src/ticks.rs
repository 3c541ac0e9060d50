//! "Tick counter rolls over": the unit counts ticks in 32 bits, and after the last of
//! them its counter shows 0 and goes on. Written from the request's words. The counter
//! is followed as it goes forward from the latest tick, in wider numbers and with no
//! difference that wraps: a tick counts as later or equal where the counter comes to
//! show it before half a turn is over.

/// The counter goes once round in so many ticks.
pub const TURN: u128 = 4_294_967_296;

/// A tick that lies so far ahead, or farther, is not later.
const HALF_A_TURN: u128 = 2_147_483_648;

/// The total of a book may not pass this.
pub const MOST_TOTAL: u128 = 9_223_372_036_854_775_807;

/// How many steps the counter takes from the latest tick to the given one: none for the
/// same tick, and no answer where it is not there before half a turn is over.
pub fn steps_to(latest: u32, tick: u32) -> Option<u128> {
    let start = u128::from(latest);
    let in_this_turn = u128::from(tick);
    let shown = if in_this_turn >= start {
        in_this_turn
    } else {
        in_this_turn + TURN
    };
    if shown < start + HALF_A_TURN {
        Some(shown - start)
    } else {
        None
    }
}

/// The tick that the counter shows so many steps after T0.
pub fn tick_after(t0: u32, steps: u128) -> u32 {
    ((u128::from(t0) + steps) % TURN) as u32
}

#[cfg(test)]
mod tests {
    use super::*;

    const LAST: u32 = u32::MAX;

    #[test]
    fn half_a_turn_ahead_is_not_later() {
        for (latest, just_before, half) in [
            (0, 2_147_483_647, 2_147_483_648),
            (5, 2_147_483_652, 2_147_483_653),
            (2_147_483_648, LAST, 0),
            (2_147_483_649, 0, 1),
            (LAST, 2_147_483_646, 2_147_483_647),
        ] {
            assert_eq!(steps_to(latest, just_before), Some(2_147_483_647));
            assert_eq!(steps_to(latest, half), None);
        }
    }

    #[test]
    fn a_tick_back_is_not_later() {
        for (latest, back) in [(1, 0), (0, LAST), (LAST, LAST - 1), (45, 44), (7, LAST - 7)] {
            assert_eq!(steps_to(latest, back), None);
        }
    }

    #[test]
    fn the_same_tick_takes_no_steps() {
        for tick in [0, 1, 2_147_483_647, 2_147_483_648, LAST] {
            assert_eq!(steps_to(tick, tick), Some(0));
        }
    }

    #[test]
    fn after_the_last_tick_comes_0() {
        assert_eq!(steps_to(LAST, 0), Some(1));
        assert_eq!(steps_to(LAST - 9, 10), Some(20));
    }

    /// By counting, from ticks on either side of the end.
    #[test]
    fn steps_are_those_that_the_counter_takes() {
        for start in [0, 3, 2_147_483_640, LAST - 500, LAST] {
            let mut shown = start;
            for steps in 0..1_000 {
                assert_eq!(steps_to(start, shown), Some(steps));
                assert_eq!(tick_after(start, steps), shown);
                shown = if shown == LAST { 0 } else { shown + 1 };
            }
        }
    }

    #[test]
    fn whole_turns_do_not_show() {
        for t0 in [0, 77, LAST] {
            for turns in [1, 2, 3, 2_147_483_647] {
                assert_eq!(tick_after(t0, turns * TURN), t0);
                assert_eq!(tick_after(t0, turns * TURN + 1), tick_after(t0, 1));
            }
        }
    }
}
