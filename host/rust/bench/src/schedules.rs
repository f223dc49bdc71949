//! The schedule maker, proved and hand-written, over the same four weeks of one market.

use crate::timing::Costs;
use crate::typed::{cost, timed};

use std::hint::black_box;

/// The half-hours of the days that are timed: the least, half of the real market's, the real market's.
pub const HALVES: [u8; 3] = [1, 24, 48];

const CAP: i32 = 60_000;
const FLOOR: i32 = -60_000;

/// A row of scheduled prices a day kind.
type Rows = [[i32; 48]; 2];

/// A refusal's number and place.
type Refused = (u32, usize);

/// The maker that goes with a book.
pub trait Maker {
    fn schedule(weeks: &Weeks) -> Result<Rows, Refused>;
}

impl Maker for guxhamole::Book {
    #[inline(always)]
    fn schedule(weeks: &Weeks) -> Result<Rows, Refused> {
        let (prices, kinds) = (&weeks.prices, &weeks.kinds);
        let made = guxhamole::schedule(weeks.halves, CAP, FLOOR, true, prices, kinds);
        let made = made.map(|schedule| [schedule.weekday, schedule.weekend]);
        made.map_err(|refusal| (refusal.number(), refusal.place().unwrap_or(0)))
    }
}

impl Maker for fast::Book {
    #[inline(always)]
    fn schedule(weeks: &Weeks) -> Result<Rows, Refused> {
        let (prices, kinds) = (&weeks.prices, &weeks.kinds);
        let made = fast::schedule(weeks.halves, CAP, FLOOR, true, prices, kinds);
        made.map_err(|refusal| (refusal.number, refusal.place as usize))
    }
}

/// Four weeks of energy prices, all in range, the last two days of each week kind 1.
#[derive(Clone)]
pub struct Weeks {
    halves: u8,
    prices: Vec<i32>,
    kinds: [u8; 28],
}

impl Weeks {
    /// Prices of ordinary hours and, one in seven, far above the cap or below the floor, so that means lie on either side of both.
    pub fn new(halves: u8) -> Weeks {
        let price = |place: usize| {
            let change = (place * 7_919 % 20_011) as i32;
            let half = place / 6 % usize::from(halves);
            match (place % 7, half % 6) {
                (0, 4) => 10_000_000 - change,
                (0, 5) => change - 10_000_000,
                _ => 8_000 - change,
            }
        };
        Weeks {
            halves,
            prices: (0..28 * 6 * usize::from(halves)).map(price).collect(),
            kinds: std::array::from_fn(|day| (day % 7 >= 5).into()),
        }
    }

    pub fn prices(&self) -> usize {
        self.prices.len()
    }

    /// Both make the same rows; and with a price out of range at an end of the weeks, or of a day, both refuse it at its place.
    fn compare(&self) {
        let both = |weeks: &Weeks| {
            let made = guxhamole::Book::schedule(weeks);
            assert!(made == fast::Book::schedule(weeks), "a schedule differs");
            made
        };
        assert!(both(self).is_ok(), "the schedule is refused");
        let day = self.prices.len() / 28;
        for place in [0, day - 1, day, self.prices.len() - 1] {
            let mut spoilt = self.clone();
            spoilt.prices[place] = 10_000_001;
            assert!(both(&spoilt) == Err((16, place)), "a price is taken");
        }
    }

    /// Measures the making of a schedule.
    pub fn measure(&self, rounds: usize) -> Costs {
        self.compare();
        let mut times = [Vec::new(), Vec::new()];
        for round in 0..rounds {
            for turn in 0..2 {
                let player = (turn + round) % 2;
                times[player].push(match player {
                    0 => self.time::<guxhamole::Book>(),
                    _ => self.time::<fast::Book>(),
                });
            }
        }
        let [proved, fast] = times.map(|times| cost(times.into_iter()));
        Costs { proved, fast }
    }

    /// Nanoseconds of one making.
    fn time<M: Maker>(&self) -> f64 {
        let calls = (400_000 / self.prices.len()).clamp(20, 2_000);
        timed(calls, || M::schedule(black_box(self)))
    }
}
