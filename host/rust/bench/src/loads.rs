//! Intervals of a test load, drawn by both books from the same seeds, each from the last s of the one before.

use crate::lists::{Interval, Market, Trade, Trading};
use crate::timing::Costs;
use crate::typed::{cost, timed, Typed};

use guxhamole::Settings;

/// Intervals that a round draws: two weeks.
const DRAWN: usize = 4_032;

/// The seed that a round begins with.
const SEED: u32 = 2_026;

/// A book that draws intervals. Every call must be accepted.
pub trait Drawing: Typed {
    /// Fills the slices. Answers the last s.
    fn draw(&self, seed: u32, into: &mut Interval) -> u32;
}

impl Drawing for guxhamole::Book {
    #[inline(always)]
    fn draw(&self, seed: u32, into: &mut Interval) -> u32 {
        let slices = guxhamole::IntervalMut {
            prices: &mut into.prices,
            marks: &mut into.marks,
            flows: &mut into.flows,
            factors: &mut into.factors,
        };
        let drawn = self.synthetic(seed, into.number, into.day_kind, slices);
        drawn.expect("an accepted draw").seed
    }
}

impl Drawing for fast::Book {
    #[inline(always)]
    fn draw(&self, seed: u32, into: &mut Interval) -> u32 {
        let slices = fast::interval::IntervalMut {
            prices: &mut into.prices,
            marks: &mut into.marks,
            flows: &mut into.flows,
            factors: &mut into.factors,
        };
        self.synthetic(seed, slices).expect("an accepted draw")
    }
}

/// A book's size, and what it is opened with.
pub struct Load {
    market: Market,
    settings: Settings,
}

/// A book, the slices that it fills, and the next seed.
pub struct Host<B> {
    book: B,
    interval: Interval,
    seed: u32,
}

impl<B: Drawing> Host<B> {
    /// Draws the next interval.
    #[inline(always)]
    pub fn draw(&mut self) -> u32 {
        self.seed = self.book.draw(self.seed, &mut self.interval);
        self.seed
    }

    /// Nanoseconds of one draw.
    fn time(&mut self) -> f64 {
        self.seed = SEED;
        timed(DRAWN, || self.draw())
    }
}

impl Load {
    pub fn new(regions: u8, services: u8) -> Load {
        let market = Market {
            regions,
            services,
            window: 1,
            halves: 1,
        };
        let settings = Trading::new(&market, Trade::Free, 0, 0).settings;
        Load { market, settings }
    }

    pub fn host<B: Drawing>(&self) -> Host<B> {
        let regions = self.market.regions.into();
        Host {
            book: B::open(&self.settings, &mut vec![0; self.market.ring()]),
            interval: Interval {
                number: 0,
                day_kind: 0,
                prices: vec![1; self.market.prices()],
                marks: vec![1; regions],
                flows: vec![1; regions],
                factors: vec![1; regions],
            },
            seed: SEED,
        }
    }

    /// Both draw the same.
    fn compare(&self) {
        let mut proved = self.host::<guxhamole::Book>();
        let mut fast = self.host::<fast::Book>();
        for turn in 0..DRAWN {
            let last = (proved.draw(), fast.draw());
            let same = last.0 == last.1 && proved.interval.holds(&fast.interval);
            assert!(same, "interval {turn} differs");
        }
    }

    /// Measures the drawing of an interval.
    pub fn measure(&self, rounds: usize) -> Costs {
        self.compare();
        let mut proved = self.host::<guxhamole::Book>();
        let mut fast = self.host::<fast::Book>();
        let mut times = [Vec::new(), Vec::new()];
        for round in 0..rounds {
            for turn in 0..2 {
                let player = (turn + round) % 2;
                times[player].push(match player {
                    0 => proved.time(),
                    _ => fast.time(),
                });
            }
        }
        let [proved, fast] = times.map(|times| cost(times.into_iter()));
        Costs { proved, fast }
    }
}
