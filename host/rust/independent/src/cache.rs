//! What the ledger recomputes from its history, remembered. The plain ledger is the definition, and a test of `compare` holds
//! this form to it on small books. No window moves here either: a sum is the difference of two totals over all of a market's
//! prices.

use crate::ledger::{Entry, Event, Start};
use crate::rules::{Settings, Shape};
use std::iter::repeat_with;

#[derive(Clone, Debug, PartialEq, Eq)]
pub(crate) struct Cache {
    /// Those last set.
    settings: Settings,
    /// The position that the history starts at, and the entries taken since.
    first: usize,
    entries: usize,
    /// One for each of R × M.
    markets: Vec<Market>,
}

#[derive(Clone, Debug, PartialEq, Eq)]
struct Market {
    /// Every entry price at which the region was unmarked, oldest first, those of the start before them.
    prices: Vec<i32>,
    /// Of the first n of these prices the total, for each n up to all of them.
    totals: Vec<i128>,
    /// Whether the market was administered at the start.
    at_start: bool,
    /// The last entry that triggered the market and the last that released it, counted from the start.
    trigger: Option<usize>,
    release: Option<usize>,
}

impl Cache {
    pub fn new(start: &Start) -> Cache {
        let begun = start.counted.iter().zip(&start.administered);
        let markets = begun.map(|(counted, &at_start)| {
            let mut market = Market {
                prices: Vec::new(),
                totals: vec![0],
                at_start,
                trigger: None,
                release: None,
            };
            counted.iter().for_each(|&price| market.count(price));
            market
        });
        Cache {
            settings: start.settings,
            first: start.position,
            entries: 0,
            markets: markets.collect(),
        }
    }

    pub fn note(&mut self, shape: &Shape, event: &Event) {
        match event {
            Event::Threshold(threshold) => self.settings.threshold = *threshold,
            Event::Limits(cap, floor) => {
                (self.settings.cap, self.settings.floor) = (*cap, *floor);
            }
            Event::Entry(entry) => {
                let t = self.entries;
                let last_of_day = (self.first + t) % shape.day() == shape.day() - 1;
                for (place, market) in self.markets.iter_mut().enumerate() {
                    if entry.marks[place / shape.markets()] == 0 {
                        market.count(entry.prices[place]);
                    }
                    if market.sum(shape.window) > i128::from(self.settings.threshold) {
                        market.trigger = Some(t);
                    } else if last_of_day {
                        market.release = Some(t);
                    }
                }
                self.entries += 1;
            }
        }
    }

    pub fn entries(&self) -> usize {
        self.entries
    }

    pub fn settings(&self) -> Settings {
        self.settings
    }

    fn market(&self, shape: &Shape, region: usize, market: usize) -> &Market {
        &self.markets[shape.place(region, market)]
    }

    pub fn counted(&self, shape: &Shape, region: usize, market: usize) -> &[i32] {
        let market = self.market(shape, region, market);
        &market.prices[market.older(shape.window)..]
    }

    pub fn sum(&self, shape: &Shape, region: usize, market: usize) -> i128 {
        self.market(shape, region, market).sum(shape.window)
    }

    /// A market's sums after one further entry, after two and so on: its prices are copied, and the copy counts on.
    pub fn sums_to_come(
        &self,
        shape: &Shape,
        region: usize,
        market: usize,
        further: &Entry,
    ) -> impl Iterator<Item = i128> {
        let (place, window) = (shape.place(region, market), shape.window);
        let (marked, price) = (further.marks[region] == 1, further.prices[place]);
        let mut copy = self.markets[place].clone();
        repeat_with(move || {
            if !marked {
                copy.count(price);
            }
            copy.sum(window)
        })
    }

    /// "some j < t triggers it and no i with j ≤ i < t releases it": if any such j there is, the last one that triggers is one,
    /// and no entry both triggers and releases.
    pub fn administered(&self, shape: &Shape, region: usize, market: usize) -> bool {
        let market = self.market(shape, region, market);
        let from_start = market.at_start && market.release.is_none();
        from_start || market.trigger > market.release
    }
}

impl Market {
    fn count(&mut self, price: i32) {
        let total = self.totals[self.prices.len()] + i128::from(price);
        self.prices.push(price);
        self.totals.push(total);
    }

    /// How many prices are no longer counted.
    fn older(&self, window: usize) -> usize {
        self.prices.len().saturating_sub(window)
    }

    fn sum(&self, window: usize) -> i128 {
        self.totals[self.prices.len()] - self.totals[self.older(window)]
    }
}
