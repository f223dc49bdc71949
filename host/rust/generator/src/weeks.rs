//! Weeks of entries for windows that turn round: sums that stay about the threshold, and regions that are priced by schedule
//! for hours, so that periods begin and end.

use crate::random::Random;
use independent::ledger::Entry;
use independent::rules::price_allowed;
use independent::Ledger;

/// What lasts from entry to entry.
pub struct Weeks {
    /// Of each market whether it is dear, and for how many more intervals.
    spells: Vec<(bool, i64)>,
    /// Of each region for how many more intervals it is priced by schedule.
    suspended: Vec<i64>,
    schedule: Vec<i32>,
}

impl Weeks {
    pub fn new(random: &mut Random, ledger: &Ledger) -> Weeks {
        let shape = ledger.shape();
        let settings = ledger.settings();
        let (low, high) = (2 * i64::from(settings.floor), 2 * i64::from(settings.cap));
        let scheduled = |_| random.between(low, high) as i32;
        Weeks {
            schedule: (0..shape.schedule()).map(scheduled).collect(),
            spells: vec![(false, 0); shape.prices()],
            suspended: vec![0; shape.regions],
        }
    }

    /// The next entry, valid.
    pub fn entry(&mut self, random: &mut Random, ledger: &Ledger) -> Entry {
        let shape = *ledger.shape();
        let mut prices = Vec::new();
        for place in 0..shape.prices() {
            prices.push(self.price(random, ledger, place));
        }
        for _ in 0..2 {
            Weeks::meet_threshold(random, ledger, &mut prices);
        }
        for left in &mut self.suspended {
            *left = match *left {
                0 if random.below(600) == 0 => random.between(1, 90),
                0 => 0,
                left => left - 1,
            };
        }
        Entry {
            number: ledger.entries_taken(),
            kind: random.below(2) as u8,
            prices,
            marks: self
                .suspended
                .iter()
                .map(|&left| (left > 0).into())
                .collect(),
            flows: (0..shape.flows())
                .map(|_| random.between(-2, 2) as i32)
                .collect(),
            factors: (0..shape.flows())
                .map(|_| random.between(10_000, 20_000) as u32)
                .collect(),
            schedule: self.schedule.clone(),
        }
    }

    /// A price around its share of the threshold, above it for some hours where the sum is below, and below it for some hours
    /// where the sum is above; seldom at a bound.
    fn price(&mut self, random: &mut Random, ledger: &Ledger, place: usize) -> i32 {
        let shape = ledger.shape();
        let window = shape.window as i64;
        let share = ledger.settings().threshold / window;
        let (region, market) = (place / shape.markets(), place % shape.markets());
        let (dear, left) = &mut self.spells[place];
        if *left == 0 {
            let report = ledger.report(region as u32, market as u32);
            let sum = report.map_or(0, |report| report.sum);
            *dear = (sum <= ledger.settings().threshold) ^ random.chance(20);
            *left = random.between(1 + window / 32, 1 + window / 8);
        }
        *left -= 1;
        let energy = market == 0;
        let price = match random.below(1_000) {
            0 => 10_000_000,
            1 if energy => -10_000_000,
            _ if *dear => random.between(share, 3 * share),
            _ if energy => random.between(-share / 2, share),
            _ => random.between(0, share),
        };
        price.min(10_000_000) as i32
    }

    /// One price such that its market's sum becomes exactly the threshold, or one cent more, where a price can do that.
    fn meet_threshold(random: &mut Random, ledger: &Ledger, prices: &mut [i32]) {
        let shape = ledger.shape();
        let place = random.below(shape.prices());
        let (region, market) = (place / shape.markets(), place % shape.markets());
        let counted = ledger.counted(region, market);
        let full = counted.len() == shape.window;
        let staying = &counted[usize::from(full)..];
        let sum: i64 = staying.iter().map(|&price| i64::from(price)).sum();
        let wanted = ledger.settings().threshold + random.between(0, 1) - sum;
        if let Ok(price) = i32::try_from(wanted) {
            if price_allowed(market == 0, price) {
                prices[place] = price;
            }
        }
    }
}
