//! The entry of an interval: its refusals in order, windows and periods.

use crate::book::{all_within, lowest, unless, Book, Refusal, MARKETS, MOST_ENTRIES, NO_PARENT};

/// What an entry lends, but for ring and table.
#[derive(Clone, Copy, Debug)]
pub struct Entry<'a> {
    pub number: u32,
    pub kind: u8,
    pub prices: &'a [i32],
    pub marks: &'a [u8],
    pub flows: &'a [i32],
    pub factors: &'a [u32],
    pub schedule: &'a [i32],
}

fn refused_at(number: u32, place: usize) -> Result<(), Refusal> {
    let place = place as u32;
    Err(Refusal { number, place })
}

impl Book {
    /// Takes an entry: publishes into the table and answers "the count of published prices that differ from the effective
    /// ones". A refused entry writes nothing.
    pub fn enter(
        &mut self,
        ring: &mut [i32],
        entry: &Entry,
        table: &mut [i32],
    ) -> Result<u32, Refusal> {
        unless(self.valid(), 10)?;
        unless(self.lengths_right(ring.len(), entry, table.len()), 11)?;
        self.enter_lent(ring, entry, table)
    }

    /// An entry on a valid book, all of whose slices have their lengths: from 12 on.
    #[inline]
    pub(crate) fn enter_lent(
        &mut self,
        ring: &mut [i32],
        entry: &Entry,
        table: &mut [i32],
    ) -> Result<u32, Refusal> {
        unless(self.entries < MOST_ENTRIES, 12)?;
        unless(entry.number == self.entries, 13)?;
        unless(entry.kind <= 1, 14)?;
        if let Some(region) = entry.marks.iter().position(|&mark| mark > 1) {
            refused_at(15, region)?;
        }
        self.check_prices(entry)?;
        self.check_factors(entry)?;
        let count = self.publish(entry, table);
        self.take(ring, entry);
        Ok(count)
    }

    /// "11 any slice's length (schedule R × M × 2 × H)"
    fn lengths_right(&self, ring: usize, entry: &Entry, table: usize) -> bool {
        let regions = usize::from(self.regions);
        let prices = self.prices();
        ring == self.ring_length()
            && entry.prices.len() == prices
            && entry.marks.len() == regions
            && entry.flows.len() == self.links()
            && entry.factors.len() == self.links()
            && entry.schedule.len() == prices * 2 * usize::from(self.halves)
            && table == prices
    }

    /// "16 an unmarked region's energy beyond ±10,000,000 or service outside 0..10,000,000": whole rows first, the place
    /// only where a row has one.
    fn check_prices(&self, entry: &Entry) -> Result<(), Refusal> {
        let markets = self.markets();
        for (region, row) in entry.prices.chunks_exact(markets).enumerate() {
            let (energy, services) = row.split_at(1);
            let within = all_within(lowest(0), energy.iter().copied())
                & all_within(lowest(1), services.iter().copied());
            if entry.marks[region] == 0 && !within {
                let one = |market: usize| all_within(lowest(market), [row[market]].into_iter());
                let market = (0..markets).find(|&market| !one(market));
                refused_at(16, region * markets + market.unwrap_or(0))?;
            }
        }
        Ok(())
    }

    /// "17 a factor out of range where the region has a parent", and then the additional link's, whatever its flow.
    fn check_factors(&self, entry: &Entry) -> Result<(), Refusal> {
        let wrong = |factor: &u32| !(10_000..=20_000).contains(factor);
        let regions = usize::from(self.regions);
        let (of_regions, of_link) = entry.factors.split_at(regions);
        let mut linked = self.parents.iter().zip(of_regions);
        let bad = linked.position(|(&parent, factor)| parent != NO_PARENT && wrong(factor));
        match bad {
            Some(region) => refused_at(17, region),
            None if of_link.iter().any(wrong) => refused_at(17, regions),
            None => Ok(()),
        }
    }

    /// Steps 5 and 6: the entry's prices join the windows of unmarked regions, then every market's period.
    fn take(&mut self, ring: &mut [i32], entry: &Entry) {
        let markets = self.markets();
        let last = self.position + 1 == self.day();
        let kept = u8::from(!last);
        for region in 0..usize::from(self.regions) {
            if entry.marks[region] == 0 {
                self.join(ring, region, &entry.prices[region * markets..][..markets]);
            }
            let used = MARKETS * region..MARKETS * region + markets;
            let sums = &self.sums[used.clone()];
            for (mark, &sum) in self.marks[used].iter_mut().zip(sums) {
                *mark = u8::from(sum > self.threshold) | (*mark & kept);
            }
        }
        self.entries += 1;
        self.position = if last { 0 } else { self.position + 1 };
    }

    /// A region's prices join its windows; "the oldest leaves once W are counted".
    #[inline]
    fn join(&mut self, ring: &mut [i32], region: usize, prices: &[i32]) {
        let window = usize::from(self.window);
        let next = self.nexts[region];
        let full = self.counts[region] == self.window;
        let sums = &mut self.sums[MARKETS * region..][..prices.len()];
        let mut at = region * prices.len() * window + usize::from(next);
        for (sum, &price) in sums.iter_mut().zip(prices) {
            let slot = &mut ring[at];
            let oldest = if full { *slot } else { 0 };
            *sum += i64::from(price) - i64::from(oldest);
            *slot = price;
            at += window;
        }
        self.counts[region] += u16::from(!full);
        self.nexts[region] = if next + 1 == self.window { 0 } else { next + 1 };
    }
}
