//! The intervals left, request 2026-02 of document 02: copies of the price are counted one after the other, and the sum is looked
//! at after each. There is no formula for the number. The ledger adds the last W prices of its history up anew each time; the book
//! lets the copies join a copy of its ring. Quotations are document 02's.

use crate::book::Book;
use crate::checking::market_of;
use crate::ledger::{Entry, Ledger};
use crate::rules::*;

/// "further unmarked intervals …, each bringing the window that price": the region alone is unmarked; other markets get 0.
fn further(shape: &Shape, region: usize, market: usize, price: i32) -> Entry {
    let mut entry = Entry {
        number: 0,
        kind: 0,
        prices: vec![0; shape.prices()],
        marks: vec![1; shape.regions],
        flows: vec![0; shape.flows()],
        factors: vec![10_000; shape.flows()],
        schedule: vec![0; shape.schedule()],
    };
    entry.prices[shape.place(region, market)] = price;
    entry.marks[region] = 0;
    entry
}

/// "the least number of further unmarked intervals, 1 to W, … after which the sum would exceed the present threshold …; 0 exactly if
/// none does": the place of the first sum of W that does, counted from 1.
fn first_above(threshold: i64, window: usize, sums: impl Iterator<Item = i128>) -> u32 {
    let mut left = (1..).zip(sums.take(window));
    let first = left.find(|(_, sum)| *sum > i128::from(threshold));
    first.map_or(0, |(number, _)| number)
}

impl Ledger {
    /// "43: a price outside the entry range, tested after 10, 11, 21 and store's 22"; a ledger never meets 10 and 22.
    pub fn intervals_left(
        &self,
        ring_length: usize,
        region: u32,
        market: u32,
        price: i32,
    ) -> Result<u32, Refusal> {
        let shape = self.shape();
        unless(ring_length == shape.ring(), 11)?;
        let (region, market) = market_of(shape, region, market)?;
        unless(price_allowed(market == 0, price), 43)?;
        let further = further(shape, region, market, price);
        let sums = self.sums_to_come(region, market, &further);
        Ok(first_above(self.settings().threshold, shape.window, sums))
    }
}

impl Book {
    /// "43: a price outside the entry range, tested after 10, 11, 21 and store's 22". "The book and ring stay."
    pub fn intervals_left(
        &self,
        ring: &[i32],
        region: u32,
        market: u32,
        price: i32,
    ) -> Result<u32, Refusal> {
        self.sound()?;
        let shape = self.shape();
        unless(ring.len() == shape.ring(), 11)?;
        let (region, market) = market_of(&shape, region, market)?;
        self.all_counted(ring)?;
        unless(price_allowed(market == 0, price), 43)?;
        let further = further(&shape, region, market, price);
        let (mut book, mut ring) = (self.clone(), ring.to_vec());
        let sums = std::iter::repeat_with(|| {
            book.join(region, &mut ring, &further.prices);
            i128::from(book.sums[11 * region + market])
        });
        Ok(first_above(self.threshold, shape.window, sums))
    }
}
