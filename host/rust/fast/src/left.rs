//! The intervals left, request 2026-02 of document 02: the store's tests, then one pass. Quotations are document 02's.

use crate::book::{all_within, lowest, unless, Book, Refusal, MARKETS};

impl Book {
    /// "the least number of further unmarked intervals, 1 to W, … after which the sum would exceed the present threshold …; 0 exactly
    /// if none does"; "43: a price outside the entry range, tested after 10, 11, 21 and store's 22".
    pub fn intervals_left(
        &self,
        ring: &[i32],
        region: u32,
        market: u32,
        price: i32,
    ) -> Result<u32, Refusal> {
        unless(self.valid(), 10)?;
        unless(ring.len() == self.ring_length(), 11)?;
        let known = region < u32::from(self.regions) && market <= u32::from(self.services);
        unless(known, 21)?;
        unless(self.counted_right(ring), 22)?;
        let (region, market) = (region as usize, market as usize);
        unless(all_within(lowest(market), [price].into_iter()), 43)?;
        let (window, price) = (usize::from(self.window), i64::from(price));
        let place = region * self.markets() + market;
        let (older, newer) = self.counted_of(place, &ring[place * window..][..window]);
        let mut sum = self.sums[MARKETS * region + market];
        // Until the window is full nothing leaves; then the counted prices do, oldest first.
        let filling = window - older.len() - newer.len();
        for number in 1..=filling {
            sum += price;
            if sum > self.threshold {
                return Ok(number as u32);
            }
        }
        let mut left = filling;
        for prices in [older, newer] {
            match self.leaving(&mut sum, price, prices) {
                Some(number) => return Ok((left + number) as u32),
                None => left += prices.len(),
            }
        }
        Ok(0)
    }

    /// The price joins as often as one of these leaves: how many have left once the sum is above the threshold.
    #[inline]
    fn leaving(&self, sum: &mut i64, price: i64, prices: &[i32]) -> Option<usize> {
        let above = prices.iter().position(|&oldest| {
            *sum += price - i64::from(oldest);
            *sum > self.threshold
        });
        above.map(|place| place + 1)
    }
}
