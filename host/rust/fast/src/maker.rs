//! The schedule maker in one pass over the four weeks: a running total and count for each half-hour and kind. It does the work that
//! the proved one promises, no less: every price is read once, whatever is found, and after each day the totals and counts are those
//! of the days so far, whatever the prices.

use crate::book::{limits_valid, lowest, unless, Refusal, MOST_PRICE};

/// "28 days", and the intervals of a half-hour.
const DAYS: usize = 28;
const HALF: usize = 6;

/// The half-hours that a row has places for.
const HALVES: usize = 48;

/// "two rows of 48 prices, a row a kind, places from H up zero"
pub type Rows = [[i32; HALVES]; 2];

/// "Maker: 31 H or lengths; 32 kind not 0 or 1, or one kind missing; 19; 16 with place."
pub fn schedule(
    halves: u8,
    cap: i32,
    floor: i32,
    energy: bool,
    prices: &[i32],
    kinds: &[u8],
) -> Result<Rows, Refusal> {
    let halves = usize::from(halves);
    let lengths_right = prices.len() == DAYS * HALF * halves && kinds.len() == DAYS;
    unless((1..=HALVES).contains(&halves) && lengths_right, 31)?;
    unless(kinds.iter().all(|&kind| kind <= 1), 32)?;
    unless(kinds.contains(&0) && kinds.contains(&1), 32)?;
    unless(limits_valid(cap, floor), 19)?;
    let low = if energy { floor } else { 0 };
    let mut running = Running::NONE;
    running.pass(halves, energy, prices, kinds);
    match running.bad {
        Some(place) => Err(Refusal { number: 16, place }),
        None => Ok(running.rows(halves, low, cap)),
    }
}

/// What the pass keeps. Public so that a test can look at it after any number of days.
#[derive(Clone, Debug, PartialEq, Eq)]
pub struct Running {
    /// Of each kind and half-hour; 168 prices of 32 bits are far from the ends of 64.
    pub totals: [[i64; HALVES]; 2],
    /// How many prices each total is of.
    pub counts: [[u32; HALVES]; 2],
    /// The place of the first price out of range.
    pub bad: Option<u32>,
}

impl Running {
    /// Before the first day.
    pub const NONE: Running = Running {
        totals: [[0; HALVES]; 2],
        counts: [[0; HALVES]; 2],
        bad: None,
    };

    /// The pass, from `NONE`, over whole days of 1 to 48 half-hours and their kinds, 0 or 1. The market is settled first: tests against
    /// constants take a fifth less time than against variables.
    pub fn pass(&mut self, halves: usize, energy: bool, prices: &[i32], kinds: &[u8]) {
        if energy {
            self.days::<{ lowest(0) }>(HALF * halves, prices, kinds);
        } else {
            self.days::<{ lowest(1) }>(HALF * halves, prices, kinds);
        }
    }

    /// Day by day, to the end.
    fn days<const LEAST: i32>(&mut self, day: usize, prices: &[i32], kinds: &[u8]) {
        for (number, (prices, &kind)) in prices.chunks_exact(day).zip(kinds).enumerate() {
            self.add::<LEAST>(number * day, prices, kind.into());
        }
    }

    /// A day, which begins at `place`, joins its kind. The six prices of a half-hour are copied out of the slice and tested; six in
    /// range make no more than 60,000,000, so that 32 bits hold their sum. Comparing each with constants is the fastest form of those
    /// tried, as four are then compared at once; signs or extremes of the six are slower, also for two half-hours together, and sums
    /// of 64 bits for all take nearly twice the time.
    #[inline]
    fn add<const LEAST: i32>(&mut self, place: usize, prices: &[i32], kind: usize) {
        let (halves, _) = prices.as_chunks::<HALF>();
        let cells = self.totals[kind].iter_mut().zip(&mut self.counts[kind]);
        for (half, ((total, count), &six)) in cells.zip(halves).enumerate() {
            *total += if six.iter().all(|&price| in_range(LEAST, price)) {
                i64::from(six.into_iter().sum::<i32>())
            } else {
                note(&mut self.bad, LEAST, place + HALF * half, six)
            };
            *count += HALF as u32;
        }
    }

    /// "each is the mean of all prices of that half-hour and kind, rounded half away from zero, then held as in step 1"
    fn rows(&self, halves: usize, low: i32, cap: i32) -> Rows {
        let mut rows = [[0; HALVES]; 2];
        for ((row, totals), counts) in rows.iter_mut().zip(&self.totals).zip(&self.counts) {
            let sums = totals.iter().zip(counts).take(halves);
            for (cell, (&total, &count)) in row.iter_mut().zip(sums) {
                *cell = mean(total, count).clamp(low, cap);
            }
        }
        rows
    }
}

#[inline]
fn in_range(least: i32, price: i32) -> bool {
    (least..=MOST_PRICE).contains(&price)
}

/// Six prices from `place` on that are not all in range: the first bad one is noted, if none was before. Answers their sum, which may
/// need 64 bits. Out of line, because the pass takes half as long again where it has this in its midst.
#[cold]
#[inline(never)]
fn note(bad: &mut Option<u32>, least: i32, place: usize, six: [i32; HALF]) -> i64 {
    let first = six.iter().position(|&price| !in_range(least, price));
    *bad = bad.or(first.map(|first| (place + first) as u32));
    six.into_iter().map(i64::from).sum()
}

/// A total over an even count, "rounded half away from zero". Prices in range have a mean in range.
#[inline]
fn mean(total: i64, count: u32) -> i32 {
    let (magnitude, count) = (total.unsigned_abs(), u64::from(count));
    let rounded = ((magnitude + count / 2) / count) as i32;
    if total < 0 {
        -rounded
    } else {
        rounded
    }
}
