//! A retailer's bill held against the rules: a day's intervals played over a copy of the book's ring, and a line for each of them.

use crate::{raw, Book, Refusal};

/// A bill's lines in four slices of one length: place i of each is line i, for interval i of the day.
#[derive(Clone, Copy, Debug, PartialEq, Eq)]
pub struct Lines<'a> {
    /// The interval's number.
    pub numbers: &'a [u32],
    /// Kilowatt-hours, up to 1,000,000,000.
    pub energy: &'a [u32],
    /// The published energy price, cents per megawatt-hour.
    pub prices: &'a [i32],
    /// Kilowatt-hours × price / 1,000, rounded half away from zero: cents.
    pub amounts: &'a [i64],
}

/// What the rules say of a bill.
#[derive(Clone, Copy, Debug, PartialEq, Eq, Hash)]
pub enum Judgement {
    /// One line an interval in order, and every number, price and amount is right.
    Right,
    /// The first wrong line, counted from 0; of a bill with too few or too many lines it may be the missing or the surplus one.
    Wrong(usize),
}

/// A bill; the book, the one before the day's first interval, and its ring stay.
impl Book {
    /// Holds a bill for a region against the day's records, from their first byte to their last, and one schedule. Every interval is read
    /// and entered, as [`Book::read_interval`] and [`Book::enter`] would, on a copy of the book and of its ring: `work`, of the ring's
    /// length, becomes that copy once 10, 11 and 21 pass, and holds what the entries made of it, after a refusal too. Then 46, for any
    /// line. 10, 11, 21; 40, 41, 45 and 12 to 17 interval by interval, and 10 there over a ring that others changed; 46.
    ///
    /// A day of two intervals, the second one capped:
    ///
    /// ```
    /// use guxhamole::{Book, Interval, Judgement, Lines, Refusal, Settings};
    ///
    /// // One region, energy alone, a window of one price.
    /// let settings = Settings { regions: 1, services: 0, window: 1, halves: 1, threshold: 90_000, ..Settings::default() };
    /// let settings = Settings { parents: [255; 8], ..settings };
    /// let (mut ring, mut work) = ([0], [0]);
    /// let book = Book::open(settings, &mut ring)?;
    ///
    /// let mut day = [0; 2 * guxhamole::interval_length(1, 0, guxhamole::NONE)];
    /// let first = Interval { number: 0, day_kind: 0, prices: &[100_000], marks: &[0], flows: &[0], factors: &[0] };
    /// let at = book.write_interval(first, &mut day)?;
    /// book.write_interval(Interval { number: 1, prices: &[70_000], ..first }, &mut day[at..])?;
    ///
    /// // 3 kWh at 1,000 dollars a megawatt-hour, then one at the cap of 600 dollars.
    /// let lines = Lines { numbers: &[0, 1], energy: &[3, 1], prices: &[100_000, 60_000], amounts: &[300, 60] };
    /// assert_eq!(book.check_bill(&ring, &mut work, &day, &[0; 2], 0, lines), Ok(Judgement::Right));
    /// assert_eq!((work, ring, book.entries()), ([70_000], [0], 0));
    ///
    /// // The entry price is not the published one.
    /// let entered = Lines { prices: &[100_000, 70_000], amounts: &[300, 70], ..lines };
    /// assert_eq!(book.check_bill(&ring, &mut work, &day, &[0; 2], 0, entered), Ok(Judgement::Wrong(1)));
    ///
    /// let wild = Lines { energy: &[3, 1_000_000_001], ..lines };
    /// assert_eq!(book.check_bill(&ring, &mut work, &day, &[0; 2], 0, wild), Err(Refusal::BilledEnergy(1)));
    /// # Ok::<(), Refusal>(())
    /// ```
    pub fn check_bill(
        &self,
        ring: &[i32],
        work: &mut [i32],
        records: &[u8],
        schedule: &[i32],
        region: u32,
        lines: Lines<'_>,
    ) -> Result<Judgement, Refusal> {
        let billed = raw::bill(*self.raw(), ring, work, records, schedule, region, lines);
        Refusal::unless_accepted(billed.number, billed.place)?;
        Ok(match billed.right {
            1 => Judgement::Right,
            _ => Judgement::Wrong(billed.line as usize),
        })
    }
}
