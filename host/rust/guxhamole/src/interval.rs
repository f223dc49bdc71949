//! Interval records, as loggers hand them over: one interval read from any place of their bytes, one written, and one of the earlier
//! form, whose regions stand in any order, rewritten to the one that is read.

use crate::{raw, Book, Refusal};

/// What an interval's records say: an entry, its schedule aside. M = S + 1.
#[derive(Clone, Copy, Debug, PartialEq, Eq)]
pub struct Interval<'a> {
    /// The entry's number.
    pub number: u32,
    /// 0 weekday, 1 weekend or holiday; records take any.
    pub day_kind: u8,
    /// R × M prices, region by region, cents.
    pub prices: &'a [i32],
    /// R marks: 1 where the region is priced by schedule; records take any.
    pub marks: &'a [u8],
    /// R flows; where the book has the additional link R + 1, the last that link's.
    pub flows: &'a [i32],
    /// As many loss factors in ten-thousandths.
    pub factors: &'a [u32],
}

/// What a reading or a draw fills: the slices of an [`Interval`], of the same lengths.
#[derive(Debug, PartialEq, Eq)]
pub struct IntervalMut<'a> {
    /// R × M prices, region by region, cents.
    pub prices: &'a mut [i32],
    /// R marks.
    pub marks: &'a mut [u8],
    /// R flows, or R + 1.
    pub flows: &'a mut [i32],
    /// As many loss factors in ten-thousandths.
    pub factors: &'a mut [u32],
}

/// What a reading found, beside the slices that it filled.
#[derive(Clone, Copy, Debug, PartialEq, Eq)]
pub struct Found {
    /// The place after the interval, where the next one begins if there is one.
    pub next: usize,
    /// The entry's number.
    pub number: u32,
    /// The entry's day kind, of any value.
    pub day_kind: u8,
}

/// Interval records; the book says how many regions and markets they have, and stays.
impl Book {
    /// Reads the interval whose head stands at a place of the records, its regions in number order, and behind them, exactly where the
    /// book has it, the additional link: 10, 11, then record by record 40, 41, 45. No range is tested, which is the entry's part, and
    /// what follows the interval isn't looked at. So one entry has one form: two places that read to the same entry hold the same bytes.
    ///
    /// Written, read back and entered:
    ///
    /// ```
    /// use guxhamole::{Book, Entry, Found, Interval, IntervalMut, Refusal, Settings};
    ///
    /// // Two linked regions, energy alone.
    /// let parents = [255, 0, 255, 255, 255, 255, 255, 255];
    /// let settings = Settings { regions: 2, services: 0, window: 1, halves: 1, parents, ..Settings::default() };
    /// let mut ring = [0; 2];
    /// let mut book = Book::open(settings, &mut ring)?;
    ///
    /// let interval = Interval {
    ///     number: 0,
    ///     day_kind: 0,
    ///     prices: &[100_000, 90_000],
    ///     marks: &[0, 0],
    ///     flows: &[0, 1],
    ///     factors: &[0, 11_000],
    /// };
    /// let mut records = [0; guxhamole::interval_length(2, 0, guxhamole::NONE)];
    /// assert_eq!(book.write_interval(interval, &mut records), Ok(52));
    ///
    /// let (mut prices, mut marks, mut flows, mut factors) = ([0; 2], [0; 2], [0; 2], [0; 2]);
    /// let filled = IntervalMut { prices: &mut prices, marks: &mut marks, flows: &mut flows, factors: &mut factors };
    /// let found = book.read_interval(&records, 0, filled)?;
    /// assert_eq!(found, Found { next: 52, number: 0, day_kind: 0 });
    ///
    /// let entry = Entry {
    ///     number: found.number,
    ///     day_kind: found.day_kind,
    ///     prices: &prices,
    ///     marks: &marks,
    ///     flows: &flows,
    ///     factors: &factors,
    ///     schedule: &[0; 4],
    /// };
    /// let mut table = [0; 2];
    /// assert_eq!(book.enter(&mut ring, entry, &mut table), Ok(0));
    /// assert_eq!(table, [100_000, 90_000]);
    ///
    /// // No interval follows, and a refused reading fills nothing.
    /// let filled = IntervalMut { prices: &mut prices, marks: &mut marks, flows: &mut flows, factors: &mut factors };
    /// assert_eq!(book.read_interval(&records, found.next, filled), Err(Refusal::Broken));
    /// assert_eq!(prices, [100_000, 90_000]);
    /// # Ok::<(), Refusal>(())
    /// ```
    pub fn read_interval(
        &self,
        records: &[u8],
        at: usize,
        interval: IntervalMut<'_>,
    ) -> Result<Found, Refusal> {
        let found = raw::interval_read(*self.raw(), records, at, interval);
        Refusal::unless_accepted(found.number, 0)?;
        Ok(Found {
            next: found.next as usize,
            number: found.entry,
            day_kind: found.day_kind as u8,
        })
    }

    /// Writes an interval's records from the buffer's start on, regions upward, then the additional link's: their length in bytes, which is
    /// [`Book::interval_length`]. The bytes after them stay. 10, 11, 23.
    ///
    /// ```
    /// # use guxhamole::{Book, Interval, Refusal, Settings};
    /// # let mut ring = vec![0; guxhamole::ring_length(5, 10, 2_016)];
    /// # let book = Book::open(Settings::default(), &mut ring)?;
    /// let interval = Interval {
    ///     number: 7,
    ///     day_kind: 1,
    ///     prices: &[8_000; 55],
    ///     marks: &[0; 5],
    ///     flows: &[0; 5],
    ///     factors: &[10_000; 5],
    /// };
    /// let mut records = [0; guxhamole::MOST_INTERVAL];
    /// assert_eq!(book.write_interval(interval, &mut records), Ok(312));
    /// assert_eq!(records[..12], [12, 0, 0, 0, 16, 0, 7, 0, 0, 0, 1, 5]);
    /// assert_eq!(book.write_interval(interval, &mut records[..311]), Err(Refusal::Buffer));
    /// # Ok::<(), Refusal>(())
    /// ```
    pub fn write_interval(
        &self,
        interval: Interval<'_>,
        buffer: &mut [u8],
    ) -> Result<usize, Refusal> {
        let stored = raw::interval_write(*self.raw(), interval, buffer);
        Refusal::unless_accepted(stored.number, 0)?;
        Ok(stored.length as usize)
    }

    /// Takes the interval of the earlier form, its regions in any order, whose head stands at a place of the records, and writes it from
    /// the buffer's start on with its regions in number order, each record as it stood, the additional link's too: the place after the
    /// interval taken. The bytes
    /// written are [`Book::interval_length`], those after them stay. 10, 23, then record by record 40, 41, 42; no range is tested. An
    /// interval that reads is rewritten to itself.
    ///
    /// Everything that a logger wrote in the earlier form, rewritten end to end:
    ///
    /// ```
    /// use guxhamole::{Book, Interval, IntervalMut, Refusal, Settings};
    ///
    /// let parents = [255, 0, 255, 255, 255, 255, 255, 255];
    /// let settings = Settings { regions: 2, services: 0, window: 1, halves: 1, parents, ..Settings::default() };
    /// let book = Book::open(settings, &mut [0; 2])?;
    ///
    /// // One interval as the writer has it, and the same with its two region records exchanged.
    /// let prices = [100_000, 90_000];
    /// let interval = Interval { number: 0, day_kind: 0, prices: &prices, marks: &[0, 0], flows: &[0, 1], factors: &[0, 11_000] };
    /// let mut fixed = [0; 52];
    /// book.write_interval(interval, &mut fixed)?;
    /// let earlier = [&fixed[..], &fixed[..12], &fixed[32..], &fixed[12..32]].concat();
    ///
    /// let (mut prices, mut marks, mut flows, mut factors) = ([0; 2], [0; 2], [0; 2], [0; 2]);
    /// let filled = IntervalMut { prices: &mut prices, marks: &mut marks, flows: &mut flows, factors: &mut factors };
    /// assert_eq!(book.read_interval(&earlier, 52, filled), Err(Refusal::RecordOrder));
    ///
    /// let (mut at, mut later) = (0, Vec::new());
    /// while at < earlier.len() {
    ///     let mut buffer = [0; guxhamole::interval_length(2, 0, guxhamole::NONE)];
    ///     at = book.rewrite_interval(&earlier, at, &mut buffer)?;
    ///     later.extend(buffer);
    /// }
    /// assert_eq!(later, [fixed, fixed].concat());
    /// assert_eq!(book.rewrite_interval(&earlier, 0, &mut [0; 51]), Err(Refusal::Buffer));
    /// # Ok::<(), Refusal>(())
    /// ```
    pub fn rewrite_interval(
        &self,
        records: &[u8],
        at: usize,
        buffer: &mut [u8],
    ) -> Result<usize, Refusal> {
        let rewritten = raw::interval_rewrite(*self.raw(), records, at, buffer);
        Refusal::unless_accepted(rewritten.number, 0)?;
        Ok(rewritten.next as usize)
    }
}
