//! A test load that anyone can remake: intervals drawn from a seed, the same from the same seed everywhere.

use crate::{raw, Book, IntervalMut, Refusal};

/// What a draw answers, beside the slices that it filled.
#[derive(Clone, Copy, Debug, PartialEq, Eq)]
pub struct Drawn {
    /// The seed after the last draw: the next interval's.
    pub seed: u32,
    /// The entry's number, as it was given.
    pub number: u32,
    /// The entry's day kind, as it was given, of any value.
    pub day_kind: u8,
}

/// A test load; the book says how many regions and markets its intervals have, and stays.
impl Book {
    /// Draws an interval from any seed: every price, a flow and a factor for each region, and one more of both for the
    /// additional link, where the book has it; the marks are 0. Number and day kind are
    /// not tested, and are handed back as they came. An entry takes the prices, marks and factors, whatever the seed. 10, 11.
    ///
    /// Two intervals, drawn one after the other and entered:
    ///
    /// ```
    /// use guxhamole::{Book, Entry, IntervalMut, Refusal, Settings};
    ///
    /// // One region, energy alone.
    /// let settings = Settings { regions: 1, services: 0, window: 2, halves: 1, parents: [255; 8], ..Settings::default() };
    /// let mut ring = [0; 2];
    /// let mut book = Book::open(settings, &mut ring)?;
    ///
    /// let (mut prices, mut marks, mut flows, mut factors) = ([0], [0], [0], [0]);
    /// let mut seed = 0;
    /// for energy in [13_470, 1_769] {
    ///     let filled = IntervalMut { prices: &mut prices, marks: &mut marks, flows: &mut flows, factors: &mut factors };
    ///     let drawn = book.synthetic(seed, book.entries(), 0, filled)?;
    ///     assert_eq!(prices, [energy]);
    ///     seed = drawn.seed;
    ///
    ///     let entry = Entry {
    ///         number: drawn.number,
    ///         day_kind: drawn.day_kind,
    ///         prices: &prices,
    ///         marks: &marks,
    ///         flows: &flows,
    ///         factors: &factors,
    ///         schedule: &[0; 2],
    ///     };
    ///     book.enter(&mut ring, entry, &mut [0])?;
    /// }
    /// assert_eq!((flows, factors, seed), ([158], [10_750], 2_670_642_822));
    /// assert_eq!(book.report(0, 0)?.sum, 13_470 + 1_769);
    ///
    /// // One factor too many: a refused draw fills nothing.
    /// let filled = IntervalMut { prices: &mut prices, marks: &mut marks, flows: &mut flows, factors: &mut [0; 2] };
    /// assert_eq!(book.synthetic(seed, 2, 0, filled), Err(Refusal::Length));
    /// assert_eq!((prices, flows), ([1_769], [158]));
    /// # Ok::<(), Refusal>(())
    /// ```
    pub fn synthetic(
        &self,
        seed: u32,
        number: u32,
        day_kind: u8,
        into: IntervalMut<'_>,
    ) -> Result<Drawn, Refusal> {
        let drawn = raw::synthetic(*self.raw(), seed, number, day_kind, into);
        Refusal::unless_accepted(drawn.number, 0)?;
        Ok(Drawn {
            seed: drawn.seed,
            number: drawn.entry,
            day_kind: drawn.day_kind as u8,
        })
    }
}
