//! The book record, rule 10, opening, settings and reports.

/// Regions and markets that the record has places for.
pub const REGIONS: usize = 8;
pub const MARKETS: usize = 11;

/// "10,000,000 entries taken"
pub const MOST_ENTRIES: u32 = 10_000_000;

/// The highest price, cap or floor, in either direction.
pub const MOST_PRICE: i32 = 10_000_000;

/// "255 for none"
pub const NO_PARENT: u8 = 255;

/// "(255, 255 for none)": of the additional link (request 2026-10 of document 02).
pub const NO_END: u8 = 255;

/// The most flows, and factors: those of eight regions and the additional link.
pub const LINKS: usize = REGIONS + 1;

/// "a sum beyond ±20,160,000,000"
const MOST_SUM: i64 = 20_160_000_000;

/// A refusal's number and place.
#[derive(Clone, Copy, Debug, PartialEq, Eq)]
pub struct Refusal {
    pub number: u32,
    pub place: u32,
}

/// A refusal without a place, unless something holds.
#[inline]
pub(crate) fn unless(holds: bool, number: u32) -> Result<(), Refusal> {
    if holds {
        Ok(())
    } else {
        Err(Refusal { number, place: 0 })
    }
}

/// What a book is opened with.
#[derive(Clone, Copy, Debug, PartialEq, Eq)]
pub struct Opening {
    pub regions: u8,
    pub services: u8,
    pub window: u16,
    pub halves: u8,
    pub first: u16,
    pub parents: [u8; REGIONS],
    pub from: u8,
    pub to: u8,
    pub threshold: i64,
    pub cap: i32,
    pub floor: i32,
}

/// A report's four numbers.
#[derive(Clone, Copy, Debug, Default, PartialEq, Eq)]
pub struct Report {
    pub sum: i64,
    pub counted: u32,
    pub mark: u32,
    pub entries: u32,
}

/// The book. Sums and marks stand at 11 × region + market. Any values: rule 10 judges them at each call.
#[derive(Clone, Debug, PartialEq, Eq)]
pub struct Book {
    pub regions: u8,
    pub services: u8,
    pub window: u16,
    pub halves: u8,
    pub parents: [u8; REGIONS],
    pub from: u8,
    pub to: u8,
    pub entries: u32,
    pub position: u16,
    pub threshold: i64,
    pub cap: i32,
    pub floor: i32,
    pub counts: [u16; REGIONS],
    pub nexts: [u16; REGIONS],
    pub sums: [i64; REGIONS * MARKETS],
    pub marks: [u8; REGIONS * MARKETS],
}

impl Book {
    /// "A closed book (all zero)".
    pub const CLOSED: Book = Book {
        regions: 0,
        services: 0,
        window: 0,
        halves: 0,
        parents: [0; REGIONS],
        from: 0,
        to: 0,
        entries: 0,
        position: 0,
        threshold: 0,
        cap: 0,
        floor: 0,
        counts: [0; REGIONS],
        nexts: [0; REGIONS],
        sums: [0; REGIONS * MARKETS],
        marks: [0; REGIONS * MARKETS],
    };

    /// "Open: 20 a setting; 11 ring length; 18 threshold; 19 cap or floor", 44 "directly after 18". The ring is zeroed.
    pub fn open(opening: &Opening, ring: &mut [i32]) -> Result<Book, Refusal> {
        let book = Book {
            regions: opening.regions,
            services: opening.services,
            window: opening.window,
            halves: opening.halves,
            parents: opening.parents,
            from: opening.from,
            to: opening.to,
            position: opening.first,
            threshold: opening.threshold,
            cap: opening.cap,
            floor: opening.floor,
            ..Book::CLOSED
        };
        unless(book.shape_valid(), 20)?;
        unless(ring.len() == book.ring_length(), 11)?;
        threshold_settable(book.threshold)?;
        unless(limits_valid(book.cap, book.floor), 19)?;
        ring.fill(0);
        Ok(book)
    }

    /// "Settings: 10; 18 or 19", 44 "directly after 18".
    pub fn set_threshold(&mut self, threshold: i64) -> Result<(), Refusal> {
        unless(self.valid(), 10)?;
        threshold_settable(threshold)?;
        self.threshold = threshold;
        Ok(())
    }

    /// "Settings: 10; 18 or 19."
    pub fn set_limits(&mut self, cap: i32, floor: i32) -> Result<(), Refusal> {
        unless(self.valid(), 10)?;
        unless(limits_valid(cap, floor), 19)?;
        (self.cap, self.floor) = (cap, floor);
        Ok(())
    }

    /// "Report: 10; 21 region or market."
    pub fn report(&self, region: u32, market: u32) -> Result<Report, Refusal> {
        unless(self.valid(), 10)?;
        let known = region < u32::from(self.regions) && market <= u32::from(self.services);
        unless(known, 21)?;
        let place = MARKETS * region as usize + market as usize;
        Ok(Report {
            sum: self.sums[place],
            counted: self.counts[region as usize].into(),
            mark: self.marks[place].into(),
            entries: self.entries,
        })
    }

    /// "M = S+1 markets a region"
    #[inline]
    pub fn markets(&self) -> usize {
        usize::from(self.services) + 1
    }

    /// "R × M prices"
    #[inline]
    pub fn prices(&self) -> usize {
        usize::from(self.regions) * self.markets()
    }

    /// "R × M × W"
    #[inline]
    pub fn ring_length(&self) -> usize {
        self.prices() * usize::from(self.window)
    }

    /// Whether a valid book has the additional link.
    #[inline]
    pub fn has_link(&self) -> bool {
        self.from != NO_END
    }

    /// "its flow and factor come as an extra last place" (request 2026-10): the length of flows, and of factors.
    #[inline]
    pub fn links(&self) -> usize {
        usize::from(self.regions) + usize::from(self.has_link())
    }

    /// "D = 6 × H intervals"
    #[inline]
    pub fn day(&self) -> u16 {
        6 * u16::from(self.halves)
    }

    /// Rule 10: no field "is outside its limits".
    pub fn valid(&self) -> bool {
        self.shape_valid()
            && self.entries <= MOST_ENTRIES
            && threshold_valid(self.threshold)
            && limits_valid(self.cap, self.floor)
            && self.windows_valid()
            && self.markets_valid()
    }

    /// What 20 tests: R, S, W, H, the position, the parents and the ends.
    fn shape_valid(&self) -> bool {
        let mut parents = true;
        for (region, &parent) in self.parents.iter().enumerate() {
            let linked = region < usize::from(self.regions) && usize::from(parent) < region;
            parents &= parent == NO_PARENT || linked;
        }
        (1..=8).contains(&self.regions)
            && self.services <= 10
            && (1..=2_016).contains(&self.window)
            && (1..=48).contains(&self.halves)
            && self.position < self.day()
            && parents
            && self.ends_valid()
    }

    /// "one additional link between two regions not already linked", or none.
    #[inline]
    fn ends_valid(&self) -> bool {
        let (from, to) = (self.from, self.to);
        if from == NO_END {
            return to == NO_END;
        }
        from < self.regions
            && to < self.regions
            && from != to
            && self.parents[usize::from(from)] != to
            && self.parents[usize::from(to)] != from
    }

    /// "a count above W or above entries taken, next place not the count while below W", "an unused .. count .. not zero".
    fn windows_valid(&self) -> bool {
        let most = self.entries.min(self.window.into()) as u16;
        let mut valid = true;
        for (region, (&count, &next)) in self.counts.iter().zip(&self.nexts).enumerate() {
            let most = if region < usize::from(self.regions) {
                most
            } else {
                0
            };
            let placed = if count < self.window {
                next == count
            } else {
                next < self.window
            };
            valid &= count <= most && placed;
        }
        valid
    }

    /// "a sum beyond ±20,160,000,000, an unused sum .. or mark not zero". Bits are gathered over whole rows rather than markets
    /// tested one by one: a sum is beyond its bound where one of the two differences has its sign bit set.
    pub(crate) fn markets_valid(&self) -> bool {
        let (regions, markets) = (usize::from(self.regions), self.markets());
        let (mut most, mut wrong) = ([0; MARKETS], [u8::MAX; MARKETS]);
        most[..markets].fill(MOST_SUM);
        wrong[..markets].fill(!1);
        let (sums, unused_sums) = self.sums.as_chunks::<MARKETS>().0.split_at(regions);
        let (marks, unused_marks) = self.marks.as_chunks::<MARKETS>().0.split_at(regions);
        let (mut signs, mut bits) = (0i64, 0u8);
        for (sums, marks) in sums.iter().zip(marks) {
            for market in 0..MARKETS {
                let (sum, most) = (sums[market], most[market]);
                signs |= most.wrapping_sub(sum) | most.wrapping_add(sum);
                bits |= marks[market] & wrong[market];
            }
        }
        let unused_sum = unused_sums
            .as_flattened()
            .iter()
            .fold(0, |any, sum| any | sum);
        let unused_mark = unused_marks
            .as_flattened()
            .iter()
            .fold(0, |any, mark| any | mark);
        signs >= 0 && unused_sum == 0 && bits | unused_mark == 0
    }
}

/// "threshold 1..100,000,000,000"
fn threshold_valid(threshold: i64) -> bool {
    (1..=100_000_000_000).contains(&threshold)
}

/// 18, then "44: a threshold within range but no multiple of 10,000": of what is opened with or set, not of what a book may hold.
fn threshold_settable(threshold: i64) -> Result<(), Refusal> {
    unless(threshold_valid(threshold), 18)?;
    unless((threshold as u64).is_multiple_of(10_000), 44)
}

/// "cap 1..10,000,000; floor −10,000,000..−1"
pub(crate) fn limits_valid(cap: i32, floor: i32) -> bool {
    (1..=MOST_PRICE).contains(&cap) && (-MOST_PRICE..=-1).contains(&floor)
}

/// The lowest allowed price of a market: "energy beyond ±10,000,000 or service outside 0..10,000,000".
#[inline]
pub(crate) const fn lowest(market: usize) -> i32 {
    if market == 0 {
        -MOST_PRICE
    } else {
        0
    }
}

/// Whether every price is from `low` to the highest: one of two differences of a price out of range is below 0.
#[inline]
pub(crate) fn all_within(low: i32, prices: impl Iterator<Item = i32>) -> bool {
    prices.fold(0, |signs, price| {
        signs | price.wrapping_sub(low) | MOST_PRICE.wrapping_sub(price)
    }) >= 0
}
