//! The book that a host keeps, what it is opened with, what an entry lends and what a report gives.

use crate::{flows_length, image_length, interval_length, prices_length};
use crate::{raw, ring_length, schedule_length};
use crate::{Refusal, BOOK_LENGTH, IMAGE_HEAD, IMAGE_HEAD_KIND_1, NONE};

/// What a book is opened with. The default is the real market: five linked regions, ten services, a week's window, half-hours of
/// a whole day.
#[derive(Clone, Copy, Debug, PartialEq, Eq)]
pub struct Settings {
    /// R, 1..8.
    pub regions: u8,
    /// S, 0..10. Market 0 is energy, the S markets after it are services.
    pub services: u8,
    /// W, 1..2,016 prices that a sum is over.
    pub window: u16,
    /// H, 1..48 half-hours a day, of six intervals each.
    pub halves: u8,
    /// The first entry's position in its day, 0..6 × H − 1.
    pub first: u16,
    /// Of each region a lower region linked to it, or 255 for none; region 0 and places from R up hold 255.
    pub parents: [u8; 8],
    /// The first named end of the additional link, a region that is not linked to the second one already; or 255 for no such link.
    pub from: u8,
    /// The second one, likewise. Their order only gives the link's flow its sign.
    pub to: u8,
    /// Cents, 10,000..100,000,000,000, a multiple of 10,000. Only an image may hold another one, from 1 on.
    pub threshold: i64,
    /// Cents, 1..10,000,000.
    pub cap: i32,
    /// Cents, −10,000,000..−1.
    pub floor: i32,
}

impl Settings {
    /// "The real market has R 5, S 10, W 2,016, H 48". Regions 1 and 2 are linked to 0, and 3 and 4 to 2; the threshold is
    /// 1,823,600 dollars, the limits ±600 dollars.
    pub const REAL_MARKET: Settings = Settings {
        regions: 5,
        services: 10,
        window: 2_016,
        halves: 48,
        first: 0,
        parents: [255, 0, 0, 2, 2, 255, 255, 255],
        from: NONE,
        to: NONE,
        threshold: 182_360_000,
        cap: 60_000,
        floor: -60_000,
    };
}

impl Default for Settings {
    fn default() -> Settings {
        Settings::REAL_MARKET
    }
}

/// What an entry lends beside ring and table. M = S + 1.
#[derive(Clone, Copy, Debug, PartialEq, Eq)]
pub struct Entry<'a> {
    /// From 0 up: how many entries the book has taken.
    pub number: u32,
    /// 0 weekday, 1 weekend or holiday.
    pub day_kind: u8,
    /// R × M prices, region by region, cents.
    pub prices: &'a [i32],
    /// R marks: 1 where the region is priced by schedule.
    pub marks: &'a [u8],
    /// R flows: above 0 power goes from a region to its parent, below 0 from the parent, at 0 not at all. Where the book has the
    /// additional link R + 1: the last is that link's, above 0 from its first named end to the second.
    pub flows: &'a [i32],
    /// As many loss factors in ten-thousandths, 10,000..20,000 where the region has a parent; that of the additional link always.
    pub factors: &'a [u32],
    /// R × M × 2 × H prices: a region's market's half-hours of weekdays, then those of weekends and holidays.
    pub schedule: &'a [i32],
}

/// A market's report.
#[derive(Clone, Copy, Debug, PartialEq, Eq)]
pub struct Report {
    /// The total of the window's prices, cents.
    pub sum: i64,
    /// Prices counted, up to W.
    pub counted: u32,
    /// Whether the market is administered at the next entry.
    pub administered: bool,
    /// Entries taken by the book.
    pub entries: u32,
}

/// A book, kept by the host between calls. The crate's first page says what the host must do for the theorem to hold.
///
/// A copy is a book of its own, but it shares the ring with the first: once either takes an entry, the ring is that one's alone.
#[derive(Clone, Copy, Debug, PartialEq, Eq)]
pub struct Book(raw::Book);

impl Book {
    /// Opens a book over a ring of R × M × W places, which is zeroed: 20, 11, 18, 44, 19.
    ///
    /// ```
    /// use guxhamole::{Book, Refusal, Settings};
    ///
    /// let mut ring = vec![0; guxhamole::ring_length(5, 10, 2_016)];
    /// let book = Book::open(Settings::default(), &mut ring)?;
    /// assert_eq!((book.entries(), book.threshold()), (0, 182_360_000));
    /// assert_eq!(Book::open(Settings::default(), &mut ring[1..]), Err(Refusal::Length));
    ///
    /// // A digit too few: thresholds are whole hundreds of dollars.
    /// let slip = Settings { threshold: 18_236_000, ..Settings::default() };
    /// assert_eq!(Book::open(slip, &mut ring), Err(Refusal::Hundreds));
    ///
    /// // A line that closes a ring of regions 0, 2 and 1; regions 2 and 0 are linked already.
    /// let ring_of_three = Settings { from: 1, to: 2, ..Settings::default() };
    /// assert_eq!(Book::open(ring_of_three, &mut ring)?.flows_length(), 6);
    /// let twice = Settings { from: 2, to: 0, ..Settings::default() };
    /// assert_eq!(Book::open(twice, &mut ring), Err(Refusal::Setting));
    /// # Ok::<(), Refusal>(())
    /// ```
    pub fn open(settings: Settings, ring: &mut [i32]) -> Result<Book, Refusal> {
        let settings = raw::Settings {
            regions: settings.regions,
            services: settings.services,
            window: settings.window,
            halves: settings.halves,
            first: settings.first,
            parents: settings.parents,
            from: settings.from,
            to: settings.to,
            threshold: settings.threshold,
            cap: settings.cap,
            floor: settings.floor,
        };
        Book::kept(raw::open(settings, ring))
    }

    /// Takes one interval and publishes its prices into the table: how many of them differ from the effective ones. 10 to 17.
    ///
    /// ```
    /// # use guxhamole::{Book, Entry, Refusal, Settings};
    /// # let parents = [255; 8];
    /// # let settings = Settings { regions: 1, services: 1, window: 2, halves: 1, parents, ..Settings::default() };
    /// # let mut ring = [0; 4];
    /// # let mut book = Book::open(settings, &mut ring)?;
    /// # let (flows, factors, schedule) = ([0], [10_000], [0; 4]);
    /// let mut table = [0; 2];
    /// let entry = Entry {
    ///     number: book.entries(),
    ///     day_kind: 0,
    ///     prices: &[8_000, 250],
    ///     marks: &[0],
    ///     flows: &flows,
    ///     factors: &factors,
    ///     schedule: &schedule,
    /// };
    /// assert_eq!(book.enter(&mut ring, entry, &mut table), Ok(0));
    /// assert_eq!(table, [8_000, 250]);
    ///
    /// // A service has no price below 0.
    /// let entry = Entry { number: book.entries(), prices: &[8_000, -1], ..entry };
    /// assert_eq!(book.enter(&mut ring, entry, &mut table), Err(Refusal::Price(1)));
    /// # Ok::<(), Refusal>(())
    /// ```
    pub fn enter(
        &mut self,
        ring: &mut [i32],
        entry: Entry<'_>,
        table: &mut [i32],
    ) -> Result<u32, Refusal> {
        let entered = raw::enter(self.0, ring, entry, table);
        self.0 = entered.book;
        Refusal::unless_accepted(entered.number, entered.place)?;
        Ok(entered.count)
    }

    /// Sets the threshold from the next entry on, a multiple of 10,000 cents: 10, 18, 44.
    ///
    /// ```
    /// # use guxhamole::{Book, Refusal, Settings};
    /// # let mut ring = vec![0; guxhamole::ring_length(5, 10, 2_016)];
    /// # let mut book = Book::open(Settings::default(), &mut ring)?;
    /// book.set_threshold(139_810_000)?;
    /// assert_eq!(book.set_threshold(0), Err(Refusal::Threshold));
    /// assert_eq!(book.set_threshold(13_981_000), Err(Refusal::Hundreds));
    /// assert_eq!(book.threshold(), 139_810_000);
    /// # Ok::<(), Refusal>(())
    /// ```
    pub fn set_threshold(&mut self, threshold: i64) -> Result<(), Refusal> {
        self.set(raw::set_threshold(self.0, threshold))
    }

    /// Sets cap and floor from the next entry on: 10, 19.
    ///
    /// ```
    /// # use guxhamole::{Book, Refusal, Settings};
    /// # let mut ring = vec![0; guxhamole::ring_length(5, 10, 2_016)];
    /// # let mut book = Book::open(Settings::default(), &mut ring)?;
    /// book.set_limits(30_000, -30_000)?;
    /// assert_eq!(book.set_limits(30_000, 0), Err(Refusal::Limits));
    /// assert_eq!((book.cap(), book.floor()), (30_000, -30_000));
    /// # Ok::<(), Refusal>(())
    /// ```
    pub fn set_limits(&mut self, cap: i32, floor: i32) -> Result<(), Refusal> {
        self.set(raw::set_limits(self.0, cap, floor))
    }

    /// A market's sum, prices counted and period, and the entries taken: 10, 21.
    ///
    /// ```
    /// # use guxhamole::{Book, Refusal, Settings};
    /// # let mut ring = vec![0; guxhamole::ring_length(5, 10, 2_016)];
    /// # let book = Book::open(Settings::default(), &mut ring)?;
    /// let report = book.report(4, 10)?;
    /// assert_eq!((report.sum, report.counted, report.administered, report.entries), (0, 0, false, 0));
    /// assert_eq!(book.report(5, 0), Err(Refusal::Market));
    /// # Ok::<(), Refusal>(())
    /// ```
    pub fn report(&self, region: u32, market: u32) -> Result<Report, Refusal> {
        let reading = raw::report(self.0, region, market);
        Refusal::unless_accepted(reading.number, 0)?;
        Ok(Report {
            sum: reading.sum,
            counted: reading.counted,
            administered: reading.mark == 1,
            entries: reading.entries,
        })
    }

    /// How many more intervals at a price it takes until a market's sum exceeds the threshold as it is now: the least number,
    /// 1 to W, and 0 exactly if none of 1 to W does. In each of them the region is unmarked and the market gets that price; the
    /// oldest counted prices leave as they would. Whether the sum exceeds the threshold already is another question
    /// ([`Book::report`]). The ring is read alone. 10, 11, 21, 22, 43.
    ///
    /// ```
    /// # use guxhamole::{Book, Entry, Refusal, Settings};
    /// // One region, energy alone, a window of five prices.
    /// let settings = Settings { regions: 1, services: 0, window: 5, halves: 1, threshold: 10_000, ..Settings::default() };
    /// let settings = Settings { parents: [255; 8], ..settings };
    /// let mut ring = [0; 5];
    /// let mut book = Book::open(settings, &mut ring)?;
    /// # let (marks, flows, factors, schedule) = ([0], [0], [10_000], [0; 2]);
    /// # let (marks, flows, factors, schedule) = (&marks, &flows, &factors, &schedule);
    /// # let entry = Entry { number: 0, day_kind: 0, prices: &[4_000], marks, flows, factors, schedule };
    /// book.enter(&mut ring, entry, &mut [0])?;
    ///
    /// // The sums would be 6,000, 8,000, 10,000 and 12,000: to reach the threshold is not to exceed it.
    /// assert_eq!(book.intervals_left(&ring, 0, 0, 2_000), Ok(4));
    /// // 5,500, 7,000, 8,500, 10,000; then the 4,000 leave, and it is 7,500.
    /// assert_eq!(book.intervals_left(&ring, 0, 0, 1_500), Ok(0));
    /// assert_eq!(book.intervals_left(&ring, 0, 0, 10_000_001), Err(Refusal::PlannedPrice));
    /// # Ok::<(), Refusal>(())
    /// ```
    pub fn intervals_left(
        &self,
        ring: &[i32],
        region: u32,
        market: u32,
        price: i32,
    ) -> Result<u32, Refusal> {
        let left = raw::intervals_left(self.0, ring, region, market, price);
        Refusal::unless_accepted(left.number, 0)?;
        Ok(left.intervals)
    }

    /// Writes the book and its counted prices as an image of kind 2, which tells every book: its length in bytes. The bytes after it
    /// stay. 10, 11, 22, 23.
    ///
    /// ```
    /// # use guxhamole::{Book, Refusal, Settings};
    /// # let mut ring = vec![0; guxhamole::ring_length(5, 10, 2_016)];
    /// # let book = Book::open(Settings::default(), &mut ring)?;
    /// let mut buffer = vec![0; guxhamole::image_length(5, 10, 2_016)];
    /// let length = book.store(&ring, &mut buffer)?;
    /// assert_eq!(length, book.stored_length());
    ///
    /// let mut other = vec![0; ring.len()];
    /// let again = Book::load(&buffer[..length], &mut other)?;
    /// assert_eq!(again.report(0, 0), book.report(0, 0));
    /// # Ok::<(), Refusal>(())
    /// ```
    pub fn store(&self, ring: &[i32], image: &mut [u8]) -> Result<usize, Refusal> {
        stored_in(raw::store_kind_2(self.0, ring, image))
    }

    /// The same as an image of kind 1, eight bytes shorter, for those who read no other; a book with the additional link has none. What
    /// was loaded from an image of kind 1 is stored to the very bytes of that image. 10, 11, 22, 47, 23.
    ///
    /// ```
    /// # use guxhamole::{Book, Refusal, Settings};
    /// # let mut ring = vec![0; guxhamole::ring_length(5, 10, 2_016)];
    /// let book = Book::open(Settings::default(), &mut ring)?;
    /// let mut buffer = [0; 148];
    /// assert_eq!(book.store_kind_1(&ring, &mut buffer), Ok(148));
    /// assert_eq!(Book::load(&buffer, &mut vec![0; ring.len()]), Ok(book));
    ///
    /// let linked = Book::open(Settings { from: 1, to: 2, ..Settings::default() }, &mut ring)?;
    /// assert_eq!(linked.store_kind_1(&ring, &mut buffer), Err(Refusal::ImageFirst));
    /// # Ok::<(), Refusal>(())
    /// ```
    pub fn store_kind_1(&self, ring: &[i32], image: &mut [u8]) -> Result<usize, Refusal> {
        stored_in(raw::store(self.0, ring, image))
    }

    /// Loads an image of either kind, exactly its bytes, into a ring of R × M × W places: 24, 25, 26, 27, 11, 16. The threshold that it
    /// holds, any from 1 to 100,000,000,000, stays until the next setting. Kind 1 loads as having no additional link.
    ///
    /// ```
    /// use guxhamole::{Book, Refusal, Settings};
    ///
    /// assert_eq!(Book::load(&[0; 200], &mut [0; 4]), Err(Refusal::ImageLength));
    ///
    /// // The image of a book at 950 dollars, from before thresholds were whole hundreds.
    /// let settings = Settings { regions: 1, services: 0, window: 1, parents: [255; 8], ..Settings::default() };
    /// let (mut ring, mut image) = ([0], [0; guxhamole::IMAGE_HEAD]);
    /// Book::open(settings, &mut ring)?.store(&ring, &mut image)?;
    /// image[28..36].copy_from_slice(&95_000i64.to_le_bytes());
    ///
    /// let mut book = Book::load(&image, &mut ring)?;
    /// assert_eq!(book.set_threshold(95_000), Err(Refusal::Hundreds));
    /// assert_eq!(book.threshold(), 95_000);
    /// # Ok::<(), Refusal>(())
    /// ```
    pub fn load(image: &[u8], ring: &mut [i32]) -> Result<Book, Refusal> {
        Book::kept(raw::load(image, ring))
    }

    fn kept(kept: raw::Kept) -> Result<Book, Refusal> {
        Refusal::unless_accepted(kept.number, kept.place)?;
        Ok(Book(kept.book))
    }

    fn set(&mut self, kept: raw::Kept) -> Result<(), Refusal> {
        self.0 = kept.book;
        Refusal::unless_accepted(kept.number, kept.place)
    }
}

/// What a host reads without a call.
impl Book {
    /// R.
    pub fn regions(&self) -> u8 {
        self.0.regions
    }

    /// S.
    pub fn services(&self) -> u8 {
        self.0.services
    }

    /// W.
    pub fn window(&self) -> u16 {
        self.0.window
    }

    /// H.
    pub fn halves(&self) -> u8 {
        self.0.halves
    }

    /// Of each region a lower region linked to it, or 255.
    pub fn parents(&self) -> [u8; 8] {
        self.0.parents
    }

    /// The first and the second named end of the additional link; 255 and 255 where the book has none.
    pub fn ends(&self) -> (u8, u8) {
        (self.0.from, self.0.to)
    }

    /// The threshold at the next entry.
    pub fn threshold(&self) -> i64 {
        self.0.threshold
    }

    /// The cap at the next entry.
    pub fn cap(&self) -> i32 {
        self.0.cap
    }

    /// The floor at the next entry.
    pub fn floor(&self) -> i32 {
        self.0.floor
    }

    /// Entries taken: the next one's number.
    pub fn entries(&self) -> u32 {
        self.0.entries
    }

    /// The next entry's position in its day.
    pub fn position(&self) -> u16 {
        self.0.position
    }

    /// Places of the book's ring.
    pub fn ring_length(&self) -> usize {
        ring_length(
            self.0.regions.into(),
            self.0.services.into(),
            self.0.window.into(),
        )
    }

    /// Places of an entry's prices and table.
    pub fn prices_length(&self) -> usize {
        prices_length(self.0.regions.into(), self.0.services.into())
    }

    /// Places of an entry's flows, and of its factors.
    pub fn flows_length(&self) -> usize {
        flows_length(self.0.regions.into(), self.0.from)
    }

    /// Places of an entry's schedule.
    pub fn schedule_length(&self) -> usize {
        schedule_length(
            self.0.regions.into(),
            self.0.services.into(),
            self.0.halves.into(),
        )
    }

    /// Bytes of an interval's records.
    pub fn interval_length(&self) -> usize {
        interval_length(self.0.regions.into(), self.0.services.into(), self.0.from)
    }

    /// Bytes of the book's image as it is now.
    pub fn stored_length(&self) -> usize {
        IMAGE_HEAD + self.counted_bytes()
    }

    /// Bytes of its image of kind 1.
    pub fn stored_length_kind_1(&self) -> usize {
        IMAGE_HEAD_KIND_1 + self.counted_bytes()
    }

    /// Bytes of an image's prices.
    fn counted_bytes(&self) -> usize {
        let counts: usize = self.0.counts.iter().map(|&count| usize::from(count)).sum();
        4 * (usize::from(self.0.services) + 1) * counts
    }

    /// Bytes of the book's image once its windows are full; those of kind 1 are eight fewer.
    pub fn longest_image(&self) -> usize {
        image_length(
            self.0.regions.into(),
            self.0.services.into(),
            self.0.window.into(),
        )
    }
}

/// A book as plain data. "Any bytes are a book": calls refuse damaged ones by 10.
impl Book {
    /// The book with these fields.
    ///
    /// ```
    /// use guxhamole::{raw, Book, Refusal};
    ///
    /// assert_eq!(Book::from_raw(raw::Book::CLOSED).report(0, 0), Err(Refusal::Book));
    /// ```
    pub fn from_raw(fields: raw::Book) -> Book {
        Book(fields)
    }

    /// The book's fields.
    pub fn raw(&self) -> &raw::Book {
        &self.0
    }

    /// The book of the C struct's bytes; those between its fields are not looked at.
    ///
    /// ```
    /// use guxhamole::{Book, Refusal, BOOK_LENGTH};
    ///
    /// let book = Book::from_bytes(&[0xA5; BOOK_LENGTH]);
    /// assert_eq!(book.report(0, 0), Err(Refusal::Book));
    /// assert_eq!(Book::from_bytes(&book.to_bytes()), book);
    /// ```
    pub fn from_bytes(bytes: &[u8; BOOK_LENGTH]) -> Book {
        let u16_at = |at| u16::from_le_bytes(part(bytes, at));
        Book(raw::Book {
            regions: bytes[0],
            services: bytes[1],
            window: u16_at(2),
            halves: bytes[4],
            parents: part(bytes, 5),
            from: bytes[13],
            to: bytes[14],
            threshold: i64::from_le_bytes(part(bytes, 16)),
            cap: i32::from_le_bytes(part(bytes, 24)),
            floor: i32::from_le_bytes(part(bytes, 28)),
            entries: u32::from_le_bytes(part(bytes, 32)),
            position: u16_at(36),
            counts: core::array::from_fn(|region| u16_at(38 + 2 * region)),
            nexts: core::array::from_fn(|region| u16_at(54 + 2 * region)),
            sums: core::array::from_fn(|place| i64::from_le_bytes(part(bytes, 72 + 8 * place))),
            marks: part(bytes, 776),
        })
    }

    /// The C struct's bytes; those between its fields are zero.
    pub fn to_bytes(&self) -> [u8; BOOK_LENGTH] {
        let mut bytes = [0; BOOK_LENGTH];
        let mut put = |at: usize, field: &[u8]| bytes[at..at + field.len()].copy_from_slice(field);
        let book = &self.0;
        put(0, &[book.regions, book.services]);
        put(2, &book.window.to_le_bytes());
        put(4, &[book.halves]);
        put(5, &book.parents);
        put(13, &[book.from, book.to]);
        put(16, &book.threshold.to_le_bytes());
        put(24, &book.cap.to_le_bytes());
        put(28, &book.floor.to_le_bytes());
        put(32, &book.entries.to_le_bytes());
        put(36, &book.position.to_le_bytes());
        for region in 0..8 {
            put(38 + 2 * region, &book.counts[region].to_le_bytes());
            put(54 + 2 * region, &book.nexts[region].to_le_bytes());
        }
        for (place, sum) in book.sums.iter().enumerate() {
            put(72 + 8 * place, &sum.to_le_bytes());
        }
        put(776, &book.marks);
        bytes
    }
}

/// The length of an image.
fn stored_in(stored: raw::Stored) -> Result<usize, Refusal> {
    Refusal::unless_accepted(stored.number, 0)?;
    Ok(stored.length as usize)
}

/// The bytes from a place on.
fn part<const N: usize>(bytes: &[u8; BOOK_LENGTH], at: usize) -> [u8; N] {
    core::array::from_fn(|place| bytes[at + place])
}
