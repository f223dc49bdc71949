//! "The image": store and load.

use crate::book::{all_within, lowest, unless, Book, Refusal, MARKETS, NO_END, REGIONS};
use crate::bytes::{eight_at, encode, i32_at, i64_at, numbers, put, u16_at, u32_at};

/// Where the prices of an image of kind 1 begin; kind 2 has eight bytes more before its own (request 2026-10 of document 02).
const HEAD: usize = 148;

/// The image kinds, by their numbers.
#[derive(Clone, Copy, Debug, PartialEq, Eq)]
enum Kind {
    One = 1,
    Two = 2,
}

impl Kind {
    /// Where the prices begin.
    #[inline]
    fn head(self) -> usize {
        match self {
            Kind::One => HEAD,
            Kind::Two => HEAD + 8,
        }
    }
}

fn refused(number: u32) -> Refusal {
    Refusal { number, place: 0 }
}

/// The counted prices of a window, oldest first: the part from the oldest on, and the part before it.
fn counted(window: &[i32], count: usize, next: usize) -> (&[i32], &[i32]) {
    if count < window.len() {
        (&window[..count], &[])
    } else {
        (&window[next..], &window[..next])
    }
}

impl Book {
    /// "Store: 10; 11; 22 a counted price out of range or a total that isn't its sum; 23 buffer shorter than the image." By kind 2.
    /// Answers the image's length.
    pub fn store(&self, ring: &[i32], buffer: &mut [u8]) -> Result<usize, Refusal> {
        self.store_by(Kind::Two, ring, buffer)
    }

    /// By kind 1, with 47, "storing as kind 1 a book with the link; after 22".
    pub fn store_kind_1(&self, ring: &[i32], buffer: &mut [u8]) -> Result<usize, Refusal> {
        self.store_by(Kind::One, ring, buffer)
    }

    #[inline]
    fn store_by(&self, kind: Kind, ring: &[i32], buffer: &mut [u8]) -> Result<usize, Refusal> {
        unless(self.valid(), 10)?;
        unless(ring.len() == self.ring_length(), 11)?;
        unless(self.counted_right(ring), 22)?;
        unless(kind == Kind::Two || !self.has_link(), 47)?;
        let length = self.image_length(kind);
        unless(length <= buffer.len(), 23)?;
        let (head, mut rest) = buffer[..length].split_at_mut(kind.head());
        self.put_head(kind, head, length as u32);
        for (place, window) in ring.chunks_exact(usize::from(self.window)).enumerate() {
            let (older, newer) = self.counted_of(place, window);
            let (first, after) = rest.split_at_mut(4 * older.len());
            let (second, after) = after.split_at_mut(4 * newer.len());
            encode(older, first);
            encode(newer, second);
            rest = after;
        }
        Ok(length)
    }

    /// "Length = 148 + 4 × M × (sum of counts)", of kind 2 from 156.
    fn image_length(&self, kind: Kind) -> usize {
        let counts: usize = self.counts.iter().map(|&count| usize::from(count)).sum();
        kind.head() + 4 * self.markets() * counts
    }

    /// The counted prices of the window at a place among R × M.
    #[inline]
    pub(crate) fn counted_of<'a>(&self, place: usize, window: &'a [i32]) -> (&'a [i32], &'a [i32]) {
        let region = place / self.markets();
        let (count, next) = (self.counts[region].into(), self.nexts[region].into());
        counted(window, count, next)
    }

    /// What 22 tests.
    pub(crate) fn counted_right(&self, ring: &[i32]) -> bool {
        let markets = self.markets();
        let mut windows = ring.chunks_exact(usize::from(self.window)).enumerate();
        windows.all(|(place, window)| {
            let (region, market) = (place / markets, place % markets);
            let (older, newer) = self.counted_of(place, window);
            let low = lowest(market);
            let total =
                |prices: &[i32]| -> i64 { prices.iter().map(|&price| i64::from(price)).sum() };
            all_within(low, older.iter().copied())
                && all_within(low, newer.iter().copied())
                && total(older) + total(newer) == self.sums[MARKETS * region + market]
        })
    }

    fn put_head(&self, kind: Kind, head: &mut [u8], length: u32) {
        put(head, 0, &length.to_le_bytes());
        put(head, 4, &(kind as u16).to_le_bytes());
        put(head, 6, &[self.regions, self.services]);
        put(head, 8, &self.window.to_le_bytes());
        put(head, 10, &[self.halves, 0]);
        put(head, 12, &self.parents);
        put(head, 20, &self.entries.to_le_bytes());
        put(head, 24, &self.position.to_le_bytes());
        put(head, 26, &[0, 0]);
        put(head, 28, &self.threshold.to_le_bytes());
        put(head, 36, &self.cap.to_le_bytes());
        put(head, 40, &self.floor.to_le_bytes());
        for (region, count) in self.counts.iter().enumerate() {
            put(head, 44 + 2 * region, &count.to_le_bytes());
        }
        put(head, 60, &self.marks);
        if kind == Kind::Two {
            put(head, HEAD, &[self.from, self.to, 0, 0]);
            put(head, HEAD + 4, &[255; 4]);
        }
    }

    /// The book of a head of its kind, windows starting at their first places and sums 0. "Kind 1 loads as having no such link".
    fn of_head(kind: Kind, head: &[u8]) -> Book {
        let [from, to] = match kind {
            Kind::One => [NO_END; 2],
            Kind::Two => [head[HEAD], head[HEAD + 1]],
        };
        let mut book = Book {
            from,
            to,
            regions: head[6],
            services: head[7],
            window: u16_at(head, 8),
            halves: head[10],
            parents: eight_at(head, 12),
            entries: u32_at(head, 20),
            position: u16_at(head, 24),
            threshold: i64_at(head, 28),
            cap: i32_at(head, 36),
            floor: i32_at(head, 40),
            ..Book::CLOSED
        };
        for region in 0..REGIONS {
            let count = u16_at(head, 44 + 2 * region);
            book.counts[region] = count;
            book.nexts[region] = if count < book.window { count } else { 0 };
        }
        book.marks.copy_from_slice(&head[60..HEAD]);
        book
    }

    /// "Load: 24 under 148 bytes or length field not the lent length; 25 kind; 26 a field in bytes 6 to 147 ..; 27 length
    /// formula; 11; 16, place counted from 0 among the image's prices." "24 kind 2 under 156 bytes, 26 bytes 148 to 155".
    pub fn load(image: &[u8], ring: &mut [i32]) -> Result<Book, Refusal> {
        let whole = image.len() >= HEAD && u32_at(image, 0) as usize == image.len();
        unless(whole, 24)?;
        let kind = match u16_at(image, 4) {
            2 if image.len() < Kind::Two.head() => return Err(refused(24)),
            1 => Kind::One,
            2 => Kind::Two,
            _ => return Err(refused(25)),
        };
        let mut book = Book::of_head(kind, &image[..kind.head()]);
        let zeros = image[11] | image[26] | image[27] == 0;
        let tail = kind == Kind::One || image[HEAD + 2..HEAD + 8] == [0, 0, 255, 255, 255, 255];
        unless(zeros && tail && book.valid(), 26)?;
        unless(image.len() == book.image_length(kind), 27)?;
        unless(ring.len() == book.ring_length(), 11)?;
        let prices = &image[kind.head()..];
        book.check_image_prices(prices)?;
        book.fill_windows(prices, ring);
        Ok(book)
    }

    /// 16, a market's prices at a time; the place only where one of them is out of range.
    fn check_image_prices(&self, image: &[u8]) -> Result<(), Refusal> {
        let (markets, mut rest) = (self.markets(), image);
        for place in 0..self.prices() {
            let count = usize::from(self.counts[place / markets]);
            let (prices, after) = rest.split_at(4 * count);
            let low = lowest(place % markets);
            if !all_within(low, numbers(prices)) {
                let bad = numbers(prices).position(|price| !all_within(low, [price].into_iter()));
                let before = (image.len() - rest.len()) / 4;
                let place = (before + bad.unwrap_or(0)) as u32;
                return Err(Refusal { number: 16, place });
            }
            rest = after;
        }
        Ok(())
    }

    /// "Loading puts the oldest at the window's first place, zeroes the others and adds the sums up anew."
    fn fill_windows(&mut self, image: &[u8], ring: &mut [i32]) {
        let (markets, mut rest) = (self.markets(), image);
        let windows = ring.chunks_exact_mut(usize::from(self.window));
        for (place, window) in windows.enumerate() {
            let (region, market) = (place / markets, place % markets);
            let count = usize::from(self.counts[region]);
            let (prices, after) = rest.split_at(4 * count);
            let (filled, empty) = window.split_at_mut(count);
            let mut sum = 0;
            for (slot, price) in filled.iter_mut().zip(numbers(prices)) {
                *slot = price;
                sum += i64::from(price);
            }
            empty.fill(0);
            self.sums[MARKETS * region + market] = sum;
            rest = after;
        }
    }
}
