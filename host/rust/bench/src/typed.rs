//! The typed calls of both books over the same slices: an entry, a report, a store and a load, timed one by one.

use crate::clock;
use crate::lists::{Interval, Market, Trade, Trading};
use crate::timing::{Cost, Costs};

use guxhamole::Settings;
use std::hint::black_box;
use std::ops::Range;

/// What is timed, in this order.
pub const CALLS: [&str; 4] = ["entry", "report", "store", "load"];

/// A book that a host keeps. Every call must be accepted.
pub trait Typed: Clone {
    fn open(settings: &Settings, ring: &mut [i32]) -> Self;
    fn enter(
        &mut self,
        ring: &mut [i32],
        interval: &Interval,
        schedule: &[i32],
        table: &mut [i32],
    ) -> u32;
    /// Sum, prices counted, period mark and entries taken.
    fn report(&self, region: u32, market: u32) -> (i64, u32, u32, u32);
    fn store(&self, ring: &[i32], image: &mut [u8]) -> usize;
    fn load(image: &[u8], ring: &mut [i32]) -> Self;
    fn set_threshold(&mut self, threshold: i64);
    fn intervals_left(&self, ring: &[i32], region: u32, market: u32, price: i32) -> u32;
}

impl Typed for guxhamole::Book {
    fn open(settings: &Settings, ring: &mut [i32]) -> Self {
        guxhamole::Book::open(*settings, ring).expect("an accepted opening")
    }

    fn enter(
        &mut self,
        ring: &mut [i32],
        interval: &Interval,
        schedule: &[i32],
        table: &mut [i32],
    ) -> u32 {
        let entry = guxhamole::Entry {
            number: interval.number,
            day_kind: interval.day_kind,
            prices: &interval.prices,
            marks: &interval.marks,
            flows: &interval.flows,
            factors: &interval.factors,
            schedule,
        };
        guxhamole::Book::enter(self, ring, entry, table).expect("an accepted entry")
    }

    fn report(&self, region: u32, market: u32) -> (i64, u32, u32, u32) {
        let report = guxhamole::Book::report(self, region, market).expect("a market of the book");
        let mark = report.administered.into();
        (report.sum, report.counted, mark, report.entries)
    }

    fn store(&self, ring: &[i32], image: &mut [u8]) -> usize {
        guxhamole::Book::store(self, ring, image).expect("an accepted store")
    }

    fn load(image: &[u8], ring: &mut [i32]) -> Self {
        guxhamole::Book::load(image, ring).expect("an accepted load")
    }

    fn set_threshold(&mut self, threshold: i64) {
        guxhamole::Book::set_threshold(self, threshold).expect("an accepted threshold")
    }

    fn intervals_left(&self, ring: &[i32], region: u32, market: u32, price: i32) -> u32 {
        let left = guxhamole::Book::intervals_left(self, ring, region, market, price);
        left.expect("an accepted question")
    }
}

impl Typed for fast::Book {
    fn open(settings: &Settings, ring: &mut [i32]) -> Self {
        let opening = fast::Opening {
            regions: settings.regions,
            services: settings.services,
            window: settings.window,
            halves: settings.halves,
            first: settings.first,
            parents: settings.parents,
            from: settings.from,
            to: settings.to,
            threshold: settings.threshold,
            cap: settings.cap,
            floor: settings.floor,
        };
        fast::Book::open(&opening, ring).expect("an accepted opening")
    }

    fn enter(
        &mut self,
        ring: &mut [i32],
        interval: &Interval,
        schedule: &[i32],
        table: &mut [i32],
    ) -> u32 {
        let entry = fast::Entry {
            number: interval.number,
            kind: interval.day_kind,
            prices: &interval.prices,
            marks: &interval.marks,
            flows: &interval.flows,
            factors: &interval.factors,
            schedule,
        };
        fast::Book::enter(self, ring, &entry, table).expect("an accepted entry")
    }

    fn report(&self, region: u32, market: u32) -> (i64, u32, u32, u32) {
        let report = fast::Book::report(self, region, market).expect("a market of the book");
        (report.sum, report.counted, report.mark, report.entries)
    }

    fn store(&self, ring: &[i32], image: &mut [u8]) -> usize {
        fast::Book::store(self, ring, image).expect("an accepted store")
    }

    fn load(image: &[u8], ring: &mut [i32]) -> Self {
        fast::Book::load(image, ring).expect("an accepted load")
    }

    fn set_threshold(&mut self, threshold: i64) {
        fast::Book::set_threshold(self, threshold).expect("an accepted threshold")
    }

    fn intervals_left(&self, ring: &[i32], region: u32, market: u32, price: i32) -> u32 {
        let left = fast::Book::intervals_left(self, ring, region, market, price);
        left.expect("an accepted question")
    }
}

/// A book and what its host lends, touched before anything is timed.
#[derive(Clone)]
pub struct Host<B> {
    book: B,
    ring: Vec<i32>,
    other: Vec<i32>,
    image: Vec<u8>,
    table: Vec<i32>,
}

impl<B: Typed> Host<B> {
    pub fn new(market: &Market, trading: &Trading) -> Host<B> {
        let mut ring = vec![1; market.ring()];
        Host {
            book: B::open(&trading.settings, &mut ring),
            other: vec![1; ring.len()],
            image: vec![1; guxhamole::IMAGE_HEAD + 4 * ring.len()],
            table: vec![1; market.prices()],
            ring,
        }
    }

    /// Takes entries. Answers the total of their counts.
    pub fn enter(&mut self, trading: &Trading, entries: Range<usize>) -> u32 {
        let mut changed = 0;
        for interval in &trading.intervals[entries] {
            let (ring, table) = (&mut self.ring, &mut self.table);
            changed += self.book.enter(ring, interval, &trading.schedule, table);
        }
        changed
    }

    /// The book and its ring.
    pub fn kept(&self) -> (&B, &[i32]) {
        (&self.book, &self.ring)
    }

    /// A report of a region's energy.
    pub fn report(&self, region: u32) -> (i64, u32, u32, u32) {
        self.report_of(region, 0)
    }

    /// A report of any market.
    pub fn report_of(&self, region: u32, market: u32) -> (i64, u32, u32, u32) {
        self.book.report(region, market)
    }

    pub fn set_threshold(&mut self, threshold: i64) {
        self.book.set_threshold(threshold);
    }

    /// The intervals left of a market at a price.
    #[inline(always)]
    pub fn ask(&self, region: u32, market: u32, price: i32) -> u32 {
        self.book.intervals_left(&self.ring, region, market, price)
    }

    /// Stores the book. Answers the image's length.
    pub fn store(&mut self) -> usize {
        self.book.store(&self.ring, &mut self.image)
    }

    /// Loads the image, of this length, into the other ring.
    pub fn load(&mut self, length: usize) -> B {
        B::load(&self.image[..length], &mut self.other)
    }

    /// Nanoseconds of an entry, a report, a store and a load. The entries begin where `start` stands.
    fn times(&mut self, start: &Host<B>, trading: &Trading, entries: Range<usize>) -> [f64; 4] {
        self.book = start.book.clone();
        self.ring.copy_from_slice(&start.ring);
        let number = entries.len();
        let entry = timed(1, || self.enter(trading, entries.clone()));
        let mut regions = (0..u32::from(trading.settings.regions)).cycle();
        let report = timed(number, || self.report(regions.next().unwrap_or(0)));
        let images = (2_000_000 / self.ring.len()).clamp(20, 2_000);
        let store = timed(images, || self.store());
        let length = self.store();
        let load = timed(images, || self.load(length));
        [entry / number as f64, report, store, load]
    }
}

/// Nanoseconds of one call, where it is made so many times.
pub fn timed<A>(calls: usize, mut call: impl FnMut() -> A) -> f64 {
    let start = clock::now();
    for _ in 0..calls {
        black_box(call());
    }
    (clock::now() - start) / calls as f64
}

/// Measures each of `CALLS` on a book whose window is full, over as many entries.
pub fn measure(market: &Market, trade: Trade, entries: usize, rounds: usize) -> [Costs; 4] {
    let full = usize::from(market.window);
    let trading = Trading::new(market, trade, full, full + entries);
    measure_trading(market, &trading, full, rounds)
}

/// The same of any trading, over its entries after the first ones.
pub fn measure_trading(
    market: &Market,
    trading: &Trading,
    full: usize,
    rounds: usize,
) -> [Costs; 4] {
    let (mut proved, mut fast) = alike(market, trading, full);
    let starts = (proved.clone(), fast.clone());
    let block = full..trading.intervals.len();
    let mut times = [Vec::new(), Vec::new()];
    for round in 0..rounds {
        for turn in 0..2 {
            let player = (turn + round) % 2;
            times[player].push(match player {
                0 => proved.times(&starts.0, trading, block.clone()),
                _ => fast.times(&starts.1, trading, block.clone()),
            });
        }
    }
    let cost = |player: usize, call: usize| cost(times[player].iter().map(|round| round[call]));
    std::array::from_fn(|call| Costs {
        proved: cost(0, call),
        fast: cost(1, call),
    })
}

/// The median and the least of the rounds' times.
pub fn cost(times: impl Iterator<Item = f64>) -> Cost {
    let mut times: Vec<f64> = times.collect();
    times.sort_by(f64::total_cmp);
    Cost {
        median: times[times.len() / 2],
        least: times[0],
    }
}

/// Both books after the first entries, once every answer of theirs was the same to the last entry: counts, tables, reports,
/// images, and rings loaded from them.
pub fn alike(
    market: &Market,
    trading: &Trading,
    full: usize,
) -> (Host<guxhamole::Book>, Host<fast::Book>) {
    let mut proved = Host::<guxhamole::Book>::new(market, trading);
    let mut fast = Host::<fast::Book>::new(market, trading);
    let mut starts = (proved.clone(), fast.clone());
    for number in 0..trading.intervals.len() {
        if number == full {
            starts = (proved.clone(), fast.clone());
        }
        let one = number..number + 1;
        let counts = (proved.enter(trading, one.clone()), fast.enter(trading, one));
        let same = counts.0 == counts.1 && proved.table == fast.table;
        assert!(same, "entry {number} differs");
    }
    assert!(
        reports(market, &proved) == reports(market, &fast),
        "the reports differ"
    );
    assert!(
        restarted(&mut proved) == restarted(&mut fast),
        "the images differ"
    );
    starts
}

/// The reports of every market.
fn reports<B: Typed>(market: &Market, host: &Host<B>) -> Vec<(i64, u32, u32, u32)> {
    let markets = u32::from(market.services) + 1;
    (0..market.prices() as u32)
        .map(|place| host.report_of(place / markets, place % markets))
        .collect()
}

/// A book's image, and the ring that it loads.
fn restarted<B: Typed>(host: &mut Host<B>) -> (&[u8], &[i32]) {
    let length = host.store();
    host.load(length);
    (&host.image[..length], &host.other)
}
