//! Entries, openings and lists of calls, the same at every run: as typed slices, and as the bytes of docs/RECORDS.md.

use guxhamole::Settings;
use std::fmt;

/// The settings of a book that decide how much work an entry is.
#[derive(Clone, Copy, Debug)]
pub struct Market {
    pub regions: u8,
    pub services: u8,
    pub window: u16,
    pub halves: u8,
}

impl Market {
    pub fn prices(&self) -> usize {
        usize::from(self.regions) * (usize::from(self.services) + 1)
    }

    pub fn ring(&self) -> usize {
        self.prices() * usize::from(self.window)
    }

    pub fn schedule(&self) -> usize {
        self.prices() * 2 * usize::from(self.halves)
    }
}

impl fmt::Display for Market {
    fn fmt(&self, to: &mut fmt::Formatter) -> fmt::Result {
        let Market {
            regions,
            services,
            window,
            halves,
        } = self;
        write!(to, "R {regions}, S {services}, H {halves}, W {window}")
    }
}

/// What goes on in a list.
#[derive(Clone, Copy, Debug, PartialEq, Eq)]
pub enum Trade {
    /// Ordinary prices: no region is marked, no market administered.
    Free,
    /// Every second region is administered, at the cap or at the floor, and limits pass over the links; once the window
    /// is full, one region in four is marked.
    Administered,
}

impl fmt::Display for Trade {
    fn fmt(&self, to: &mut fmt::Formatter) -> fmt::Result {
        to.write_str(match self {
            Trade::Free => "free",
            Trade::Administered => "administered",
        })
    }
}

/// What an entry lends, but for schedule, ring and table.
pub struct Interval {
    pub number: u32,
    pub day_kind: u8,
    pub prices: Vec<i32>,
    pub marks: Vec<u8>,
    pub flows: Vec<i32>,
    pub factors: Vec<u32>,
}

/// A book's settings, entries, and the schedule that every one of them is lent.
pub struct Trading {
    pub settings: Settings,
    pub schedule: Vec<i32>,
    pub intervals: Vec<Interval>,
}

/// A list's bytes and where each record ends, the opening first.
pub struct List {
    pub calls: Vec<u8>,
    pub ends: Vec<usize>,
}

/// splitmix64
struct Random(u64);

impl Random {
    fn between(&mut self, low: i32, high: i32) -> i32 {
        self.0 = self.0.wrapping_add(0x9E37_79B9_7F4A_7C15);
        let mut word = self.0;
        word = (word ^ (word >> 30)).wrapping_mul(0xBF58_476D_1CE4_E5B9);
        word = (word ^ (word >> 27)).wrapping_mul(0x94D0_49BB_1331_11EB);
        word ^= word >> 31;
        low + (word % (high - low + 1) as u64) as i32
    }
}

const CAP: i32 = 60_000;

impl Trading {
    /// Entries from number 0 on; marks begin once `unmarked` are taken.
    pub fn new(market: &Market, trade: Trade, unmarked: usize, entries: usize) -> Trading {
        let mut random = Random(u64::from(market.window));
        let schedule = (0..market.schedule())
            .map(|_| random.between(-70_000, 90_000))
            .collect();
        let interval = |number: usize| {
            let marked = trade == Trade::Administered && number >= unmarked;
            interval(market, trade, number, marked, &mut random)
        };
        Trading {
            settings: settings(market, trade),
            schedule,
            intervals: (0..entries).map(interval).collect(),
        }
    }
}

impl List {
    /// An opening and entries; marks begin once `unmarked` are taken.
    pub fn of_entries(market: &Market, trade: Trade, unmarked: usize, entries: usize) -> List {
        let trading = Trading::new(market, trade, unmarked, entries);
        let schedule = four_bytes(trading.schedule.iter().map(|price| price.to_le_bytes()));
        let mut list = List {
            calls: Vec::new(),
            ends: Vec::new(),
        };
        list.put(64, &opening(&trading.settings));
        for interval in &trading.intervals {
            list.put(65, &entry(market, interval, &schedule));
        }
        list
    }

    /// An opening, entries and restarts.
    pub fn of_restarts(market: &Market, entries: usize, restarts: usize) -> List {
        let mut list = List::of_entries(market, Trade::Free, entries, entries);
        for _ in 0..restarts {
            list.put(69, &[]);
        }
        list
    }

    fn put(&mut self, kind: u16, fields: &[u8]) {
        let length = 6 + fields.len() as u32;
        self.calls.extend(length.to_le_bytes());
        self.calls.extend(kind.to_le_bytes());
        self.calls.extend(fields);
        self.ends.push(self.calls.len());
    }
}

/// The real market's links, as far as there are regions; a threshold of 500 dollars a price, or the highest.
fn settings(market: &Market, trade: Trade) -> Settings {
    let mut parents = [255u8; 8];
    for (region, parent) in [(1, 0), (2, 0), (3, 2), (4, 2)] {
        if region < usize::from(market.regions) {
            parents[region] = parent;
        }
    }
    Settings {
        regions: market.regions,
        services: market.services,
        window: market.window,
        halves: market.halves,
        first: 0,
        parents,
        from: guxhamole::NONE,
        to: guxhamole::NONE,
        threshold: match trade {
            Trade::Free => 100_000_000_000,
            Trade::Administered => 50_000 * i64::from(market.window),
        },
        cap: CAP,
        floor: -CAP,
    }
}

fn interval(
    market: &Market,
    trade: Trade,
    number: usize,
    marked: bool,
    random: &mut Random,
) -> Interval {
    let regions = usize::from(market.regions);
    let places = (0..regions).flat_map(|region| (0..=market.services).map(move |at| (region, at)));
    let prices = places.map(|(region, at)| price(trade, region, at, random));
    Interval {
        number: number as u32,
        day_kind: (number / 288 % 7 / 5) as u8,
        prices: prices.collect(),
        marks: (0..regions)
            .map(|region| (marked && (number / 12 + region).is_multiple_of(4)).into())
            .collect(),
        flows: (0..regions)
            .map(|_| random.between(-1_000, 1_000))
            .collect(),
        factors: (0..regions)
            .map(|_| random.between(10_000, 13_000) as u32)
            .collect(),
    }
}

fn four_bytes(numbers: impl Iterator<Item = [u8; 4]>) -> Vec<u8> {
    numbers.flatten().collect()
}

/// An opening's fields.
fn opening(settings: &Settings) -> Vec<u8> {
    let mut fields = vec![settings.regions, settings.services];
    fields.extend(settings.window.to_le_bytes());
    fields.extend([settings.halves, 0]);
    fields.extend(settings.first.to_le_bytes());
    fields.extend(settings.parents);
    fields.extend(settings.threshold.to_le_bytes());
    fields.extend(settings.cap.to_le_bytes());
    fields.extend(settings.floor.to_le_bytes());
    fields
}

/// An entry's fields, from its number on.
fn entry(market: &Market, interval: &Interval, schedule: &[u8]) -> Vec<u8> {
    let regions = usize::from(market.regions);
    let lengths = [
        market.prices(),
        regions,
        regions,
        regions,
        market.schedule(),
        market.prices(),
        market.ring(),
    ];
    let mut fields = interval.number.to_le_bytes().to_vec();
    fields.extend([interval.day_kind, 0]);
    fields.extend(lengths.map(|length| (length as u32).to_le_bytes()).concat());
    fields.extend(four_bytes(
        interval.prices.iter().map(|price| price.to_le_bytes()),
    ));
    fields.extend(&interval.marks);
    fields.extend(four_bytes(
        interval.flows.iter().map(|flow| flow.to_le_bytes()),
    ));
    fields.extend(four_bytes(
        interval.factors.iter().map(|factor| factor.to_le_bytes()),
    ));
    fields.extend(schedule);
    fields.resize(fields.len() + 4 * market.prices(), 0);
    fields
}

/// A price in cents; market 0 is energy. Where every second region is to be administered, its energy averages above the
/// threshold's share of a window, and is at the floor now and then.
fn price(trade: Trade, region: usize, market: u8, random: &mut Random) -> i32 {
    match (trade, market, region % 2) {
        (Trade::Free, 0, _) => random.between(3_000, 12_000),
        (Trade::Free, _, _) => random.between(0, 2_000),
        (Trade::Administered, 0, 0) => match random.between(0, 9) {
            0 => -70_000,
            _ => random.between(60_000, 120_000),
        },
        (Trade::Administered, 0, _) => random.between(20_000, 49_000),
        (Trade::Administered, _, _) => match random.between(0, 3) {
            0 => random.between(30_000, 80_000),
            _ => random.between(0, 2_000),
        },
    }
}
