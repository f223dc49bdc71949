//! A day's bill checked by both books over the same bytes and lines, beside the same day read and entered one interval after the other,
//! which a check does too.

use crate::clock;
use crate::intervals::Recorded;
use crate::lists::{Interval, Market, Trade, Trading};
use crate::timing::Costs;
use crate::typed::{alike, cost, timed, Host, Typed};

use std::hint::black_box;

/// What is timed, in this order.
pub const CALLS: [&str; 2] = ["billed", "entered alone"];

/// Intervals of a day.
const DAY: usize = 288;

/// Times that a round goes through the day.
const TURNS: usize = 10;

/// The region that is billed.
const REGION: u32 = 0;

/// A day's records and schedule, and the right lines for it.
pub struct Day {
    market: Market,
    trading: Trading,
    /// Entries before the day: the window is full and has turned half round.
    taken: usize,
    records: Vec<u8>,
    numbers: Vec<u32>,
    energy: Vec<u32>,
    prices: Vec<i32>,
    amounts: Vec<i64>,
}

/// A book that checks bills.
pub trait Billing: Recorded {
    /// Whether the day's lines are right; no check is refused.
    fn check(&self, ring: &[i32], work: &mut [i32], day: &Day) -> bool;
}

impl Billing for guxhamole::Book {
    #[inline(always)]
    fn check(&self, ring: &[i32], work: &mut [i32], day: &Day) -> bool {
        let lines = guxhamole::Lines {
            numbers: &day.numbers,
            energy: &day.energy,
            prices: &day.prices,
            amounts: &day.amounts,
        };
        let (records, schedule) = (&day.records, &day.trading.schedule);
        let checked = self.check_bill(ring, work, records, schedule, REGION, lines);
        checked.expect("an accepted check") == guxhamole::Judgement::Right
    }
}

impl Billing for fast::Book {
    #[inline(always)]
    fn check(&self, ring: &[i32], work: &mut [i32], day: &Day) -> bool {
        let lines = fast::bill::Lines {
            numbers: &day.numbers,
            energy: &day.energy,
            prices: &day.prices,
            amounts: &day.amounts,
        };
        let (records, schedule) = (&day.records, &day.trading.schedule);
        let checked = self.check_bill(ring, work, records, schedule, REGION, lines);
        checked.expect("an accepted check") == fast::bill::Judgement::Right
    }
}

/// A book before the day, and its ring.
pub struct Start<B> {
    pub book: B,
    pub ring: Vec<i32>,
}

/// What a day is worked in: the second ring, and the slices of one interval.
pub struct Room {
    pub work: Vec<i32>,
    interval: Interval,
    table: Vec<i32>,
}

impl Day {
    pub fn new(market: &Market, trade: Trade) -> Day {
        let taken = usize::from(market.window) + usize::from(market.window / 2);
        let mut day = Day {
            market: *market,
            trading: Trading::new(market, trade, taken, taken + DAY),
            taken,
            records: Vec::new(),
            numbers: Vec::new(),
            energy: Vec::new(),
            prices: Vec::new(),
            amounts: Vec::new(),
        };
        let start = day.start::<guxhamole::Book>();
        let mut room = day.room();
        room.work.copy_from_slice(&start.ring);
        let mut book = start.book;
        let mut buffer = vec![0; book.interval_length()];
        for (place, interval) in day.trading.intervals[taken..].iter().enumerate() {
            book.write(interval, &mut buffer);
            day.records.extend(&buffer);
            let (ring, table) = (&mut room.work, &mut room.table);
            Typed::enter(&mut book, ring, interval, &day.trading.schedule, table);
            let (energy, price) = (1_000 * place as u32, table[0]);
            day.numbers.push(interval.number);
            day.energy.push(energy);
            day.prices.push(price);
            day.amounts.push(place as i64 * i64::from(price));
        }
        day
    }

    /// A book that has taken the entries before the day.
    pub fn start<B: Billing>(&self) -> Start<B> {
        let mut host = Host::<B>::new(&self.market, &self.trading);
        host.enter(&self.trading, 0..self.taken);
        let (book, ring) = host.kept();
        Start {
            book: book.clone(),
            ring: ring.to_vec(),
        }
    }

    pub fn room(&self) -> Room {
        let regions = self.market.regions.into();
        Room {
            work: vec![1; self.market.ring()],
            interval: Interval {
                number: 0,
                day_kind: 0,
                prices: vec![1; self.market.prices()],
                marks: vec![1; regions],
                flows: vec![1; regions],
                factors: vec![1; regions],
            },
            table: vec![1; self.market.prices()],
        }
    }

    /// Checks the bill.
    #[inline(always)]
    pub fn bill<B: Billing>(&self, start: &Start<B>, room: &mut Room) -> bool {
        start.book.check(&start.ring, &mut room.work, self)
    }

    /// Reads and enters every interval, over the ring that `work` is a copy of. Answers the total of the counts.
    #[inline(always)]
    pub fn enter<B: Billing>(&self, mut book: B, room: &mut Room) -> u32 {
        let (mut at, mut changed) = (0, 0);
        while at < self.records.len() {
            let (next, number, day_kind) = book.read(&self.records, at, &mut room.interval);
            (room.interval.number, room.interval.day_kind) = (number, day_kind);
            let (ring, table) = (&mut room.work, &mut room.table);
            changed += book.enter(ring, &room.interval, &self.trading.schedule, table);
            at = next;
        }
        changed
    }

    /// Nanoseconds of each of `CALLS`. The copy of the ring is a check's own, and no part of entering.
    fn times<B: Billing>(&self, start: &Start<B>, room: &mut Room) -> [f64; 2] {
        let billed = timed(TURNS, || self.bill(start, room));
        let mut entered = 0.0;
        for _ in 0..TURNS {
            room.work.copy_from_slice(&start.ring);
            let book = start.book.clone();
            let before = clock::now();
            black_box(self.enter(book, room));
            entered += clock::now() - before;
        }
        [billed, entered / TURNS as f64]
    }

    /// Both say that the bill is right, and work to the same second ring, which the entries alone lead to; with an amount a cent off both
    /// say that it isn't.
    fn compare(&mut self, proved: &Start<guxhamole::Book>, fast: &Start<fast::Book>) {
        let (mut one, mut other, mut alone) = (self.room(), self.room(), self.room());
        let right = self.bill(proved, &mut one) && self.bill(fast, &mut other);
        assert!(right && one.work == other.work, "a right bill differs");
        alone.work.copy_from_slice(&proved.ring);
        self.enter(proved.book, &mut alone);
        assert!(one.work == alone.work, "the day entered alone differs");
        self.amounts[DAY / 2] += 1;
        let wrong = self.bill(proved, &mut one) || self.bill(fast, &mut other);
        assert!(!wrong, "a wrong bill differs");
        self.amounts[DAY / 2] -= 1;
    }
}

/// Measures each of `CALLS` on a book whose window is full and has turned half round.
pub fn measure(market: &Market, trade: Trade, rounds: usize) -> [Costs; 2] {
    let mut day = Day::new(market, trade);
    alike(market, &day.trading, day.taken);
    let (proved, fast) = (day.start::<guxhamole::Book>(), day.start::<fast::Book>());
    day.compare(&proved, &fast);
    let mut room = day.room();
    let mut times = [Vec::new(), Vec::new()];
    for round in 0..rounds {
        for turn in 0..2 {
            let player = (turn + round) % 2;
            times[player].push(match player {
                0 => day.times(&proved, &mut room),
                _ => day.times(&fast, &mut room),
            });
        }
    }
    let cost = |player: usize, call: usize| cost(times[player].iter().map(|round| round[call]));
    std::array::from_fn(|call| Costs {
        proved: cost(0, call),
        fast: cost(1, call),
    })
}
