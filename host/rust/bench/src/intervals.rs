//! Interval records, read, written and rewritten by both books over the same bytes: a day of intervals, end to end.

use crate::lists::{Interval, Market, Trade, Trading};
use crate::timing::Costs;
use crate::typed::{cost, timed, Typed};

use guxhamole::Settings;
use std::hint::black_box;

/// What is timed: a reading, a writing, and rewritings of records whose regions go upward already and of others.
#[derive(Clone, Copy, Debug, PartialEq, Eq)]
pub enum Call {
    Read,
    Write,
    RewriteUpward,
    RewriteShuffled,
}

/// Each by its name.
pub const CALLS: [(&str, Call); 4] = [
    ("read", Call::Read),
    ("write", Call::Write),
    ("rewrite-upward", Call::RewriteUpward),
    ("rewrite-shuffled", Call::RewriteShuffled),
];

/// Intervals of a day.
const DAY: usize = 288;

/// Times that a round goes through the day.
const TURNS: usize = 20;

/// A book that reads, writes and rewrites interval records. Every call must be accepted.
pub trait Recorded: Typed {
    /// Fills the slices. Answers the place after the interval, its number and its day kind.
    fn read(&self, records: &[u8], at: usize, into: &mut Interval) -> (usize, u32, u8);
    fn write(&self, interval: &Interval, buffer: &mut [u8]) -> usize;
    /// Answers the place after the interval taken.
    fn rewrite(&self, records: &[u8], at: usize, buffer: &mut [u8]) -> usize;

    /// A book of a day's size.
    fn opened(day: &Day) -> Self {
        Self::open(&day.settings, &mut vec![0; day.market.ring()])
    }
}

impl Recorded for guxhamole::Book {
    fn read(&self, records: &[u8], at: usize, into: &mut Interval) -> (usize, u32, u8) {
        let slices = guxhamole::IntervalMut {
            prices: &mut into.prices,
            marks: &mut into.marks,
            flows: &mut into.flows,
            factors: &mut into.factors,
        };
        let found = self.read_interval(records, at, slices);
        let found = found.expect("an accepted reading");
        (found.next, found.number, found.day_kind)
    }

    fn write(&self, interval: &Interval, buffer: &mut [u8]) -> usize {
        let interval = guxhamole::Interval {
            number: interval.number,
            day_kind: interval.day_kind,
            prices: &interval.prices,
            marks: &interval.marks,
            flows: &interval.flows,
            factors: &interval.factors,
        };
        let written = self.write_interval(interval, buffer);
        written.expect("an accepted writing")
    }

    fn rewrite(&self, records: &[u8], at: usize, buffer: &mut [u8]) -> usize {
        let next = self.rewrite_interval(records, at, buffer);
        next.expect("an accepted rewriting")
    }
}

impl Recorded for fast::Book {
    fn read(&self, records: &[u8], at: usize, into: &mut Interval) -> (usize, u32, u8) {
        let slices = fast::interval::IntervalMut {
            prices: &mut into.prices,
            marks: &mut into.marks,
            flows: &mut into.flows,
            factors: &mut into.factors,
        };
        let found = self.read_interval(records, at, slices);
        let found = found.expect("an accepted reading");
        (found.next, found.number, found.kind)
    }

    fn write(&self, interval: &Interval, buffer: &mut [u8]) -> usize {
        let interval = fast::interval::Interval {
            number: interval.number,
            kind: interval.day_kind,
            prices: &interval.prices,
            marks: &interval.marks,
            flows: &interval.flows,
            factors: &interval.factors,
        };
        let written = self.write_interval(&interval, buffer);
        written.expect("an accepted writing")
    }

    fn rewrite(&self, records: &[u8], at: usize, buffer: &mut [u8]) -> usize {
        let next = self.rewrite_interval(records, at, buffer);
        next.expect("an accepted rewriting")
    }
}

/// A day's intervals, and their records with regions upward and in an order that changes from interval to interval.
pub struct Day {
    market: Market,
    settings: Settings,
    intervals: Vec<Interval>,
    upward: Vec<u8>,
    shuffled: Vec<u8>,
}

/// What is lent to the calls, and where the next reading or rewriting begins.
pub struct Room {
    interval: Interval,
    buffer: Vec<u8>,
    at: usize,
}

impl Day {
    pub fn new(regions: u8, services: u8) -> Day {
        let market = Market {
            regions,
            services,
            window: 1,
            halves: 1,
        };
        let trading = Trading::new(&market, Trade::Administered, 0, DAY);
        let mut day = Day {
            market,
            settings: trading.settings,
            intervals: trading.intervals,
            upward: Vec::new(),
            shuffled: Vec::new(),
        };
        let book = guxhamole::Book::opened(&day);
        let mut buffer = vec![0; day.bytes()];
        for (number, interval) in day.intervals.iter().enumerate() {
            book.write(interval, &mut buffer);
            day.upward.extend(&buffer);
            let (head, rest) = buffer.split_at_mut(12);
            shuffle(rest, regions.into(), number);
            day.shuffled.extend([&*head, &*rest].concat());
        }
        day.compare();
        day
    }

    /// Bytes of an interval.
    pub fn bytes(&self) -> usize {
        let (regions, services) = (self.market.regions, self.market.services);
        guxhamole::interval_length(regions.into(), services.into(), guxhamole::NONE)
    }

    pub fn room(&self) -> Room {
        let regions = self.market.regions.into();
        Room {
            interval: Interval {
                number: 0,
                day_kind: 0,
                prices: vec![1; self.market.prices()],
                marks: vec![1; regions],
                flows: vec![1; regions],
                factors: vec![1; regions],
            },
            buffer: vec![1; self.bytes()],
            at: 0,
        }
    }

    /// Both read the same, and write and rewrite the same.
    fn compare(&self) {
        let proved = guxhamole::Book::opened(self);
        let fast = fast::Book::opened(self);
        for (turn, interval) in self.intervals.iter().enumerate() {
            for (name, call) in CALLS {
                let mut rooms = [self.room(), self.room()];
                rooms
                    .iter_mut()
                    .for_each(|room| room.at = turn * self.bytes());
                let [one, two] = &mut rooms;
                let answers = (
                    one.call(&proved, self, call, turn),
                    two.call(&fast, self, call, turn),
                );
                assert!(answers.0 == answers.1, "{name} {turn} differs");
                let read = call == Call::Read;
                for room in &rooms {
                    let same = room.interval.holds(interval) || !read;
                    let upward = &self.upward[turn * self.bytes()..][..self.bytes()];
                    let written = room.buffer == upward || read;
                    assert!(same && written, "{name} {turn}");
                }
            }
        }
    }

    /// Measures each of `CALLS`.
    pub fn measure(&self, rounds: usize) -> [Costs; CALLS.len()] {
        let (proved, fast) = (guxhamole::Book::opened(self), fast::Book::opened(self));
        let mut room = self.room();
        let mut times = [Vec::new(), Vec::new()];
        for round in 0..rounds {
            for turn in 0..2 {
                let player = (turn + round) % 2;
                times[player].push(match player {
                    0 => self.times(&proved, &mut room),
                    _ => self.times(&fast, &mut room),
                });
            }
        }
        let cost = |player: usize, call: usize| cost(times[player].iter().map(|time| time[call]));
        std::array::from_fn(|call| Costs {
            proved: cost(0, call),
            fast: cost(1, call),
        })
    }

    /// Nanoseconds of each of `CALLS`.
    fn times<B: Recorded>(&self, book: &B, room: &mut Room) -> [f64; CALLS.len()] {
        CALLS.map(|(_, call)| {
            let mut turn = 0;
            timed(TURNS * DAY, || {
                turn += 1;
                black_box(room.call(book, self, call, turn))
            })
        })
    }
}

impl Interval {
    /// Whether the slices are another's.
    pub fn holds(&self, other: &Interval) -> bool {
        self.prices == other.prices
            && self.marks == other.marks
            && self.flows == other.flows
            && self.factors == other.factors
    }
}

impl Room {
    /// One call: a reading or a rewriting at the place after the last one's, or a writing of the turn's interval.
    #[inline(always)]
    pub fn call<B: Recorded>(
        &mut self,
        book: &B,
        day: &Day,
        call: Call,
        turn: usize,
    ) -> (usize, u32, u8) {
        let buffer = &mut self.buffer;
        let found = match call {
            Call::Read => book.read(&day.upward, self.at, &mut self.interval),
            Call::Write => return (book.write(&day.intervals[turn % DAY], buffer), 0, 0),
            Call::RewriteUpward => (book.rewrite(&day.upward, self.at, buffer), 0, 0),
            Call::RewriteShuffled => (book.rewrite(&day.shuffled, self.at, buffer), 0, 0),
        };
        let end = day.upward.len();
        self.at = if found.0 == end { 0 } else { found.0 };
        found
    }
}

/// Puts the region records back to front and then turns them by a number of places.
fn shuffle(records: &mut [u8], regions: usize, number: usize) {
    let size = records.len() / regions;
    let mut order: Vec<Vec<u8>> = records.chunks(size).map(<[u8]>::to_vec).collect();
    order.reverse();
    order.rotate_left(number % regions);
    records.copy_from_slice(&order.concat());
}
