//! Bills (request 2026-09 of document 02): a book in the middle of its windows, a day of intervals, and lines that are right or wrong in
//! one thing or several; records damaged, slices of other lengths, no such regions, and books and rings that others changed.

use crate::calls;
use crate::images;
use crate::intervals::{self, records};
use crate::random::Random;
use independent::bill::{amount, Bill, Lines, MOST_ENERGY};
use independent::book::Book;
use independent::image::Fields;
use independent::interval::Interval;
use independent::{Call, Ledger, Opening};

/// A book and its ring, and the ledger that knows their history.
#[derive(Clone, Debug)]
pub struct Kept {
    pub ledger: Ledger,
    pub book: Book,
    pub ring: Vec<i32>,
}

/// A book before a day, the day's intervals, all of them valid, and one schedule.
#[derive(Clone, Debug)]
pub struct Day {
    pub kept: Kept,
    pub schedule: Vec<i32>,
    pub intervals: Vec<Interval>,
}

/// A check of a bill: `work` is what the second ring holds before.
#[derive(Clone, Debug, PartialEq, Eq)]
pub struct Checking {
    pub book: Book,
    pub ring: Vec<i32>,
    pub work: Vec<i32>,
    pub bill: Bill,
    /// Whether a list of calls led to book and ring, so that the ledger answers too.
    pub listed: bool,
}

impl Kept {
    /// An image's.
    pub fn load(image: &[u8]) -> Kept {
        let mut ring = vec![0; Fields::read(image).shape().ring()];
        Kept {
            ledger: Ledger::load(image, ring.len()).expect("a valid image"),
            book: Book::load(image, &mut ring).expect("a valid image"),
            ring,
        }
    }

    /// One call of a list; a refused one changes nothing, and neither does a report or a restart, of which the ledger knows nothing.
    pub fn call(&mut self, call: &Call) {
        if self.ledger.call(call).number != 0 {
            return;
        }
        match call {
            Call::Entry(entry, _, table) => {
                let taken = self.book.enter(&mut self.ring, entry, &mut table.clone());
                taken.expect("what the ledger takes");
            }
            Call::Threshold(threshold) => {
                let set = self.book.set_threshold(*threshold);
                set.expect("what the ledger takes");
            }
            Call::Limits(cap, floor) => {
                let set = self.book.set_limits(*cap, *floor);
                set.expect("what the ledger takes");
            }
            Call::Report(..) | Call::Restart(..) => {}
        }
    }

    /// After a list from an opening, or from an image without entries or any other. Long windows are seldom.
    pub fn any(random: &mut Random) -> Kept {
        let mut kept = match random.below(5) {
            0 => return Kept::load(&images::composed(random)),
            1 => {
                let settings = small(random, images::settings);
                Kept::load(&images::blank_of(random, &settings))
            }
            _ => {
                let opening = small(random, calls::opening);
                let mut ring = vec![0; calls::ring_length(&opening)];
                Kept {
                    ledger: Ledger::open(&opening, ring.len()).expect("a valid opening"),
                    book: Book::open(&opening, &mut ring).expect("a valid opening"),
                    ring,
                }
            }
        };
        for _ in 0..random.below(15) {
            let call = calls::call(random, &kept.ledger);
            kept.call(&call);
        }
        kept
    }
}

/// Settings whose window is mostly short, since every check of a bill copies its ring.
fn small(random: &mut Random, settings: fn(&mut Random) -> Opening) -> Opening {
    let mut settings = settings(random);
    if !random.chance(1) {
        settings.window = settings.window.min(40);
    }
    settings
}

impl Day {
    /// So many intervals; fewer where the book can't take them, and then the one that it refuses is the last.
    pub fn of(random: &mut Random, kept: Kept, length: usize) -> Day {
        let schedule = calls::entry(random, &kept.ledger).schedule;
        let (mut after, mut intervals) = (kept.ledger.clone(), Vec::new());
        let (ring, mut table) = (kept.ring.len(), vec![0; kept.ledger.shape().prices()]);
        for _ in 0..length {
            let mut entry = calls::entry(random, &after);
            intervals.push(Interval {
                number: entry.number,
                kind: entry.kind,
                prices: entry.prices.clone(),
                marks: entry.marks.clone(),
                flows: entry.flows.clone(),
                factors: entry.factors.clone(),
            });
            entry.schedule.clone_from(&schedule);
            if after.enter(ring, entry, &mut table).is_err() {
                break;
            }
        }
        Day {
            kept,
            schedule,
            intervals,
        }
    }

    /// None to eight intervals, seldom more, after any list.
    pub fn any(random: &mut Random) -> Day {
        let kept = Kept::any(random);
        let length = match random.below(25) {
            0 => random.between(9, 30) as usize,
            _ => random.below(9),
        };
        Day::of(random, kept, length)
    }

    /// The records of its intervals, end to end.
    pub fn records(&self) -> Vec<u8> {
        bytes_of(&self.kept.book, &self.intervals)
    }

    /// The check of a bill for a region, whose every line is right at some kilowatt-hours.
    pub fn right(&self, random: &mut Random, region: usize) -> Checking {
        let mut checking = self.without_lines(random, region);
        checking.bill.lines = right_lines(random, &checking);
        checking
    }

    fn without_lines(&self, random: &mut Random, region: usize) -> Checking {
        Checking {
            book: self.kept.book.clone(),
            ring: self.kept.ring.clone(),
            work: work(random, &self.kept.ring),
            bill: Bill {
                records: self.records(),
                schedule: self.schedule.clone(),
                region: region as u32,
                lines: Lines::default(),
            },
            listed: true,
        }
    }
}

fn bytes_of(book: &Book, intervals: &[Interval]) -> Vec<u8> {
    let markets = usize::from(book.services) + 1;
    let upward: Vec<usize> = (0..usize::from(book.regions)).collect();
    let each = intervals.iter();
    each.flat_map(|interval| records(interval, markets, &upward))
        .collect()
}

/// What a second ring holds before: one number, the ring already, or anything.
fn work(random: &mut Random, ring: &[i32]) -> Vec<i32> {
    match random.below(4) {
        0 => vec![7; ring.len()],
        1 => ring.to_vec(),
        _ => ring.iter().map(|_| random.word() as i32).collect(),
    }
}

/// What the day's entries publish, up to the first interval that is refused: of each its interval and its table.
fn published(checking: &Checking) -> Vec<(Interval, Vec<i32>)> {
    let Checking { book, bill, .. } = checking;
    let (mut book, mut ring) = (book.clone(), checking.ring.clone());
    let (mut at, mut played) = (0, Vec::new());
    while at < bill.records.len() && book.fault().is_none() {
        let shape = book.shape();
        let mut interval = intervals::fitting(&shape);
        let Ok(next) = book.read_interval(&bill.records, at, &mut interval) else {
            break;
        };
        let entry = interval.clone().with(&bill.schedule);
        let mut table = vec![0; shape.prices()];
        if book.enter(&mut ring, &entry, &mut table).is_err() {
            break;
        }
        played.push((interval, table));
        at = next;
    }
    played
}

/// Lines as a right bill has them, one for each interval that is accepted.
pub fn right_lines(random: &mut Random, checking: &Checking) -> Lines {
    let energy_at = checking.bill.region as usize * (usize::from(checking.book.services) + 1);
    let mut lines = Lines::default();
    for (interval, table) in published(checking) {
        let price = table[energy_at];
        let energy = energy(random, price);
        lines.numbers.push(interval.number);
        lines.energy.push(energy);
        lines.prices.push(price);
        lines.amounts.push(amount(energy, price));
    }
    lines
}

/// Kilowatt-hours: none or few, the most, anything between, and mostly so many that the amount comes to half a cent, where a price can.
fn energy(random: &mut Random, price: i32) -> u32 {
    match random.below(9) {
        0 => random.below(4) as u32,
        1 => MOST_ENERGY - random.below(2) as u32,
        2 => random.below(MOST_ENERGY as usize + 1) as u32,
        3 | 4 => random.below(2_000) as u32,
        _ => {
            let price = price.unsigned_abs() % 1_000;
            let halves: Vec<u32> = (1..=1_000)
                .filter(|energy| energy * price % 1_000 == 500)
                .collect();
            let wide = random.pick(&[1, 10, 1_000_000]);
            match halves[..] {
                [] => random.below(100_000) as u32,
                _ => random.pick(&halves) + 1_000 * random.below(wide) as u32,
            }
        }
    }
}

/// What of a bill's lines is changed; some changes leave it right.
#[derive(Clone, Copy, Debug, PartialEq, Eq, PartialOrd, Ord)]
pub enum Change {
    Nothing,
    Number,
    Energy,
    Price,
    Amount,
    Dropped,
    Added,
    Surplus,
    Exchanged,
    MostEnergy,
    TooMuchEnergy,
    EntryPrice,
    OtherRegion,
    RoundedDown,
    HalfToEven,
}

pub const CHANGES: [Change; 15] = [
    Change::Nothing,
    Change::Number,
    Change::Energy,
    Change::Price,
    Change::Amount,
    Change::Dropped,
    Change::Added,
    Change::Surplus,
    Change::Exchanged,
    Change::MostEnergy,
    Change::TooMuchEnergy,
    Change::EntryPrice,
    Change::OtherRegion,
    Change::RoundedDown,
    Change::HalfToEven,
];

/// A value one more or one less, seldom one that differs in its upper half alone.
fn beside(random: &mut Random, upper: i64) -> i64 {
    random.pick(&[-1, 1, -1, 1, -1, 1, upper, -upper])
}

/// Makes one of the changes at any line; a bill without lines only gets one.
fn change(random: &mut Random, checking: &mut Checking, what: Change) {
    let count = checking.bill.lines.numbers.len();
    let line = match random.below(4) {
        0 => 0,
        1 => count.saturating_sub(1),
        _ => random.below(count.max(1)),
    };
    let other = random.below(count.max(1));
    let lines = &mut checking.bill.lines;
    match what {
        Change::Added => add(random, lines, line),
        Change::Surplus => add(random, lines, count),
        _ if count == 0 => {}
        Change::Nothing => {}
        Change::Number | Change::Energy | Change::Price | Change::Amount => {
            put_beside(random, lines, line, what)
        }
        Change::Dropped => lines.each(|slice| slice.remove(line)),
        Change::Exchanged => lines.each(|slice| slice.swap(line, other)),
        Change::MostEnergy => set_energy(lines, line, MOST_ENERGY),
        Change::TooMuchEnergy => {
            let wild = MOST_ENERGY + random.between(1, 3_000_000_000) as u32;
            let many = random.pick(&[MOST_ENERGY + 1, u32::MAX, 1 << 31, wild]);
            set_energy(lines, line, many);
        }
        Change::EntryPrice | Change::OtherRegion => other_price(random, checking, line, what),
        Change::RoundedDown | Change::HalfToEven => round_otherwise(lines, line, what),
    }
}

/// One field of a line, a little off.
fn put_beside(random: &mut Random, lines: &mut Lines, line: usize, what: Change) {
    let by = beside(random, 1 << 16);
    match what {
        Change::Number => lines.numbers[line] = lines.numbers[line].wrapping_add(by as u32),
        Change::Energy => lines.energy[line] = lines.energy[line].wrapping_add(by as u32),
        Change::Price => lines.prices[line] = lines.prices[line].wrapping_add(by as i32),
        _ => lines.amounts[line] += beside(random, 1 << 32),
    }
}

/// A slice of lines, of any of the four kinds.
trait Slice {
    fn remove(&mut self, line: usize);
    fn swap(&mut self, line: usize, other: usize);
    fn repeat(&mut self, from: usize, to: usize);
}

impl<T: Copy + Default> Slice for Vec<T> {
    fn remove(&mut self, line: usize) {
        Vec::remove(self, line);
    }

    fn swap(&mut self, line: usize, other: usize) {
        self.as_mut_slice().swap(line, other);
    }

    fn repeat(&mut self, from: usize, to: usize) {
        let copy = self.get(from).copied().unwrap_or_default();
        self.insert(to, copy);
    }
}

/// The same for each of the four slices.
trait Each {
    fn each(&mut self, act: impl FnMut(&mut dyn Slice));
}

impl Each for Lines {
    fn each(&mut self, mut act: impl FnMut(&mut dyn Slice)) {
        act(&mut self.numbers);
        act(&mut self.energy);
        act(&mut self.prices);
        act(&mut self.amounts);
    }
}

/// A line put in at a place: a copy of another one, or where there is none, or now and then, of zeros.
fn add(random: &mut Random, lines: &mut Lines, at: usize) {
    let from = random.below(lines.numbers.len() + 1);
    lines.each(|slice| slice.repeat(from, at));
}

/// Other kilowatt-hours, with the amount that they come to.
fn set_energy(lines: &mut Lines, line: usize, energy: u32) {
    lines.energy[line] = energy;
    lines.amounts[line] = amount(energy, lines.prices[line]);
}

/// The price that was entered, or that another region's entry publishes, mostly with the amount that it comes to: at the first line from a
/// place on where it is another one.
fn other_price(random: &mut Random, checking: &mut Checking, line: usize, what: Change) {
    let played = published(checking);
    let markets = usize::from(checking.book.services) + 1;
    let region = match what {
        Change::EntryPrice => checking.bill.region as usize,
        _ => random.below(checking.book.regions.into()),
    };
    let price = |(interval, table): &(Interval, Vec<i32>)| match what {
        Change::EntryPrice => interval.prices[region * markets],
        _ => table[region * markets],
    };
    let lines = &mut checking.bill.lines;
    let mut places = line..lines.numbers.len().min(played.len());
    if let Some(line) = places.find(|&line| price(&played[line]) != lines.prices[line]) {
        lines.prices[line] = price(&played[line]);
        if random.chance(80) {
            lines.amounts[line] = amount(lines.energy[line], lines.prices[line]);
        }
    }
}

/// An amount rounded down, or half to even: at the first line from a place on where that makes another one.
fn round_otherwise(lines: &mut Lines, line: usize, what: Change) {
    let rounded = |line: usize| {
        let product = i64::from(lines.energy[line]) * i64::from(lines.prices[line]);
        let (below, rest) = (product.div_euclid(1_000), product.rem_euclid(1_000));
        match what {
            Change::RoundedDown => below,
            _ if rest == 500 => below + (below & 1),
            _ => below + i64::from(rest > 500),
        }
    };
    let mut places = line..lines.numbers.len();
    if let Some(line) = places.find(|&line| rounded(line) != lines.amounts[line]) {
        lines.amounts[line] = rounded(line);
    }
}

/// A check of a bill for any region over the day, and what of its lines was changed last: the records are damaged in three of ten, then the
/// lines made right for what is accepted of them, and changed; lengths, region and book are wrong in some.
pub fn checking(random: &mut Random, day: &Day) -> (Checking, Change) {
    let region = random.below(day.kept.book.regions.into());
    let mut checking = day.without_lines(random, region);
    match random.below(20) {
        0..=2 => checking.bill.records = spoilt(random, day),
        3..=5 => damage(random, day, &mut checking.bill.records),
        _ => {}
    }
    if random.chance(8) {
        forge(random, &mut checking);
    }
    checking.bill.lines = right_lines(random, &checking);
    let mut what = Change::Nothing;
    for _ in 0..random.pick(&[0, 0, 1, 1, 1, 1, 2, 3]) {
        what = random.pick(&CHANGES);
        change(random, &mut checking, what);
    }
    match random.below(40) {
        0 => misfit(random, &mut checking),
        1 => checking.bill.region = no_region(random, &checking.book),
        2 => {
            misfit(random, &mut checking);
            checking.bill.region = no_region(random, &day.kept.book);
        }
        3 => {
            checking.book = intervals::damaged_book(random, &checking.book);
            checking.listed = false;
        }
        _ => {}
    }
    (checking, what)
}

/// The records with one interval, or two, that the entry refuses: by its number, kind, a mark, a price or a factor, at any place.
fn spoilt(random: &mut Random, day: &Day) -> Vec<u8> {
    let mut intervals = day.intervals.clone();
    for _ in 0..random.between(1, 2) {
        let count = intervals.len();
        if count == 0 {
            break;
        }
        let (one, other) = (random.below(count), random.below(count));
        let interval = &mut intervals[one];
        let (region, price) = (
            random.below(interval.marks.len()),
            random.below(interval.prices.len()),
        );
        match random.below(9) {
            0 => interval.number = interval.number.wrapping_add(beside(random, 256) as u32),
            1 => interval.kind = random.pick(&[2, 3, 255]),
            2 | 3 => interval.marks[region] = random.pick(&[2, 3, 255]),
            4 => interval.prices[price] = random.pick(&[10_000_001, i32::MAX]),
            5 => interval.prices[price] = random.pick(&[-1, -10_000_001, i32::MIN]),
            6 | 7 => interval.factors[region] = random.pick(&[0, 9_999, 20_001, u32::MAX]),
            _ => intervals.swap(one, other),
        }
    }
    bytes_of(&day.kept.book, &intervals)
}

/// Bytes of one interval's records, or behind the last, changed, left out or put in.
fn damage(random: &mut Random, day: &Day, bytes: &mut Vec<u8>) {
    let length = intervals::length(&day.kept.book);
    for _ in 0..random.between(1, 2) {
        let at = length * random.below(day.intervals.len() + 1);
        match random.below(6) {
            0 => bytes.extend((0..random.between(1, 40)).map(|byte| byte as u8)),
            _ => intervals::damage(random, &day.kept.book, at.min(bytes.len()), bytes),
        }
    }
}

/// The highest sum of a book, in either direction.
const MOST_SUM: i64 = 20_160_000_000;

/// A field or a place of the ring changed by others, so that the book is sound still: mostly a sum that a few entries take beyond its
/// bound, since what leaves the ring is far from what joins it.
fn forge(random: &mut Random, checking: &mut Checking) {
    checking.listed = false;
    let shape = checking.book.shape();
    let (region, market) = (random.below(shape.regions), random.below(shape.markets()));
    let place = 11 * region + market;
    let window = shape.place(region, market) * shape.window;
    let window = &mut checking.ring[window..window + shape.window];
    let far = random.pick(&[0, 1, 2_000_000_000, 5_000_000_000]);
    match random.below(8) {
        0 => checking.book.marks[place] ^= 1,
        1 => window[random.below(shape.window)] = random.word() as i32,
        2 => checking.book.sums[place] = random.between(-MOST_SUM, MOST_SUM),
        3 => {
            window.fill(i32::MAX);
            checking.book.sums[place] = far - MOST_SUM;
        }
        _ => {
            window.fill(i32::MIN);
            checking.book.sums[place] = MOST_SUM - far;
        }
    }
}

/// One of the slices with a length, or two, of another one than it must have.
fn misfit(random: &mut Random, checking: &mut Checking) {
    let slice = random.below(7);
    let length = right_length(checking, slice);
    let wrong = random.pick(&[
        0,
        length + 1,
        length.saturating_sub(1),
        2 * length,
        length + 9,
    ]);
    set_length(checking, slice, wrong);
}

/// The length of a slice, by number: the ring, the second ring, the schedule, and the four of the lines.
pub fn right_length(checking: &Checking, slice: usize) -> usize {
    match slice {
        0 | 1 => checking.ring.len(),
        2 => checking.bill.schedule.len(),
        _ => checking.bill.lines.numbers.len(),
    }
}

/// Gives a slice, by number, another length.
pub fn set_length(checking: &mut Checking, slice: usize, length: usize) {
    let lines = &mut checking.bill.lines;
    match slice {
        0 => checking.ring.resize(length, 0),
        1 => checking.work.resize(length, 7),
        2 => checking.bill.schedule.resize(length, 0),
        3 => lines.numbers.resize(length, 0),
        4 => lines.energy.resize(length, 0),
        5 => lines.prices.resize(length, 0),
        _ => lines.amounts.resize(length, 0),
    }
}

/// A region from R up: the next one, and those of which a part, or a product with M, would be one of the book's.
pub fn no_region(random: &mut Random, book: &Book) -> u32 {
    let regions = u32::from(book.regions);
    let any = random.below(regions as usize) as u32;
    let menu = [
        regions,
        regions + 1,
        8,
        255,
        256 + any,
        65_536 + any,
        1 << 31,
        (1 << 31) + any,
        u32::MAX,
    ];
    random.pick(&menu)
}
