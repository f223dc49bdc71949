//! Interval records, and calls that read, write and rewrite them: books of every size, intervals end to end with their regions in
//! number order or in any other, whole and damaged, and places anywhere.

use crate::calls;
use crate::images;
use crate::random::Random;
use independent::book::Book;
use independent::image::Fields;
use independent::interval::Interval;
use independent::rules::{Shape, NO_END, NO_PARENT};

/// A reading: the slices lent to it hold what they hold before.
#[derive(Clone, Debug, PartialEq, Eq)]
pub struct Reading {
    pub book: Book,
    pub records: Vec<u8>,
    pub at: usize,
    pub lent: Interval,
}

/// A writing into a buffer of a length.
#[derive(Clone, Debug, PartialEq, Eq)]
pub struct Writing {
    pub book: Book,
    pub interval: Interval,
    pub buffer: usize,
}

/// A rewriting into a buffer of a length.
#[derive(Clone, Debug, PartialEq, Eq)]
pub struct Rewriting {
    pub book: Book,
    pub records: Vec<u8>,
    pub at: usize,
    pub buffer: usize,
}

/// The lengths of a head, of the additional link's record and of a region's.
const HEAD: usize = 12;
const LINK: usize = 14;

fn region_length(markets: usize) -> usize {
    16 + 4 * markets
}

/// The length of an interval of a book.
pub fn length(book: &Book) -> usize {
    let link = if has_link(book) { LINK } else { 0 };
    HEAD + usize::from(book.regions) * region_length(markets(book)) + link
}

fn has_link(book: &Book) -> bool {
    book.from != NO_END
}

fn markets(book: &Book) -> usize {
    usize::from(book.services) + 1
}

/// A sound book of R 1..8 and S 0..10: just opened, or in the middle of its windows.
pub fn book(random: &mut Random) -> Book {
    if random.chance(25) {
        let image = images::composed(random);
        let mut ring = vec![0; Fields::read(&image).shape().ring()];
        return Book::load(&image, &mut ring).expect("a valid image");
    }
    let mut opening = calls::opening(random);
    opening.regions = random.between(1, 8) as u32;
    opening.services = random.between(0, 10) as u32;
    opening.window = random.between(1, 4) as u32;
    let unused = opening.parents.iter_mut().skip(opening.regions as usize);
    unused.for_each(|parent| *parent = NO_PARENT);
    let opening = calls::maybe_linked(random, opening);
    let mut ring = vec![0; calls::ring_length(&opening)];
    Book::open(&opening, &mut ring).expect("a valid opening")
}

/// One field of a sound book set to a value that is mostly outside its limits.
pub fn damaged_book(random: &mut Random, book: &Book) -> Book {
    let mut book = book.clone();
    let (region, place) = (random.below(8), random.below(88));
    match random.below(if has_link(&book) { 15 } else { 14 }) {
        0 => book.regions = random.pick(&[0, 9, 255]),
        1 => book.services = random.pick(&[11, 255]),
        2 => book.window = random.pick(&[0, 2_017, 65_535]),
        3 => book.halves = random.pick(&[0, 49, 255]),
        4 => book.position = 6 * u16::from(book.halves),
        5 => book.parents[region] = random.pick(&[region as u8, 8, 254]),
        6 => book.threshold = random.pick(&[i64::MIN, 0, 100_000_000_001]),
        7 => book.cap = random.pick(&[0, 10_000_001]),
        8 => book.floor = random.pick(&[0, -10_000_001]),
        9 => book.entries = random.pick(&[10_000_001, u32::MAX]),
        10 => book.counts[region] = random.pick(&[1, 2_017]),
        11 => book.nexts[region] = random.pick(&[1, 2_016]),
        12 => book.sums[place] = random.pick(&[1, 20_160_000_001, i64::MIN]),
        14 => (book.from, book.to) = random.pick(&[(0, 0), (book.from, NO_END), (8, book.to)]),
        _ => book.marks[place] = random.pick(&[1, 2, 255]),
    }
    book
}

/// Any numbers, those at the ends of their widths among them: records have no ranges.
pub fn interval(random: &mut Random, book: &Book) -> Interval {
    let regions = usize::from(book.regions);
    let flows = regions + usize::from(has_link(book));
    let ends = [0, 1, 255, 256, 1 << 31, (1 << 31) - 1, u32::MAX];
    let wild = random.chance(30);
    let mut word = |most: u64| match random.below(6) {
        0 => random.pick(&ends),
        _ if wild => random.word() as u32,
        _ => (random.word() % most) as u32,
    };
    Interval {
        number: word(10_000_000),
        kind: word(2) as u8,
        prices: (0..regions * markets(book))
            .map(|_| word(100_000) as i32)
            .collect(),
        marks: (0..regions).map(|_| word(2) as u8).collect(),
        flows: (0..flows).map(|_| word(1_000) as i32).collect(),
        factors: (0..flows).map(|_| word(20_000)).collect(),
    }
}

/// Slices of a shape's lengths, full of zeros.
pub fn fitting(shape: &Shape) -> Interval {
    Interval {
        number: 0,
        kind: 0,
        prices: vec![0; shape.prices()],
        marks: vec![0; shape.regions],
        flows: vec![0; shape.flows()],
        factors: vec![0; shape.flows()],
    }
}

/// The records of an interval, its regions in an order; an extra last place of flows and factors is the additional link's.
pub fn records(interval: &Interval, markets: usize, order: &[usize]) -> Vec<u8> {
    let mut bytes = vec![HEAD as u8, 0, 0, 0, 16, 0];
    bytes.extend(interval.number.to_le_bytes());
    bytes.extend([interval.kind, interval.marks.len() as u8]);
    for &region in order {
        bytes.extend((region_length(markets) as u32).to_le_bytes());
        bytes.extend([17, 0, region as u8, interval.marks[region]]);
        bytes.extend(interval.flows[region].to_le_bytes());
        bytes.extend(interval.factors[region].to_le_bytes());
        let prices = &interval.prices[region * markets..][..markets];
        bytes.extend(prices.iter().flat_map(|price| price.to_le_bytes()));
    }
    for place in interval.marks.len()..interval.flows.len() {
        bytes.extend([LINK as u8, 0, 0, 0, 18, 0]);
        bytes.extend(interval.flows[place].to_le_bytes());
        bytes.extend(interval.factors[place].to_le_bytes());
    }
    bytes
}

/// The regions in number order, with two of them exchanged, or in any order.
pub fn order(random: &mut Random, regions: usize) -> Vec<usize> {
    let mut order: Vec<usize> = (0..regions).collect();
    match random.below(10) {
        0..=4 => order,
        5 | 6 => {
            order.swap(random.below(regions), random.below(regions));
            order
        }
        _ => any_order(random, regions),
    }
}

/// The regions in any order.
pub fn any_order(random: &mut Random, regions: usize) -> Vec<usize> {
    let mut order: Vec<usize> = (0..regions).collect();
    for place in (1..regions).rev() {
        order.swap(place, random.below(place + 1));
    }
    order
}

/// Where each record of the interval at a place begins, the head first, as long as nothing is damaged.
fn starts(book: &Book, at: usize) -> Vec<usize> {
    let regions = (0..usize::from(book.regions)).map(|k| HEAD + k * region_length(markets(book)));
    let link = has_link(book).then(|| length(book) - LINK);
    let starts = std::iter::once(0).chain(regions).chain(link);
    starts.map(|start| at + start).collect()
}

/// The length of the record that begins so far behind its interval's start; a head is as good as a region.
fn record_length(book: &Book, behind: usize) -> usize {
    match has_link(book) && behind + LINK == length(book) {
        true => LINK,
        false => region_length(markets(book)),
    }
}

/// Bytes about which rules turn.
const MENU: [u8; 13] = [0, 1, 2, 5, 6, 11, 12, 13, 16, 17, 18, 20, 255];

/// One damage to the records about the interval at a place.
pub(crate) fn damage(random: &mut Random, book: &Book, at: usize, bytes: &mut Vec<u8>) {
    if bytes.is_empty() {
        return;
    }
    let start = random.pick(&starts(book, at)).min(bytes.len() - 1);
    let anywhere = random.below(bytes.len());
    let near = (start + random.below(HEAD)).min(bytes.len() - 1);
    let value = match random.below(3) {
        0 => random.word() as u8,
        _ => random.pick(&MENU),
    };
    let end = (start + record_length(book, start - at.min(start))).min(bytes.len());
    match random.below(11) {
        0 => bytes[anywhere] = value,
        1..=3 => bytes[near] = value,
        4 => bytes.truncate(anywhere),
        5 => bytes.insert(random.pick(&[anywhere, near, start]), value),
        6 | 7 => {
            let region = (start + 6).min(bytes.len() - 1);
            let other = random.below(book.regions.into()) as u8;
            bytes[region] = random.pick(&[book.regions, other, other, book.regions + 1, 255]);
        }
        8 => {
            bytes.drain(start..end);
        }
        9 => {
            // The record and the one behind it exchanged.
            let behind = (end + region_length(markets(book))).min(bytes.len());
            bytes[start..behind].rotate_left(end - start);
        }
        _ => {
            let again = bytes[start..end].to_vec();
            bytes.splice(start..start, again);
        }
    }
}

/// One damage to the additional link's record at a place: its length, its kind, a cut within it, or none of it.
fn damage_link(random: &mut Random, start: usize, bytes: &mut Vec<u8>) {
    let end = start + LINK;
    if bytes.len() < end {
        return;
    }
    match random.below(4) {
        0 => bytes[start] = random.pick(&[0, 6, 12, 13, 15, 20]),
        1 => bytes[start + 4] = random.pick(&[16, 17, 19]),
        2 => bytes.truncate(start + random.below(LINK)),
        _ => {
            bytes.drain(start..end);
        }
    }
}

/// The place of the interval, one near it, one anywhere up to the end and a little beyond, or one that adding to would wrap.
fn place(random: &mut Random, at: usize, length: usize) -> usize {
    match random.below(20) {
        0 => random.below(length + 4),
        1 => (at + random.below(5)).saturating_sub(2),
        2 => length + random.below(3),
        3 => 0usize.wrapping_sub(1 + random.below(2 * length + 16)),
        4 => random.pick(&[1 << 32, 1 << 63, usize::MAX]) - random.below(2),
        _ => at,
    }
}

/// One of the four slices, by number, of another length.
pub fn resize(interval: &mut Interval, slice: usize, length: usize) {
    match slice {
        0 => interval.prices.resize(length, 7),
        1 => interval.marks.resize(length, 7),
        2 => interval.flows.resize(length, 7),
        _ => interval.factors.resize(length, 7),
    }
}

/// One of the four slices longer or shorter than it must be.
pub(crate) fn misfit(random: &mut Random, interval: &mut Interval) {
    let slice = random.below(4);
    let right = match slice {
        0 => interval.prices.len(),
        1 => interval.marks.len(),
        _ => interval.flows.len(),
    };
    let length = random.pick(&[0, right - 1, right + 1, 2 * right, 9, 88]);
    resize(interval, slice, length);
}

/// A reading from one to three intervals, end to end, with none, one or two damages; seldom those of another book.
pub fn reading(random: &mut Random, book: &Book) -> Reading {
    let writer = if random.chance(4) {
        self::book(random)
    } else {
        book.clone()
    };
    let (mut bytes, mut places) = (Vec::new(), Vec::new());
    for _ in 0..random.between(1, 3) {
        places.push(bytes.len());
        let interval = interval(random, &writer);
        let order = order(random, writer.regions.into());
        bytes.extend(records(&interval, markets(&writer), &order));
    }
    let at = random.pick(&places);
    for _ in 0..random.pick(&[0, 0, 1, 1, 1, 2]) {
        damage(random, &writer, at, &mut bytes);
    }
    if has_link(&writer) && random.chance(20) {
        damage_link(random, at + length(&writer) - LINK, &mut bytes);
    }
    let mut lent = interval(random, book);
    if random.chance(4) {
        misfit(random, &mut lent);
    }
    Reading {
        book: maybe_damaged(random, book),
        at: place(random, at, bytes.len()),
        records: bytes,
        lent,
    }
}

fn maybe_damaged(random: &mut Random, book: &Book) -> Book {
    if random.chance(4) {
        damaged_book(random, book)
    } else {
        book.clone()
    }
}

/// A writing of any numbers, mostly into a buffer of about the interval's length.
pub fn writing(random: &mut Random, book: &Book) -> Writing {
    let mut interval = interval(random, book);
    if random.chance(8) {
        misfit(random, &mut interval);
    }
    let length = length(book);
    let buffer = match random.below(4) {
        0 => random.below(length),
        1 => length - 1,
        2 => length,
        _ => length + random.below(40),
    };
    Writing {
        book: maybe_damaged(random, book),
        interval,
        buffer,
    }
}

/// A rewriting of what a reading reads, seldom into a buffer that is too short.
pub fn rewriting(random: &mut Random, reading: &Reading) -> Rewriting {
    let length = length(&reading.book);
    let buffer = match random.below(16) {
        0 => random.below(length),
        1 => length - 1,
        2..=8 => length,
        _ => length + random.below(40),
    };
    rewriting_into(reading, buffer)
}

/// A rewriting of what a reading reads, into a buffer of a length.
pub fn rewriting_into(reading: &Reading, buffer: usize) -> Rewriting {
    Rewriting {
        book: reading.book.clone(),
        records: reading.records.clone(),
        at: reading.at,
        buffer,
    }
}

/// A reading of two intervals end to end, from the first, the regions of both in an order.
pub fn two(random: &mut Random, book: &Book, order: &[usize]) -> Reading {
    let mut bytes = Vec::new();
    for _ in 0..2 {
        let interval = interval(random, book);
        bytes.extend(records(&interval, markets(book), order));
    }
    Reading {
        lent: interval(random, book),
        book: book.clone(),
        records: bytes,
        at: 0,
    }
}

/// The regions of a book in number order, and back to front.
pub fn up_and_down(book: &Book) -> [Vec<usize>; 2] {
    let up: Vec<usize> = (0..book.regions.into()).collect();
    let down = up.iter().rev().copied().collect();
    [up, down]
}
