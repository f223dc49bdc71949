//! Rule 10, the store's 22 and what a ring holds: no list of calls shows them, so that books and rings are spoilt by hand.

use fast::interval::{Interval, IntervalMut};
use fast::{Book, Entry, Opening};

const OPENING: Opening = Opening {
    regions: 2,
    services: 1,
    window: 2,
    halves: 1,
    first: 0,
    parents: [255, 0, 255, 255, 255, 255, 255, 255],
    from: 255,
    to: 255,
    threshold: 90_000,
    cap: 60_000,
    floor: -60_000,
};

/// R 2, S 1, W 2, H 1, two entries taken.
fn sound() -> (Book, [i32; 8]) {
    let mut ring = [77; 8];
    let mut book = Book::open(&OPENING, &mut ring).expect("a valid opening");
    assert_eq!(ring, [0; 8]);
    for number in 0..2 {
        assert_eq!(enter(&mut book, &mut ring, number), Ok(0));
    }
    (book, ring)
}

fn enter(book: &mut Book, ring: &mut [i32], number: u32) -> Result<u32, u32> {
    let entry = Entry {
        number,
        kind: 0,
        prices: &[100, 200, 300, 400],
        marks: &[0, 0],
        flows: &[0, 0],
        factors: &[0, 10_000],
        schedule: &[0; 8],
    };
    let count = book.enter(ring, &entry, &mut [0; 4]);
    count.map_err(|refusal| refusal.number)
}

/// Every call on a spoilt book is refused by 10 and changes nothing.
fn all_refuse(spoil: impl Fn(&mut Book)) {
    let (mut book, mut ring) = sound();
    spoil(&mut book);
    let before = (book.clone(), ring);
    let refused = fast::Refusal {
        number: 10,
        place: 0,
    };
    assert_eq!(enter(&mut book, &mut ring, 2), Err(10));
    assert_eq!(book.set_threshold(1), Err(refused));
    assert_eq!(book.set_limits(1, -1), Err(refused));
    assert_eq!(book.report(0, 0), Err(refused));
    assert_eq!(book.store(&ring, &mut [0; 300]), Err(refused));
    assert_eq!(book.store_kind_1(&ring, &mut [0; 300]), Err(refused));
    let interval = Interval {
        number: 2,
        kind: 0,
        prices: &[100, 200, 300, 400],
        marks: &[0, 0],
        flows: &[0, 0],
        factors: &[0, 10_000],
    };
    assert_eq!(book.write_interval(&interval, &mut [0; 300]), Err(refused));
    let slices = IntervalMut {
        prices: &mut [0; 4],
        marks: &mut [0; 2],
        flows: &mut [0; 2],
        factors: &mut [0; 2],
    };
    assert_eq!(book.read_interval(&[], 0, slices), Err(refused));
    assert_eq!(book.rewrite_interval(&[], 0, &mut []), Err(refused));
    assert_eq!(book.intervals_left(&ring, 0, 0, 0), Err(refused));
    assert_eq!((book, ring), before);
}

#[test]
fn every_field() {
    all_refuse(|book| *book = Book::CLOSED);
    all_refuse(|book| book.regions = 0);
    all_refuse(|book| book.regions = 9);
    all_refuse(|book| book.services = 11);
    all_refuse(|book| book.window = 0);
    all_refuse(|book| book.window = 2_017);
    all_refuse(|book| book.halves = 0);
    all_refuse(|book| book.halves = 49);
    all_refuse(|book| book.position = 6);
    all_refuse(|book| book.parents[0] = 0);
    all_refuse(|book| book.parents[1] = 1);
    all_refuse(|book| book.parents[2] = 0);
    for ends in [(0, 0), (0, 1), (1, 0), (1, 2), (2, 1), (0, 255), (255, 1)] {
        all_refuse(|book| (book.from, book.to) = ends);
    }
    all_refuse(|book| book.entries = 10_000_001);
    all_refuse(|book| book.threshold = 0);
    all_refuse(|book| book.threshold = 100_000_000_001);
    all_refuse(|book| book.cap = 0);
    all_refuse(|book| book.cap = 10_000_001);
    all_refuse(|book| book.floor = 0);
    all_refuse(|book| book.floor = -10_000_001);
}

#[test]
fn windows_and_markets() {
    all_refuse(|book| book.counts[1] = 3);
    all_refuse(|book| book.entries = 1);
    all_refuse(|book| book.counts[2] = 1);
    all_refuse(|book| (book.counts[2], book.nexts[2]) = (1, 1));
    all_refuse(|book| book.nexts[0] = 2);
    all_refuse(|book| (book.counts[0], book.nexts[0]) = (1, 0));
    all_refuse(|book| book.nexts[7] = 1);
    for sum in [20_160_000_001, -20_160_000_001, i64::MIN, i64::MAX] {
        all_refuse(|book| book.sums[0] = sum);
        all_refuse(|book| book.sums[12] = sum);
    }
    for place in [2, 10, 13, 22, 87] {
        all_refuse(|book| book.sums[place] = 1);
        all_refuse(|book| book.sums[place] = -1);
        all_refuse(|book| book.marks[place] = 1);
    }
    for place in [0, 1, 11, 12] {
        all_refuse(|book| book.marks[place] = 2);
    }
}

/// Bounds that are still allowed: the highest sums, a full window that starts anywhere, marks at no entry taken.
#[test]
fn allowed() {
    let (mut book, _) = sound();
    book.sums[0] = 20_160_000_000;
    book.sums[11] = -20_160_000_000;
    book.nexts[0] = 1;
    book.marks[12] = 1;
    book.entries = 10_000_000;
    assert!(book.valid());
    assert_eq!(enter(&mut book, &mut [0; 8], 10_000_000), Err(12));
}

/// Thresholds, and what an opening and a setting answer.
const THRESHOLDS: [(i64, u32); 15] = [
    (-10_000, 18),
    (-1, 18),
    (0, 18),
    (1, 44),
    (9_999, 44),
    (10_000, 0),
    (10_001, 44),
    (95_000, 44),
    (100_000, 0),
    (139_810_000, 0),
    (99_999_990_000, 0),
    (99_999_999_999, 44),
    (100_000_000_000, 0),
    (100_000_000_001, 18),
    (100_000_010_000, 18),
];

/// "44: a threshold within range but no multiple of 10,000; directly after 18", before 19; rule 10 allows what 44 refuses.
#[test]
fn thresholds() {
    let number = |refused: Option<fast::Refusal>| refused.map_or(0, |refusal| refusal.number);
    for (threshold, expected) in THRESHOLDS {
        let opening = Opening {
            threshold,
            ..OPENING
        };
        let mut ring = [77; 8];
        let opened = Book::open(&opening, &mut ring);
        assert_eq!(number(opened.err()), expected, "{threshold}");
        assert_eq!(ring, [if expected == 0 { 0 } else { 77 }; 8]);
        let no_cap = Opening { cap: 0, ..opening };
        let first = if expected == 0 { 19 } else { expected };
        assert_eq!(number(Book::open(&no_cap, &mut ring).err()), first);
        assert_eq!(number(Book::open(&no_cap, &mut ring[1..]).err()), 11);

        let (mut book, _) = sound();
        let set = book.set_threshold(threshold);
        assert_eq!(number(set.err()), expected, "{threshold}");
        assert_eq!(book.threshold == threshold, expected == 0);
        book.threshold = threshold;
        assert_eq!(book.valid(), expected != 18, "{threshold}");
    }
}

/// 22: a counted price out of range, or a total that isn't its sum; then 23.
#[test]
fn spoilt_rings() {
    let (mut book, ring) = sound();
    let store = |book: &Book, ring: &[i32], room: usize| {
        let stored = book.store_kind_1(ring, &mut vec![0; room]);
        stored.map_err(|refusal| refusal.number)
    };
    assert_eq!(store(&book, &ring, 180), Ok(180));
    assert_eq!(store(&book, &ring, 179), Err(23));
    assert_eq!(store(&book, &ring[..7], 180), Err(11));
    for (place, price) in [(0, 101), (2, -1), (4, 10_000_001), (7, 10_000_001)] {
        let mut spoilt = ring;
        spoilt[place] = price;
        assert_eq!(store(&book, &spoilt, 0), Err(22));
    }
    let mut shifted = ring;
    (shifted[2], shifted[3]) = (-1, 401);
    assert_eq!(store(&book, &shifted, 180), Err(22));
    book.sums[11] += 1;
    assert_eq!(store(&book, &ring, 180), Err(22));
}

/// A question's refusals: 11, 21, the store's 22 of any market, then 43.
#[test]
fn questions() {
    let (mut book, ring) = sound();
    let ask = |book: &Book, ring: &[i32], region: u32, market: u32, price: i32| {
        let left = book.intervals_left(ring, region, market, price);
        left.map_err(|refusal| refusal.number)
    };
    let beyond = 10_000_001;
    assert_eq!(ask(&book, &ring, 0, 0, 45_001), Ok(2));
    assert_eq!(ask(&book, &ring, 0, 0, 45_000), Ok(0));
    assert_eq!(ask(&book, &ring[..7], 2, 0, beyond), Err(11));
    let mut spoilt = ring;
    spoilt[7] = 401;
    for (region, market) in [(2, 0), (0, 2), (u32::MAX, u32::MAX)] {
        assert_eq!(ask(&book, &spoilt, region, market, beyond), Err(21));
    }
    assert_eq!(ask(&book, &spoilt, 0, 0, beyond), Err(22));
    for (market, price) in [(0, beyond), (0, -beyond), (1, beyond), (1, -1)] {
        assert_eq!(ask(&book, &ring, 1, market, price), Err(43));
    }
    book.sums[12] += 1;
    assert_eq!(ask(&book, &ring, 0, 0, 0), Err(22));
}

/// With a ring that others changed, a sum moves by the price in, less the price read once the window is full.
#[test]
fn changed_rings() {
    let mut ring = [0; 8];
    let mut book = Book::open(&OPENING, &mut ring).expect("a valid opening");
    ring.fill(9);
    for number in 0..2 {
        assert_eq!(enter(&mut book, &mut ring, number), Ok(0));
    }
    assert_eq!((book.sums[0], book.sums[12]), (200, 800));
    ring[0] = 9;
    assert_eq!(enter(&mut book, &mut ring, 2), Ok(0));
    assert_eq!((book.sums[0], book.sums[12]), (291, 800));
    assert_eq!(ring, [100, 100, 200, 200, 300, 300, 400, 400]);
}
