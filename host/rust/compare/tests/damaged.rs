//! Books and rings that no list of calls leads to, through the crate `guxhamole`: every field at each bound and one past
//! it, and rings that others changed, against the independent book.

use compare::playing::{Playing, Start};
use compare::typed::{paper, Pair};
use compare::{bills, books, intervals, left, rewriting, rounds, say, synthetic};
use generator::bills::Checking;
use generator::draws::Drawing;
use generator::intervals::{rewriting_into, Reading, Writing};
use generator::questions::Question;
use generator::{calls, images, Random};
use guxhamole::{flows_length, raw, Book};
use independent::bill::{Bill, Lines};
use independent::book::FAULTS;
use independent::image::Fields;
use independent::interval::Interval;
use independent::ledger::Entry;
use independent::{Call, Kind};
use std::collections::BTreeMap;

/// What was met: each call's answers, and the faults of the books.
#[derive(Default)]
struct Met {
    calls: u64,
    answers: BTreeMap<u32, u64>,
    faults: BTreeMap<&'static str, u64>,
    sound: u64,
}

impl Met {
    /// One call on a pair, which says 10 exactly where rule 10 does.
    fn call(&mut self, pair: &mut Pair, call: &Call) -> u32 {
        let before = *pair.kept().0;
        let fault = paper(&before).fault();
        match pair.call(call) {
            Ok(answer) => {
                assert_eq!(
                    answer.number == 10,
                    fault.is_some(),
                    "{before:?}: {fault:?}"
                );
                self.calls += 1;
                *self.answers.entry(answer.number).or_default() += 1;
                answer.number
            }
            Err(what) => panic!("a difference in {what}\\n{before:?}\\n{call:?}"),
        }
    }

    /// Every kind of call on a book and a ring of its length.
    fn book(&mut self, book: &raw::Book, ring: &[i32]) {
        match paper(book).fault() {
            Some(fault) => *self.faults.entry(fault).or_default() += 1,
            None => self.sound += 1,
        }
        let bytes = Book::from_raw(*book).to_bytes();
        assert_eq!(Book::from_bytes(&bytes).raw(), book);
        let mut pair = Pair::of(*book, ring);
        let last = (book.regions.wrapping_sub(1).into(), book.services.into());
        for call in [
            Call::Report(0, 0),
            Call::Restart(Kind::One, 148 + 4 * ring.len(), ring.len()),
            Call::Restart(Kind::Two, 156 + 4 * ring.len(), ring.len()),
            Call::Report(last.0, last.1),
            entry(book, ring.len()),
            Call::Threshold(95_000),
            Call::Threshold(90_000),
            Call::Limits(60_000, -60_000),
            Call::Report(last.0, 0),
        ] {
            self.call(&mut pair, &call);
        }
        self.interval(book);
        self.draw(book);
        self.bill(book, ring);
        let number = self.question(book, ring);
        let fault = paper(book).fault();
        assert_eq!(number == 10, fault.is_some(), "{book:?}: {fault:?}");
    }

    /// A question for the intervals left, of the last market: the refusal's number, or 0.
    fn question(&mut self, book: &raw::Book, ring: &[i32]) -> u32 {
        let question = Question {
            ring: ring.len(),
            region: book.regions.wrapping_sub(1).into(),
            market: book.services.into(),
            price: 100,
        };
        let answer = left::ask(book, ring, &question);
        let number = answer.err().map_or(0, |refusal| refusal.number);
        self.calls += 1;
        *self.answers.entry(number).or_default() += 1;
        number
    }

    /// An interval written, read and rewritten by a book of any fields, which all say 10 exactly where rule 10 does.
    fn interval(&mut self, book: &raw::Book) {
        let book = paper(book);
        let writing = Writing {
            book: book.clone(),
            interval: interval(&book),
            buffer: guxhamole::MOST_INTERVAL,
        };
        let written = intervals::write(&writing);
        let reading = Reading {
            book,
            records: written.clone().unwrap_or_default(),
            at: 0,
            lent: writing.interval,
        };
        let read = intervals::read(&reading);
        let again = rewriting_into(&reading, guxhamole::MOST_INTERVAL);
        let rewritten = rewriting::rewrite(&again);
        for refusal in [written.err(), read.err(), rewritten.err()] {
            let number = refusal.map_or(0, |refusal| refusal.number);
            let fault = reading.book.fault();
            assert_eq!(number, if fault.is_some() { 10 } else { 0 }, "{fault:?}");
            self.calls += 1;
            *self.answers.entry(number).or_default() += 1;
        }
    }

    /// A draw by a book of any fields, which says 10 exactly where rule 10 does.
    fn draw(&mut self, book: &raw::Book) {
        let book = paper(book);
        let drawing = Drawing {
            lent: interval(&book),
            seed: book.entries,
            book,
        };
        let answer = synthetic::draw(&drawing);
        let number = answer.map_or_else(|refusal| refusal.number, |_| 0);
        let fault = drawing.book.fault();
        assert_eq!(number, if fault.is_some() { 10 } else { 0 }, "{fault:?}");
        self.calls += 1;
        *self.answers.entry(number).or_default() += 1;
    }

    /// A bill of no lines for a day of no intervals by a book of any fields: yes, or 10 exactly where rule 10 says so.
    fn bill(&mut self, book: &raw::Book, ring: &[i32]) {
        let Call::Entry(entry, ..) = entry(book, ring.len()) else {
            unreachable!("an entry")
        };
        let checking = Checking {
            book: paper(book),
            ring: ring.to_vec(),
            work: vec![7; ring.len()],
            bill: Bill {
                records: Vec::new(),
                schedule: entry.schedule,
                region: book.regions.wrapping_sub(1).into(),
                lines: Lines::default(),
            },
            listed: false,
        };
        let answer = bills::check(&checking);
        let number = answer.map_or_else(|refusal| refusal.number, |_| 0);
        let fault = checking.book.fault();
        assert_eq!(number, if fault.is_some() { 10 } else { 0 }, "{fault:?}");
        self.calls += 1;
        *self.answers.entry(number).or_default() += 1;
    }

    fn say(&self, name: &str) {
        let Met { calls, sound, .. } = self;
        say(&format!(
            "{name}: {calls} calls, {sound} sound books, answers {:?}",
            self.answers
        ));
        say(&format!("{name}: refusals by 10: {:?}", self.faults));
    }
}

/// The next entry of a book whose fields may be anything: of the lengths that the fields ask for, if these are small.
fn entry(book: &raw::Book, ring: usize) -> Call {
    let regions = usize::from(book.regions.min(9));
    let prices = regions * (usize::from(book.services.min(11)) + 1);
    let entry = Entry {
        number: book.entries,
        kind: 0,
        prices: (0..prices).map(|place| 100 * place as i32).collect(),
        marks: vec![0; regions],
        flows: vec![1; flows_length(regions, book.from)],
        factors: vec![11_000; flows_length(regions, book.from)],
        schedule: vec![0; prices * 2 * usize::from(book.halves.min(49))],
    };
    Call::Entry(entry, ring, vec![7; prices])
}

/// An interval of the lengths that a book's fields ask for, if these are small.
fn interval(book: &independent::book::Book) -> Interval {
    let regions = usize::from(book.regions.min(9));
    let prices = regions * (usize::from(book.services.min(11)) + 1);
    Interval {
        number: book.entries,
        kind: 0,
        prices: (0..prices).map(|place| 100 * place as i32).collect(),
        marks: vec![0; regions],
        flows: vec![1; flows_length(regions, book.from)],
        factors: vec![11_000; flows_length(regions, book.from)],
    }
}

/// The ring, or zeros where the book's fields ask for another length that a book can have.
fn ring_for(book: &raw::Book, ring: &[i32]) -> Vec<i32> {
    let regions = usize::from(book.regions.min(8));
    let markets = usize::from(book.services.min(10)) + 1;
    let length = regions * markets * usize::from(book.window.min(2_016));
    if length == ring.len() {
        ring.to_vec()
    } else {
        vec![0; length]
    }
}

/// Copies of a book, each with one field set to one of some values.
fn each<V: Copy>(book: &raw::Book, values: &[V], set: fn(&mut raw::Book, V)) -> Vec<raw::Book> {
    let copy = |&value: &V| {
        let mut copy = *book;
        set(&mut copy, value);
        copy
    };
    values.iter().map(copy).collect()
}

/// As `each`, of one place of a field.
fn each_at<V: Copy>(
    book: &raw::Book,
    place: usize,
    values: &[V],
    set: fn(&mut raw::Book, usize, V),
) -> Vec<raw::Book> {
    let copy = |&value: &V| {
        let mut copy = *book;
        set(&mut copy, place, value);
        copy
    };
    values.iter().map(copy).collect()
}

/// A number's neighbours and itself.
fn near(field: u8) -> [u8; 3] {
    [field.wrapping_sub(1), field, field.wrapping_add(1)]
}

/// Every setting, entries taken and position at each bound and one past it, and next to what they are; the closed book.
fn damaged_settings(book: &raw::Book) -> Vec<raw::Book> {
    let (window, day) = (book.window, 6 * u16::from(book.halves));
    let (below, above) = (window.wrapping_sub(1), window.wrapping_add(1));
    let windows = [0, 1, below, above, 2_016, 2_017, 65_535];
    let (last, past) = (day.wrapping_sub(1), day + 1);
    let positions = [0, last, day, past, 287, 288, 65_535];
    let most = 10_000_000;
    let caps = [i32::MIN, 0, 1, most, most + 1, i32::MAX];
    let floors = [i32::MIN, -most - 1, -most, -1, 0, i32::MAX];
    let counted = u32::from(book.counts.into_iter().max().unwrap_or(0));
    let (fewer, most) = (counted.wrapping_sub(1), 10_000_000);
    let entries = [0, fewer, counted, most - 1, most, most + 1, u32::MAX];
    [
        vec![raw::Book::CLOSED],
        each(book, &[0, 1, 7, 8, 9, 255], |book, to| book.regions = to),
        each(book, &near(book.regions), |book, to| book.regions = to),
        each(book, &[0, 9, 10, 11, 255], |book, to| book.services = to),
        each(book, &near(book.services), |book, to| book.services = to),
        each(book, &windows, |book, to| book.window = to),
        each(book, &[0, 1, 47, 48, 49, 255], |book, to| book.halves = to),
        each(book, &positions, |book, to| book.position = to),
        each(book, &ends(book), |book, to| (book.from, book.to) = to),
        each(book, &THRESHOLDS, |book, to| book.threshold = to),
        each(book, &caps, |book, to| book.cap = to),
        each(book, &floors, |book, to| book.floor = to),
        each(book, &entries, |book, to| book.entries = to),
    ]
    .concat()
}

/// Thresholds at each bound and one past it, and one that no setting takes.
const THRESHOLDS: [i64; 9] = [
    i64::MIN,
    -1,
    0,
    1,
    95_000,
    99_999_999_999,
    100_000_000_000,
    100_000_000_001,
    i64::MAX,
];

/// Ends of the additional link: every pair of regions, one past them, and of 255 with one of them, in either order.
fn ends(book: &raw::Book) -> Vec<(u8, u8)> {
    let places: Vec<u8> = (0..=book.regions.min(8)).chain([254, 255]).collect();
    let pairs = |&from: &u8| places.iter().map(move |&to| (from, to));
    places.iter().flat_map(pairs).collect()
}

/// A region's parent, count and next place, used or not, at each bound and one past it.
fn damaged_region(book: &raw::Book, region: usize) -> Vec<raw::Book> {
    let own = region as u8;
    let parents = [0, own.wrapping_sub(1), own, own + 1, 7, 8, 254, 255];
    let around = |field: u16| {
        let (window, past) = (book.window, book.window.wrapping_add(1));
        let (before, after) = (field.wrapping_sub(1), field.wrapping_add(1));
        [
            0,
            1,
            before,
            after,
            window.wrapping_sub(1),
            window,
            past,
            65_535,
        ]
    };
    let (counts, nexts) = (around(book.counts[region]), around(book.nexts[region]));
    [
        each_at(book, region, &parents, |book, at, to| book.parents[at] = to),
        each_at(book, region, &counts, |book, at, to| book.counts[at] = to),
        each_at(book, region, &counts, |book, at, to| {
            (book.counts[at], book.nexts[at]) = (to, to);
        }),
        each_at(book, region, &nexts, |book, at, to| book.nexts[at] = to),
    ]
    .concat()
}

/// A market's sum and mark, used or not, at each bound and one past it.
fn damaged_market(book: &raw::Book, place: usize) -> Vec<raw::Book> {
    let most = 20_160_000_000;
    let other = book.sums[place].wrapping_add(1);
    let (low, high) = (
        [i64::MIN, -most - 1, -most, -1],
        [1, most, most + 1, i64::MAX],
    );
    let sums = [&low[..], &[0, other], &high].concat();
    [
        each_at(book, place, &sums, |book, at, to| book.sums[at] = to),
        each_at(book, place, &[0, 1, 2, 255], |book, at, to| {
            book.marks[at] = to
        }),
    ]
    .concat()
}

/// Every field in turn.
fn damaged(book: &raw::Book) -> Vec<raw::Book> {
    let mut all = damaged_settings(book);
    all.extend((0..8).flat_map(|region| damaged_region(book, region)));
    all.extend((0..88).flat_map(|place| damaged_market(book, place)));
    all
}

/// A book that a list leads to, with its ring: small windows, mostly full.
fn listed(random: &mut Random) -> Pair {
    let start = if random.chance(25) {
        let mut fields = Fields::read(&images::composed(random));
        fields.entries = fields.entries.max(9_999_999);
        let ring = fields.shape().ring();
        Start::Image(fields.bytes(), ring)
    } else {
        let mut opening = calls::opening(random);
        opening.window = opening.window.min(12);
        Start::Opening(opening, calls::ring_length(&opening))
    };
    let mut playing = Playing::start(start, true).expect("a valid start");
    for _ in 0..random.between(0, 30) {
        playing.call(calls::call(random, &playing.ledger));
    }
    playing.finish()
}

/// "Any call on a book: 10, it is closed or a field is outside its limits: entries taken above 10,000,000, a count above W or
/// above entries taken, next place not the count while below W, a sum beyond ±20,160,000,000, an unused sum, count or mark
/// not zero."
#[test]
fn every_field() {
    let mut met = Met::default();
    for round in 0..rounds() {
        let mut random = Random::new(0x28_0000 + round);
        for _ in 0..40 {
            let pair = listed(&mut random);
            let (book, ring) = pair.kept();
            for damaged in damaged(book) {
                met.book(&damaged, &ring_for(&damaged, ring));
            }
        }
    }
    met.say("damaged books");
    assert!(met.sound >= 5_000 && met.calls >= 200_000);
    for fault in FAULTS {
        let times = met.faults.get(fault).copied().unwrap_or(0);
        assert!(times >= 80, "{fault}: met {times} times");
    }
}

/// Several fields damaged at once, and books of other books' fields.
#[test]
fn several_fields() {
    let mut met = Met::default();
    for round in 0..rounds() {
        let mut random = Random::new(0x29_0000 + round);
        for _ in 0..60 {
            let (pair, other) = (listed(&mut random), listed(&mut random));
            let (book, ring) = pair.kept();
            let copies = damaged(book);
            for _ in 0..150 {
                let mut damaged = random.pick(&copies);
                for _ in 0..random.between(0, 2) {
                    damaged = random.pick(&damaged_settings(&damaged));
                }
                if random.chance(20) {
                    damaged.sums = other.kept().0.sums;
                }
                if random.chance(20) {
                    (damaged.counts, damaged.nexts) = (other.kept().0.counts, other.kept().0.nexts);
                }
                met.book(&damaged, &ring_for(&damaged, ring));
            }
        }
    }
    met.say("damaged books, several fields");
    assert!(met.answers[&10] >= 10_000 && met.sound >= 300);
}

/// A ring that others changed: one place, every place, or another book's.
fn foreign(random: &mut Random, ring: &[i32], other: &[i32]) -> Vec<i32> {
    let menu = [
        i32::MIN,
        -10_000_001,
        -10_000_000,
        -1,
        0,
        1,
        10_000_000,
        10_000_001,
        i32::MAX,
    ];
    let mut foreign = ring.to_vec();
    match random.below(6) {
        0 => foreign.fill(random.pick(&menu)),
        1 => foreign.rotate_left(1),
        2 => foreign
            .iter_mut()
            .zip(other)
            .for_each(|(place, &price)| *place = price),
        3 => {
            let (one, two) = (random.below(ring.len()), random.below(ring.len()));
            (foreign[one], foreign[two]) = (ring[one] - 1, ring[two] + 1);
        }
        _ => {
            let place = random.below(ring.len());
            foreign[place] = random.pick(&menu);
        }
    }
    foreign
}

/// "22 a counted price out of range or a total that isn't its sum", after 10 and 11 and before 23, and of a question exactly where
/// it is a store's; "sums then move by price in less the price read there, and periods by step 6".
#[test]
fn foreign_rings() {
    let mut met = Met::default();
    for round in 0..rounds() {
        let mut random = Random::new(0x2A_0000 + round);
        for _ in 0..400 {
            let (pair, other) = (listed(&mut random), listed(&mut random));
            let (book, ring) = pair.kept();
            for _ in 0..12 {
                let ring = foreign(&mut random, ring, other.kept().1);
                let mut pair = Pair::of(*book, &ring);
                let whole = 156 + 4 * ring.len();
                let kind = calls::image_kind(&mut random, &paper(book).shape());
                let stored = met.call(&mut pair.clone(), &Call::Restart(kind, whole, ring.len()));
                assert_eq!(met.question(book, &ring), stored, "a question's 22");
                let buffer = random.pick(&[whole, whole, whole, 147, 147, 148]);
                met.call(&mut pair, &Call::Restart(kind, buffer, ring.len()));
                // Of a book with the link 47 stands between 22 and 23.
                met.call(&mut pair, &Call::Restart(Kind::One, buffer, ring.len()));
                for _ in 0..random.between(1, 4) {
                    let call = entry(pair.kept().0, ring.len());
                    met.call(&mut pair, &call);
                }
                met.call(&mut pair, &Call::Report(0, 0));
                met.call(&mut pair, &Call::Restart(kind, whole, ring.len()));
            }
        }
    }
    met.say("foreign rings");
    for (number, least) in [(0, 300), (22, 300), (23, 300), (47, 100)] {
        assert!(met.answers[&number] >= least, "{number} met too seldom");
    }
}

/// A ring of the lowest numbers raises the sum by each price that leaves, until it is beyond its bound and the next call says
/// 10.
#[test]
fn a_sum_beyond_its_bound() {
    let mut met = Met::default();
    let opening = books::opening(1, 0, 12, 1);
    let start = Start::Opening(opening, 12);
    let mut playing = Playing::start(start, false).expect("a valid opening");
    for _ in 0..12 {
        let next = entry(playing.pair.kept().0, 12);
        assert_eq!(playing.call(next).number, 0);
    }
    let mut pair = Pair::of(*playing.pair.kept().0, &[i32::MIN; 12]);
    let mut numbers = Vec::new();
    for _ in 0..12 {
        let next = entry(pair.kept().0, 12);
        numbers.push(met.call(&mut pair, &next));
    }
    assert_eq!(numbers, [0, 0, 0, 0, 0, 0, 0, 0, 0, 0, 10, 10]);
    assert_eq!(met.call(&mut pair, &Call::Threshold(90_000)), 10);
}
