//! The rewriter of interval records (request 2026-08 of document 02): every order of one interval gives the same bytes, one entry has one
//! form, and the refusals in their order, by books, rooms and records in which several hold at once.

use compare::forms::{in_number_order, seldom, Met};
use compare::intervals::Read;
use compare::rewriting::Rewritten;
use compare::typed::paper;
use compare::{books, rounds, say};
use generator::intervals::{self, any_order, two, up_and_down, Reading, Rewriting};
use generator::Random;
use guxhamole::raw;
use independent::book::Book;
use independent::interval::Interval;
use independent::Refusal;
use std::collections::{BTreeSet, HashMap};

/// The number of a refusal, or 0.
fn number<T>(answer: Result<T, Refusal>) -> u32 {
    answer.err().map_or(0, |refusal| refusal.number)
}

fn markets(book: &Book) -> usize {
    usize::from(book.services) + 1
}

/// Every order of so many regions.
fn orders(regions: usize) -> Vec<Vec<usize>> {
    let mut orders = vec![Vec::new()];
    for region in 0..regions {
        let longer = |order: &Vec<usize>| {
            let order = order.clone();
            (0..=region).map(move |place| {
                let mut order = order.clone();
                order.insert(place, region);
                order
            })
        };
        orders = orders.iter().flat_map(longer).collect();
    }
    orders
}

/// An interval's records with its regions in an order, behind so many other bytes.
fn standing(book: &Book, interval: &Interval, order: &[usize], before: usize) -> Reading {
    let records = intervals::records(interval, markets(book), order);
    let other = |place: usize| 200 + place as u8;
    Reading {
        book: book.clone(),
        records: (0..before).map(other).chain(records).collect(),
        at: before,
        lent: Interval {
            number: !interval.number,
            kind: !interval.kind,
            ..interval.clone()
        },
    }
}

/// One order of an interval is rewritten to its form; the reader takes it in number order alone.
fn shuffled(met: &mut Met, reading: &Reading, interval: &Interval, form: &[u8], room: usize) {
    let next = reading.at + form.len();
    let rewritten = met.rewrite(&intervals::rewriting_into(reading, form.len() + room));
    let records = form.to_vec();
    assert_eq!(rewritten, Ok(Rewritten { next, records }), "{reading:?}");
    let read = met.read(reading);
    let interval = interval.clone();
    match in_number_order(&reading.book, &reading.records[reading.at..]) {
        true => assert_eq!(read, Ok(Read { next, interval })),
        false => assert_eq!(number(read), 45, "{reading:?}"),
    }
}

/// All R! orders: of every size up to R 5, of some up to R 8, with an additional link too.
#[test]
fn every_order() {
    let mut met = Met::default();
    let mut random = Random::new(0xA0_0000);
    let small = (1..=5).flat_map(|regions| [0, 1, 2, 5, 10].map(|services| (regions, services)));
    let sizes = small.chain([(6, 0), (6, 10), (7, 0), (8, 0)]);
    for book in sizes.flat_map(|(regions, services)| books::chained_and_ringed(regions, services)) {
        let interval = intervals::interval(&mut random, &book);
        let [up, _] = up_and_down(&book);
        let form = intervals::records(&interval, markets(&book), &up);
        for (turn, order) in orders(up.len()).iter().enumerate() {
            let reading = standing(&book, &interval, order, turn % 5);
            shuffled(&mut met, &reading, &interval, &form, turn % 3);
        }
        met.one_form(&mut random, &book, interval, &form);
    }
    met.say("every order");
    assert!(met.rewrites[&0] >= 94_000 && met.reads[&45] >= 94_000);
}

/// Random orders of any interval, by books of R 1 to 8 in the middle of their windows too.
#[test]
fn any_orders() {
    let mut met = Met::default();
    for round in 0..rounds() {
        let mut random = Random::new(0xA1_0000 + round);
        for _ in 0..2_500 {
            let book = intervals::book(&mut random);
            let interval = intervals::interval(&mut random, &book);
            let [up, _] = up_and_down(&book);
            let form = intervals::records(&interval, markets(&book), &up);
            for _ in 0..6 {
                let order = any_order(&mut random, up.len());
                let reading = standing(&book, &interval, &order, random.below(4));
                shuffled(&mut met, &reading, &interval, &form, random.below(9));
            }
        }
    }
    met.say("any orders");
    assert!(met.reads[&45] >= 8_000);
}

/// An interval of zeros and ones, so that entries come again.
fn plain(random: &mut Random, book: &Book) -> Interval {
    let regions = usize::from(book.regions);
    let mut bits = random.word();
    let mut bit = || {
        bits >>= 1;
        bits as u32 & 1
    };
    Interval {
        number: bit(),
        kind: bit() as u8,
        prices: (0..regions * markets(book)).map(|_| bit() as i32).collect(),
        marks: (0..regions).map(|_| bit() as u8).collect(),
        flows: (0..regions).map(|_| bit() as i32).collect(),
        factors: (0..regions).map(|_| bit()).collect(),
    }
}

/// A place where such an interval stands in some order, seldom with a byte changed.
fn plain_place(random: &mut Random, book: &Book) -> Reading {
    let interval = plain(random, book);
    let order = intervals::order(random, book.regions.into());
    let mut reading = standing(book, &interval, &order, random.below(3));
    if random.chance(30) {
        let place = reading.at + random.below(reading.records.len() - reading.at);
        reading.records[place] = random.pick(&[0, 1, 1, 2]);
    }
    reading
}

/// "From then on one entry has one form": two places that read to the same entry under one book hold the same bytes, and so do two
/// rewritings of what the earlier reader read to the same entry, whatever the order.
#[test]
fn one_entry_has_one_form() {
    let mut met = Met::default();
    let (mut read_again, mut taken_again) = (0u64, 0u64);
    let mut random = Random::new(0xA2_0000);
    for (regions, services) in [(1, 0), (1, 1), (2, 0), (2, 1), (3, 0)] {
        let book = books::chained(regions, services);
        let mut forms: HashMap<Interval, Vec<u8>> = HashMap::new();
        let mut taken: HashMap<Interval, BTreeSet<Vec<u8>>> = HashMap::new();
        for _ in 0..8_000 {
            let reading = plain_place(&mut random, &book);
            if let Ok(Read { next, interval }) = met.read(&reading) {
                let bytes = reading.records[reading.at..next].to_vec();
                read_again += u64::from(forms.contains_key(&interval));
                let form = forms.entry(interval).or_insert_with(|| bytes.clone());
                assert_eq!(*form, bytes, "{reading:?}");
            }
            let Ok(Read { next, interval }) = met.read_earlier(&reading) else {
                continue;
            };
            let length = intervals::length(&book);
            let rewritten = met.rewrite(&intervals::rewriting_into(&reading, length));
            let bytes = rewritten.expect("what the earlier reader took").records;
            let form = forms.entry(interval.clone()).or_insert(bytes.clone());
            assert_eq!(*form, bytes, "{reading:?}");
            let before = taken.entry(interval).or_default();
            let new = before.insert(reading.records[reading.at..next].to_vec());
            taken_again += u64::from(new && before.len() > 1);
        }
    }
    met.say("one entry, one form");
    say(&format!("interval records: {read_again} places read to an entry again, {taken_again} more orders of one rewritten"));
    assert!(read_again >= 10_000 && taken_again >= 2_000);
}

/// A damage to a record: the refusal that it makes of it, the rewriter's and the reader's.
#[derive(Clone, Copy, Debug, PartialEq, Eq, PartialOrd, Ord)]
enum Damage {
    Length(u8),
    Kind(u8),
    /// The head's total, or a record's region; the numbers that it is refused by.
    Byte(u8, u32, u32),
}

impl Damage {
    fn numbers(self) -> [u32; 2] {
        match self {
            Damage::Length(_) => [40; 2],
            // Known in every book, and of 14 bytes.
            Damage::Kind(18) => [40; 2],
            Damage::Kind(_) => [41; 2],
            Damage::Byte(_, rewriter, reader) => [rewriter, reader],
        }
    }

    fn spoil(self, record: &mut [u8], head: bool) {
        match self {
            Damage::Length(length) => record[0] = length,
            Damage::Kind(kind) => record[4] = kind,
            Damage::Byte(value, ..) => record[if head { 11 } else { 6 }] = value,
        }
    }
}

/// Three regions and a service: a head, then records of 24 bytes.
const SPOILT: (u32, u32) = (3, 1);

/// The damages of the head (0), or of a region's record among those whose regions go in an order.
fn damages(turn: usize, order: &[usize]) -> Vec<Damage> {
    let mut all = vec![Damage::Length(5), Damage::Length(0), Damage::Length(25)];
    all.extend([Damage::Kind(99), Damage::Kind(65), Damage::Kind(18)]);
    if turn == 0 {
        all.extend([0, 2, 4, 255].map(|total| Damage::Byte(total, 41, 41)));
        return all;
    }
    all.extend([3, 4, 255].map(|region| Damage::Byte(region, 42, 45)));
    let given = order[..turn - 1].iter();
    all.extend(given.map(|&region| Damage::Byte(region as u8, 42, 45)));
    all
}

/// The record's bytes.
fn record_of(records: &mut [u8], turn: usize) -> &mut [u8] {
    match turn {
        0 => &mut records[..12],
        _ => &mut records[12 + 24 * (turn - 1)..][..24],
    }
}

/// Rewriter and reader on spoilt records, also with the closed book and with a room that is a byte short.
fn refused(met: &mut Met, reading: &Reading, rewriter: u32, reader: u32) {
    let length = intervals::length(&reading.book);
    assert_eq!(number(met.read(reading)), reader, "{reading:?}");
    let (whole, short) = (length, length - 1);
    let mut closed = reading.clone();
    closed.book = paper(&raw::Book::CLOSED);
    for (reading, room, due) in [
        (reading, whole, rewriter),
        (reading, short, 23),
        (&closed, whole, 10),
        (&closed, 0, 10),
    ] {
        let rewriting = intervals::rewriting_into(reading, room);
        assert_eq!(number(met.rewrite(&rewriting)), due, "{rewriting:?}");
    }
}

/// What two damages are refused by: the first record's, and of one record 40 before 41 before 42 and 45, but that an unknown kind may
/// have any length from 6 on. A reader stops before them at a region that isn't the next.
fn first_of(one: (usize, Damage), two: (usize, Damage), order: &[usize]) -> [u32; 2] {
    let [mut rewriter, mut reader] = match (one.1, two.1) {
        (Damage::Length(6..), Damage::Kind(kind)) if one.0 == two.0 && kind != 18 => [41; 2],
        _ => one.1.numbers(),
    };
    if one.0 == two.0 {
        let also = two.1.numbers();
        (rewriter, reader) = (rewriter.min(also[0]), reader.min(also[1]));
    }
    let out_of_turn = (0..order.len()).find(|&place| order[place] != place);
    match out_of_turn {
        Some(place) if place + 1 < one.0 => [rewriter, 45],
        _ => [rewriter, reader],
    }
}

/// Any two damages, of one record or of two, in number order and not: the first is answered.
#[test]
fn refusals_in_order() {
    let mut met = Met::default();
    let mut random = Random::new(0xA3_0000);
    let book = books::chained(SPOILT.0, SPOILT.1);
    for order in orders(3) {
        let whole = two(&mut random, &book, &order);
        let all: Vec<(usize, Damage)> = (0..4)
            .flat_map(|turn| {
                damages(turn, &order)
                    .into_iter()
                    .map(move |damage| (turn, damage))
            })
            .collect();
        for (place, &one) in all.iter().enumerate() {
            for &two in &all[place..] {
                let mut reading = whole.clone();
                for (turn, damage) in [two, one] {
                    damage.spoil(record_of(&mut reading.records, turn), turn == 0);
                }
                let overwritten = one.0 == two.0 && one != two && same_field(one.1, two.1);
                if !overwritten {
                    let [rewriter, reader] = first_of(one, two, &order);
                    refused(&mut met, &reading, rewriter, reader);
                }
            }
        }
    }
    met.say("refusals in their order");
    let rewrites = [10, 23, 40, 41, 42].map(|number| (number, 500));
    assert_eq!(seldom(&met.rewrites, &rewrites), []);
    let reads = [40, 41, 45].map(|number| (number, 500));
    assert_eq!(seldom(&met.reads, &reads), []);
}

fn same_field(one: Damage, two: Damage) -> bool {
    std::mem::discriminant(&one) == std::mem::discriminant(&two)
}

/// The closed book, or one with a field outside its limits.
fn spoilt(random: &mut Random, book: &Book) -> Book {
    let spoilt = intervals::damaged_book(random, book);
    match spoilt.fault() {
        Some(_) => spoilt,
        None => paper(&raw::Book::CLOSED),
    }
}

/// Every room, with an interval in any order and with rubbish; 23 comes before every record, and 10 before 23.
#[test]
fn every_room() {
    let mut met = Met::default();
    let mut random = Random::new(0xA4_0000);
    let sizes = [(1, 0), (2, 0), (3, 2), (5, 10), (8, 10)].into_iter();
    for book in sizes.flat_map(|(regions, services)| books::chained_and_ringed(regions, services)) {
        let order = any_order(&mut random, book.regions.into());
        let whole = two(&mut random, &book, &order);
        let rubbish = |records: &[u8], at: usize| Reading {
            records: records.to_vec(),
            at,
            ..whole.clone()
        };
        let mut total = whole.clone();
        total.records[11] ^= 1;
        let cases = [
            (whole.clone(), 0),
            (rubbish(b"", 0), 40),
            (rubbish(b"abc", 0), 40),
            (rubbish(&whole.records, usize::MAX), 40),
            (total, 41),
        ];
        for room in 0..intervals::length(&book) + 20 {
            for (reading, sound) in &cases {
                let mut rewriting = intervals::rewriting_into(reading, room);
                let short = room < intervals::length(&book);
                let due = if short { 23 } else { *sound };
                assert_eq!(number(met.rewrite(&rewriting)), due, "room {room}");
                rewriting.book = spoilt(&mut random, &book);
                assert_eq!(number(met.rewrite(&rewriting)), 10, "room {room}");
            }
        }
    }
    met.say("every room");
    let rewrites = [0, 10, 23, 40, 41].map(|number| (number, 100));
    assert_eq!(seldom(&met.rewrites, &rewrites), []);
}

/// A day of the real market's test load, as two loggers had it, each with its own order in every interval.
#[test]
fn two_loggers() {
    let mut random = Random::new(0xA5_0000);
    let book = books::chained(5, 10);
    let (mut seed, mut logs, mut day) = (2_026, [Vec::new(), Vec::new()], Vec::new());
    for number in 0..288 {
        let mut interval = intervals::interval(&mut random, &book);
        (interval.number, interval.kind) = (number, 0);
        seed = book.synthetic(seed, &mut interval).expect("a draw");
        for log in &mut logs {
            let order = any_order(&mut random, 5);
            log.extend(intervals::records(&interval, markets(&book), &order));
        }
        day.push(interval);
    }
    let mut met = Met::default();
    let filed = |logs: &[Vec<u8>]| -> usize {
        let intervals = logs.iter().flat_map(|log| log.chunks(312));
        intervals.collect::<BTreeSet<&[u8]>>().len()
    };
    let rewritten = logs
        .each_ref()
        .map(|log| rewritten_log(&mut met, &book, log));
    assert!(filed(&logs) >= 550, "both kept");
    assert_eq!((filed(&rewritten), &rewritten[0]), (288, &rewritten[1]));
    let mut reading = standing(&book, &day[0], &[0, 1, 2, 3, 4], 0);
    reading.records = rewritten[0].clone();
    for interval in day {
        let read = met.read(&reading).expect("an interval in number order");
        assert_eq!(read.interval, interval);
        reading.at = read.next;
    }
    met.say("two loggers");
}

/// Every interval that stands end to end, rewritten.
fn rewritten_log(met: &mut Met, book: &Book, log: &[u8]) -> Vec<u8> {
    let (mut at, mut later) = (0, Vec::new());
    while at < log.len() {
        let rewriting = Rewriting {
            book: book.clone(),
            records: log.to_vec(),
            at,
            buffer: 312,
        };
        let rewritten = met
            .rewrite(&rewriting)
            .expect("an interval of the earlier form");
        later.extend(rewritten.records);
        at = rewritten.next;
    }
    later
}
