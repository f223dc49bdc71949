//! Bills, worked by hand (request 2026-09 of document 02): each case with its answer and what the second ring then holds, by the compiled
//! check and the independent one, and where a list leads to the book by the ledger too.

use compare::bills::{check, check_listed};
use compare::books;
use compare::typed::paper;
use generator::bills::Checking;
use generator::intervals::records;
use guxhamole::raw;
use independent::bill::{Bill, Judgement, Lines};
use independent::book::Book;
use independent::interval::Interval;
use independent::{Ledger, Opening};

/// R 2, S 0, W 1, H 1, parents 255, 0, first position 0, threshold 90,000, limits ±60,000.
fn two() -> Opening {
    Opening {
        parents: books::parents(&[255, 0]),
        ..books::opening(2, 0, 1, 1)
    }
}

/// The same with one region.
fn one() -> Opening {
    books::opening(1, 0, 1, 1)
}

/// R 3, S 0, W 1, H 1, parents 255, 0, 1, threshold 90,000.
fn three() -> Opening {
    Opening {
        parents: books::parents(&[255, 0, 1]),
        ..books::opening(3, 0, 1, 1)
    }
}

/// An interval of weekdays, with these prices of energy: nothing marked, no flow, factors 10,000.
fn plain(number: u32, prices: &[i32]) -> Interval {
    Interval {
        number,
        kind: 0,
        prices: prices.to_vec(),
        marks: vec![0; prices.len()],
        flows: vec![0; prices.len()],
        factors: vec![10_000; prices.len()],
    }
}

/// The records of intervals, end to end.
fn bytes(intervals: &[Interval]) -> Vec<u8> {
    let each = intervals.iter().map(|interval| {
        let upward: Vec<usize> = (0..interval.marks.len()).collect();
        records(interval, interval.prices.len() / upward.len(), &upward)
    });
    each.collect::<Vec<_>>().concat()
}

/// A line: number, kilowatt-hours, price and amount.
type Line = (u32, u32, i32, i64);

fn lines(lines: &[Line]) -> Lines {
    Lines {
        numbers: lines.iter().map(|line| line.0).collect(),
        energy: lines.iter().map(|line| line.1).collect(),
        prices: lines.iter().map(|line| line.2).collect(),
        amounts: lines.iter().map(|line| line.3).collect(),
    }
}

/// Intervals 0 and 1 of one region, at 100,000 and 70,000: 100,000 and 60,000 are published.
fn day() -> Vec<u8> {
    bytes(&[plain(0, &[100_000]), plain(1, &[70_000])])
}

/// The right bill for it.
const RIGHT: [Line; 2] = [(0, 3, 100_000, 300), (1, 1, 60_000, 60)];

/// A check by a book just opened; the second ring holds sevens, the schedule zeros.
fn opened(opening: &Opening, records: Vec<u8>, billed: &[Line]) -> Checking {
    let shape = opening.shape();
    let mut ring = vec![7; shape.ring()];
    Checking {
        book: Book::open(opening, &mut ring).expect("a valid opening"),
        ring,
        work: vec![7; shape.ring()],
        bill: Bill {
            records,
            schedule: vec![0; shape.schedule()],
            region: 0,
            lines: lines(billed),
        },
        listed: true,
    }
}

/// What is answered: yes, a wrong line, or a refusal with its place.
#[derive(Clone, Copy, Debug, PartialEq, Eq)]
enum Said {
    Yes,
    Wrong(usize),
    Refused(u32, u32),
}

use Said::{Refused, Wrong, Yes};

/// Checks by all, the ledger of an opening too where there is one: the answer, and what the second ring then holds.
fn said(opening: Option<&Opening>, checking: &Checking) -> (Said, Vec<i32>) {
    let answer = match opening {
        Some(opening) => check_listed(&books::open(opening), checking),
        None => check(checking),
    };
    let mut work = checking.work.clone();
    let again = checking
        .book
        .check_bill(&checking.ring, &mut work, &checking.bill);
    assert_eq!(again, answer);
    let said = match answer {
        Ok(Judgement::Right) => Yes,
        Ok(Judgement::Wrong(line)) => Wrong(line),
        Err(refusal) => Refused(refusal.number, refusal.place),
    };
    (said, work)
}

/// The day of one region with other lines.
fn billed(billed: &[Line]) -> (Said, Vec<i32>) {
    said(Some(&one()), &opened(&one(), day(), billed))
}

/// The one region's day with other records and the right lines.
fn recorded(records: Vec<u8>) -> (Said, Vec<i32>) {
    said(Some(&one()), &opened(&one(), records, &RIGHT))
}

/// Lines of the day, and what is said of them; the second ring holds 70,000 whatever that is.
fn all_said(cases: &[(&str, &[Line], Said)]) {
    for (name, lines, expected) in cases {
        assert_eq!(billed(lines), (*expected, vec![70_000]), "{name}");
    }
}

#[test]
fn numbers_and_prices() {
    let [first, second] = RIGHT;
    let one = (1, 3, 100_000, 300);
    all_said(&[
        ("right", &[first, second], Yes),
        ("the entry price", &[first, (1, 1, 70_000, 70)], Wrong(1)),
        ("its price alone", &[first, (1, 1, 70_000, 60)], Wrong(1)),
        ("its amount alone", &[first, (1, 1, 60_000, 70)], Wrong(1)),
        ("number 1 first", &[one, second], Wrong(0)),
        ("amount 61", &[first, (1, 1, 60_000, 61)], Wrong(1)),
        ("two wrong", &[one, (1, 1, 60_000, 61)], Wrong(0)),
    ]);
}

#[test]
fn order_missing_and_surplus() {
    let [first, second] = RIGHT;
    let third = (2, 1, 60_000, 60);
    all_said(&[
        ("exchanged", &[second, first], Wrong(0)),
        ("the first alone", &[first], Wrong(1)),
        ("the second alone", &[second], Wrong(0)),
        ("none", &[], Wrong(0)),
        ("a third", &[first, second, third], Wrong(2)),
        ("the second twice", &[first, second, second], Wrong(2)),
        (
            "a third and a fourth",
            &[first, second, third, third],
            Wrong(2),
        ),
        (
            "a third, the first wrong",
            &[second, second, third],
            Wrong(0),
        ),
    ]);
}

#[test]
fn amounts() {
    let [first, second] = RIGHT;
    let most = |amount: i64| (1, 1_000_000_000, 60_000, amount);
    let nothing = [(0, 0, 100_000, 0), (1, 0, 60_000, 0)];
    all_said(&[
        ("no kilowatt-hours", &nothing, Yes),
        ("most kilowatt-hours", &[first, most(60_000_000_000)], Yes),
        (
            "an amount of 32 bits",
            &[first, most(-129_542_144)],
            Wrong(1),
        ),
        ("the lowest amount", &[first, most(i64::MIN)], Wrong(1)),
        ("amount 59", &[first, (1, 1, 60_000, 59)], Wrong(1)),
        ("dollars", &[(0, 3, 100_000, 3), second], Wrong(0)),
        ("ten times", &[(0, 3, 100_000, 3_000), second], Wrong(0)),
        ("not divided", &[(0, 3, 100_000, 300_000), second], Wrong(0)),
    ]);
}

#[test]
fn too_many_kilowatt_hours() {
    let [first, second] = RIGHT;
    let over = |number: u32, energy: u32| (number, energy, 60_000, 60);
    let cases: [(&str, &[Line], u32); 7] = [
        ("the first", &[(0, 1_000_000_001, 100_000, 300), second], 0),
        (
            "the second, number 9 first",
            &[(9, 3, 100_000, 300), over(1, 1_000_000_001)],
            1,
        ),
        (
            "its amount right",
            &[first, (1, 1_000_000_001, 60_000, 60_000_000_060)],
            1,
        ),
        ("a third", &[first, second, over(2, u32::MAX)], 2),
        (
            "both",
            &[(0, u32::MAX, 100_000, 300), over(1, 1_000_000_001)],
            0,
        ),
        (
            "the second of three",
            &[first, over(1, 1 << 31), over(2, u32::MAX)],
            1,
        ),
        (
            "a fourth",
            &[first, second, over(2, 1), over(3, 1_000_000_001)],
            3,
        ),
    ];
    for (name, lines, place) in cases {
        assert_eq!(billed(lines), (Refused(46, place), vec![70_000]), "{name}");
    }
    // No interval is there, but the line is.
    let checking = opened(&one(), Vec::new(), &[over(0, 1_000_000_001)]);
    assert_eq!(said(Some(&one()), &checking), (Refused(46, 0), vec![0]));
}

#[test]
fn no_records() {
    let none = opened(&one(), Vec::new(), &[]);
    assert_eq!(said(Some(&one()), &none), (Yes, vec![0]));
    let surplus = opened(&one(), Vec::new(), &[(0, 0, 0, 0)]);
    assert_eq!(said(Some(&one()), &surplus), (Wrong(0), vec![0]));
}

/// Interval by interval, and all of them before 46.
#[test]
fn records_and_entries_refused() {
    let stray = [day(), vec![0; 5]].concat();
    assert_eq!(recorded(stray.clone()), (Refused(40, 0), vec![70_000]));
    let mut checking = opened(
        &one(),
        stray,
        &[(9, 3, 100_000, 300), (1, 1_000_000_001, 60_000, 60)],
    );
    assert_eq!(
        said(Some(&one()), &checking),
        (Refused(40, 0), vec![70_000])
    );
    checking.bill.lines = Lines::default();
    assert_eq!(
        said(Some(&one()), &checking),
        (Refused(40, 0), vec![70_000])
    );
    assert_eq!(recorded(vec![0]), (Refused(40, 0), vec![0]));
    assert_eq!(
        recorded(day()[..63].to_vec()),
        (Refused(40, 0), vec![100_000])
    );
    let unknown = [day(), vec![6, 0, 0, 0, 99, 0]].concat();
    assert_eq!(recorded(unknown), (Refused(41, 0), vec![70_000]));
    assert_eq!(recorded(day().repeat(2)), (Refused(13, 0), vec![70_000]));
    let mut weekend = plain(1, &[70_000]);
    weekend.kind = 2;
    let kinds = bytes(&[plain(0, &[100_000]), weekend]);
    assert_eq!(recorded(kinds), (Refused(14, 0), vec![100_000]));
    let wild = bytes(&[plain(0, &[5]), plain(1, &[10_000_001])]);
    assert_eq!(recorded(wild), (Refused(16, 0), vec![5]));
    // What is broken behind a refused entry isn't read.
    let behind = [bytes(&[plain(1, &[5])]), vec![0; 5]].concat();
    assert_eq!(recorded(behind), (Refused(13, 0), vec![0]));
}

/// "15 to 17 give the place within their own entry".
#[test]
fn places() {
    let mut marked = plain(1, &[1, 1]);
    marked.marks[1] = 2;
    let good = plain(0, &[1, 1]);
    let refused = |interval: Interval| {
        let checking = opened(&two(), bytes(&[good.clone(), interval]), &[]);
        said(Some(&two()), &checking)
    };
    assert_eq!(refused(marked), (Refused(15, 1), vec![1, 1]));
    assert_eq!(
        refused(plain(1, &[1, 10_000_001])),
        (Refused(16, 1), vec![1, 1])
    );
    let mut factor = plain(1, &[1, 1]);
    factor.factors[1] = 20_001;
    assert_eq!(refused(factor), (Refused(17, 1), vec![1, 1]));
    let mut factor = plain(0, &[1, 1]);
    factor.factors[1] = 9_999;
    let checking = opened(&two(), bytes(&[factor]), &[]);
    assert_eq!(said(Some(&two()), &checking), (Refused(17, 1), vec![0, 0]));
    let exchanged = records(&good, 1, &[1, 0]);
    let checking = opened(&two(), exchanged, &[]);
    assert_eq!(said(Some(&two()), &checking), (Refused(45, 0), vec![0, 0]));
}

/// Two regions with a service each: a bill is of energy, and places count all markets.
#[test]
fn services() {
    let opening = books::opening(2, 1, 1, 1);
    let both = |number: u32, prices: [i32; 4]| Interval {
        prices: prices.to_vec(),
        ..plain(number, &[0, 0])
    };
    let first = both(0, [10, 20, 100_000, 30]);
    let right = [(0, 1_000, 100_000, 100_000), (1, 1_000, 60_000, 60_000)];
    let day = bytes(&[first.clone(), both(1, [40, 50, 70_000, 60])]);
    let mut checking = opened(&opening, day, &right);
    checking.bill.region = 1;
    let ring = vec![40, 50, 70_000, 60];
    assert_eq!(said(Some(&opening), &checking), (Yes, ring.clone()));
    checking.bill.region = 0;
    assert_eq!(said(Some(&opening), &checking), (Wrong(0), ring));
    checking.bill.records = bytes(&[first, both(1, [40, 50, 70_000, -1])]);
    let ring = vec![10, 20, 100_000, 30];
    assert_eq!(said(Some(&opening), &checking), (Refused(16, 3), ring));
}

#[test]
fn half_away_from_zero() {
    let records = bytes(&[plain(0, &[-500]), plain(1, &[500])]);
    let right = [(0, 1, -500, -1), (1, 3, 500, 2)];
    let billed = |lines: &[Line]| said(Some(&one()), &opened(&one(), records.clone(), lines));
    assert_eq!(billed(&right), (Yes, vec![500]));
    let cases = [
        ((0, 1, -500, 0), right[1], 0),
        ((0, 1, -500, -2), right[1], 0),
        (right[0], (1, 3, 500, 1), 1),
        (right[0], (1, 1, 500, 0), 1),
        ((0, 3, -500, -1), right[1], 0),
    ];
    for (one, other, line) in cases {
        assert_eq!(billed(&[one, other]), (Wrong(line), vec![500]));
    }
    assert_eq!(
        billed(&[(0, 3, -500, -2), (1, 1, 500, 1)]),
        (Yes, vec![500])
    );
}

/// The schedule's prices, held within the limits, of a weekday and of a weekend: the window stays.
#[test]
fn marked() {
    let mut weekday = plain(0, &[0]);
    weekday.marks = vec![1];
    let mut weekend = plain(1, &[0]);
    (weekend.kind, weekend.marks) = (1, vec![1]);
    let right = [(0, 1_000, 60_000, 60_000), (1, 1_000, -60_000, -60_000)];
    let mut checking = opened(&one(), bytes(&[weekday, weekend]), &right);
    checking.bill.schedule = vec![70_000, -70_000];
    assert_eq!(said(Some(&one()), &checking), (Yes, vec![0]));
    checking.bill.schedule = vec![-70_000, 70_000];
    assert_eq!(said(Some(&one()), &checking), (Wrong(0), vec![0]));
}

/// The one region's day with something changed.
fn changed(change: impl FnOnce(&mut Checking)) -> (Said, Vec<i32>) {
    let mut checking = opened(&one(), day(), &RIGHT);
    change(&mut checking);
    said(None, &checking)
}

/// A refusal before the copy: the second ring stays.
fn stays(number: u32) -> (Said, Vec<i32>) {
    (Refused(number, 0), vec![7])
}

/// 11 over seven lengths, the schedule's where no record is there too.
#[test]
fn lengths() {
    assert_eq!(changed(|_| {}), (Yes, vec![70_000]));
    let changes: [fn(&mut Checking); 7] = [
        |checking| checking.ring.push(0),
        |checking| checking.bill.schedule.truncate(1),
        |checking| checking.bill.lines.numbers.push(2),
        |checking| checking.bill.lines.energy.truncate(1),
        |checking| checking.bill.lines.prices.push(0),
        |checking| checking.bill.lines.amounts.truncate(0),
        |checking| {
            checking.bill.schedule.truncate(1);
            (checking.bill.records, checking.bill.lines) = (Vec::new(), Lines::default());
        },
    ];
    for (place, change) in changes.into_iter().enumerate() {
        assert_eq!(changed(change), stays(11), "change {place}");
    }
    let both = changed(|checking| (checking.ring, checking.work) = (vec![0; 2], vec![7; 2]));
    assert_eq!(both, (Refused(11, 0), vec![7; 2]));
    let longer = changed(|checking| checking.work = vec![7, 8]);
    assert_eq!(longer, (Refused(11, 0), vec![7, 8]));
    let none = changed(|checking| checking.work.clear());
    assert_eq!(none, (Refused(11, 0), vec![]));
}

/// 10 before 11, and 11 before 21.
#[test]
fn book_and_region() {
    for region in [1, 2, 8, 255, 256, 1 << 31, u32::MAX] {
        let mut checking = opened(&one(), day(), &RIGHT);
        checking.bill.region = region;
        assert_eq!(said(Some(&one()), &checking), stays(21), "{region}");
        checking.bill.lines.energy.pop();
        assert_eq!(said(Some(&one()), &checking), stays(11), "{region}");
    }
    let closed = changed(|checking| checking.book = paper(&raw::Book::CLOSED));
    assert_eq!(closed, stays(10));
    let closed = changed(|checking| {
        checking.book = paper(&raw::Book::CLOSED);
        checking.bill.lines.energy.clear();
        checking.bill.region = 9;
    });
    assert_eq!(closed, stays(10));
}

/// A ring that others changed: what leaves it takes the sum beyond its bound, and the next interval meets 10, even one that is broken;
/// where none is next, nothing is refused.
#[test]
fn a_sum_beyond_its_bound() {
    let mut checking = opened(
        &one(),
        bytes(&[plain(1, &[10_000_000])]),
        &[(1, 0, 10_000_000, 0)],
    );
    checking.book.counts[0] = 1;
    checking.book.entries = 1;
    checking.book.position = 1;
    checking.book.sums[0] = 20_160_000_000;
    checking.ring = vec![i32::MIN];
    assert_eq!(said(None, &checking), (Yes, vec![10_000_000]));
    let alone = checking.bill.records.clone();
    let second = bytes(&[plain(2, &[0])]);
    let strays: [&[u8]; 3] = [&second, &[0], &second[..31]];
    for behind in strays {
        checking.bill.records = [&alone, behind].concat();
        assert_eq!(said(None, &checking), (Refused(10, 0), vec![10_000_000]));
    }
    let upper = (checking.book.sums[0], checking.ring.clone());
    (checking.book.sums[0], checking.ring) = (-20_160_000_000, vec![i32::MAX]);
    assert_eq!(said(None, &checking), (Refused(10, 0), vec![10_000_000]));
    (checking.book.sums[0], checking.ring) = upper;
    // 46 comes behind it, and comes where it doesn't.
    checking.bill.lines.energy = vec![u32::MAX];
    assert_eq!(said(None, &checking), (Refused(10, 0), vec![10_000_000]));
    checking.bill.records = alone;
    assert_eq!(said(None, &checking), (Refused(46, 0), vec![10_000_000]));
}

/// 10,000,000 entries taken: a day of one interval is 12, and one taken less takes one.
#[test]
fn full() {
    let mut checking = opened(&one(), bytes(&[plain(10_000_000, &[5])]), &[]);
    checking.book.entries = 10_000_000;
    assert_eq!(said(None, &checking), (Refused(12, 0), vec![0]));
    checking.bill.records = bytes(&[plain(0, &[5])]);
    assert_eq!(said(None, &checking), (Refused(12, 0), vec![0]));
    checking.bill.records = Vec::new();
    assert_eq!(said(None, &checking), (Yes, vec![0]));
    checking.book.entries = 9_999_999;
    checking.bill.lines = lines(&[(9_999_999, 2, 5, 0)]);
    checking.bill.records = bytes(&[plain(9_999_999, &[5])]);
    assert_eq!(said(None, &checking), (Yes, vec![5]));
    checking.bill.records = bytes(&[plain(9_999_999, &[5]), plain(10_000_000, &[6])]);
    assert_eq!(said(None, &checking), (Refused(12, 0), vec![5]));
}

/// Entries 0 and 1 of document 01's worked case, whose threshold a book is opened beside: the cap of region 0 is passed on to 1 and 2.
#[test]
fn passed_on() {
    let prices = [100_000, 90_000, 85_000];
    let mut linked = plain(1, &prices);
    (linked.flows, linked.factors) = (vec![0, 1, 1], vec![10_000, 11_000, 10_800]);
    let mut first = linked.clone();
    first.number = 0;
    let published = [(100_000, 60_000), (90_000, 54_545), (85_000, 50_505)];
    for (region, (before, after)) in (0..).zip(published) {
        let right = [
            (0, 1_000, before, i64::from(before)),
            (1, 1_000, after, i64::from(after)),
        ];
        let records = bytes(&[first.clone(), linked.clone()]);
        let mut checking = opened(&three(), records, &right);
        checking.bill.region = region;
        let answer = said(Some(&three()), &checking);
        assert_eq!(answer, (Yes, prices.to_vec()), "region {region}");
        checking.bill.region = (region + 1) % 3;
        let answer = said(Some(&three()), &checking);
        assert_eq!(answer, (Wrong(0), prices.to_vec()), "region {region}");
    }
    passed_on_from_an_image(&bytes(&[first, linked]), &prices);
}

/// The same by the worked book itself, at 95,000, which begins with an image: the ledger and the book answer alike.
fn passed_on_from_an_image(records: &[u8], prices: &[i32]) {
    let ledger: Ledger = books::begin(&books::guide());
    let image = ledger.image();
    let right = [(0, 1_000, 85_000, 85_000), (1, 1_000, 50_505, 50_505)];
    let mut checking = opened(&three(), records.to_vec(), &right);
    checking.book = Book::load(&image, &mut checking.ring).expect("a valid image");
    checking.bill.region = 2;
    assert_eq!(check_listed(&ledger, &checking), Ok(Judgement::Right));
    let mut work = vec![7; 3];
    let answer = checking
        .book
        .check_bill(&checking.ring, &mut work, &checking.bill);
    assert_eq!((answer, &work[..]), (Ok(Judgement::Right), prices));
}
