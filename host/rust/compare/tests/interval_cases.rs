//! Interval records, worked by hand: each case with its answer, by the compiled reader, rewriter and writer and by the independent
//! ones. The book has R 2, S 0, W 1, H 1, parents 255, 0, threshold 90,000 and limits ±60,000.

use compare::books;
use compare::intervals::{compiled, read, write, Read};
use compare::lent::Fill;
use compare::rewriting::{rewrite, Rewritten};
use compare::typed::paper;
use generator::intervals::{rewriting_into, Reading, Writing};
use guxhamole::raw;
use independent::book::Book;
use independent::interval::Interval;
use independent::Opening;

/// An interval's head, then two regions, in number order.
const I: [u8; 52] = [
    0x0c, 0, 0, 0, 0x10, 0, 0, 0, 0, 0, 0, 2, // head: number 0, day kind 0, two regions
    0x14, 0, 0, 0, 0x11, 0, 0, 0, 0, 0, 0, 0, 0, 0, 0, 0, 0xa0, 0x86, 1, 0, // 100,000
    0x14, 0, 0, 0, 0x11, 0, 1, 0, 1, 0, 0, 0, 0xf8, 0x2a, 0, 0, 0x90, 0x5f, 1, 0, // 90,000
];

fn book() -> Book {
    let opening = Opening {
        threshold: 90_000,
        parents: books::parents(&[255, 0]),
        ..books::opening(2, 0, 1, 1)
    };
    Book::open(&opening, &mut [0; 2]).expect("a valid opening")
}

/// What `I` says.
fn said() -> Interval {
    Interval {
        number: 0,
        kind: 0,
        prices: vec![100_000, 90_000],
        marks: vec![0, 0],
        flows: vec![0, 1],
        factors: vec![0, 11_000],
    }
}

/// Slices that hold something else.
fn lent() -> Interval {
    Interval {
        number: 99,
        kind: 99,
        prices: vec![-1, -2],
        marks: vec![3, 4],
        flows: vec![-5, -6],
        factors: vec![7, 8],
    }
}

fn reading(records: &[u8], at: usize) -> Reading {
    Reading {
        book: book(),
        records: records.to_vec(),
        at,
        lent: lent(),
    }
}

/// Bytes with one of them set.
fn with(bytes: &[u8], place: usize, value: u8) -> Vec<u8> {
    let mut bytes = bytes.to_vec();
    bytes[place] = value;
    bytes
}

/// `I` with its two region records exchanged: of the earlier form.
fn exchanged() -> Vec<u8> {
    [&I[..12], &I[32..], &I[12..32]].concat()
}

/// What a rewriting answers: the place after the interval and the bytes written, or the refusal's number.
fn rewritten(records: &[u8], at: usize, room: usize) -> Result<(usize, Vec<u8>), u32> {
    match rewrite(&rewriting_into(&reading(records, at), room)) {
        Ok(Rewritten { next, records }) => Ok((next, records)),
        Err(refusal) => Err(refusal.number),
    }
}

#[test]
fn accepted() {
    let both = |interval: Interval, next: usize| Ok(Read { next, interval });
    assert_eq!(read(&reading(&I, 0)), both(said(), 52));
    let second = Interval {
        number: 1,
        kind: 7,
        prices: vec![100_000, 90_000],
        marks: vec![9, 0],
        flows: vec![i32::MIN, 1],
        factors: vec![u32::MAX, 11_000],
    };
    let mut end_to_end = [I, I].concat();
    (end_to_end[58], end_to_end[62]) = (1, 7);
    end_to_end[71] = 9;
    end_to_end[75] = 0x80;
    end_to_end[76..80].fill(0xff);
    assert_eq!(read(&reading(&end_to_end, 52)), both(second, 104));
    // The same numbers in the earlier form, which no range refuses.
    let form = end_to_end[52..].to_vec();
    let earlier = [&form[..12], &form[32..], &form[12..32]].concat();
    assert_eq!(rewritten(&earlier, 0, 52), Ok((52, form)));
}

#[test]
fn rewritten_in_number_order() {
    let earlier = exchanged();
    for room in [52, 53, 60, 492] {
        assert_eq!(rewritten(&earlier, 0, room), Ok((52, I.to_vec())));
        assert_eq!(rewritten(&I, 0, room), Ok((52, I.to_vec())), "{room}");
    }
    let end_to_end = [&I[..], &earlier].concat();
    assert_eq!(rewritten(&end_to_end, 52, 55), Ok((104, I.to_vec())));
    assert_eq!(rewritten(&end_to_end, 0, 52), Ok((52, I.to_vec())));
    let by = read(&reading(&earlier, 0)).map_err(|refusal| refusal.number);
    assert_eq!(by, Err(45));
}

#[test]
fn not_rewritten() {
    let (head, region) = (&I[..12], &I[12..32]);
    let twice = [&I[..32], region].concat();
    let two_first = [head, &with(region, 6, 2), &I[32..]].concat();
    let cases: [(&str, &[u8], usize, u32); 13] = [
        ("no interval, no room", b"abc", 51, 23),
        ("no interval", b"abc", 52, 40),
        ("no room", &I, 51, 23),
        ("no room at all", &exchanged(), 0, 23),
        ("region 0 twice, no room", &twice, 51, 23),
        ("region 0 twice", &twice, 52, 42),
        ("region 0 twice, room", &twice, 60, 42),
        ("region 0 twice, the second cut", &twice[..51], 52, 40),
        ("region 2 first", &two_first, 52, 42),
        ("region 255 second", &with(&I, 38, 255), 52, 42),
        ("total 1", &with(&I, 11, 1), 52, 41),
        ("total 1, exchanged", &with(&exchanged(), 11, 1), 52, 41),
        ("a head alone", head, 52, 40),
    ];
    for (name, records, room, number) in cases {
        assert_eq!(rewritten(records, 0, room), Err(number), "{name}");
    }
    for at in [1, 52, 53, usize::MAX] {
        assert_eq!(rewritten(&exchanged(), at, 52), Err(40), "place {at}");
    }
    let mut closed = rewriting_into(&reading(b"abc", 0), 0);
    closed.book = paper(&raw::Book::CLOSED);
    let by = rewrite(&closed).map_err(|refusal| refusal.number);
    assert_eq!(by, Err(10));
}

/// A buffer in the middle of other bytes, all of which are looked at: what lies beside and behind the interval stays, and after a refusal
/// everything does. The reader's slices likewise.
#[test]
fn nothing_else_is_touched() {
    let kept = guxhamole::Book::from_raw(compiled(&book()));
    let before: Vec<u8> = (100..176).collect();
    let mut memory = before.clone();
    let next = kept.rewrite_interval(&exchanged(), 0, &mut memory[8..68]);
    assert_eq!(next, Ok(52));
    assert_eq!(memory, [&before[..8], &I, &before[60..]].concat());
    let mut memory = before.clone();
    let twice = [&I[..32], &I[12..32]].concat();
    let next = kept.rewrite_interval(&twice, 0, &mut memory[8..68]);
    assert_eq!(next, Err(guxhamole::Refusal::RecordRegion));
    let next = kept.rewrite_interval(&exchanged(), 0, &mut memory[8..59]);
    assert_eq!(next, Err(guxhamole::Refusal::Buffer));
    assert_eq!(memory, before);
    let (mut prices, mut flows, mut factors) = ([-1, -2, -3, -4], [-5, -6], [7, 8]);
    let mut marks = [1, 2, 3, 4];
    let slices = guxhamole::IntervalMut {
        prices: &mut prices[1..3],
        marks: &mut marks[1..3],
        flows: &mut flows,
        factors: &mut factors,
    };
    let found = kept.read_interval(&exchanged(), 0, slices);
    assert_eq!(found, Err(guxhamole::Refusal::RecordOrder));
    assert_eq!((prices, marks), ([-1, -2, -3, -4], [1, 2, 3, 4]));
    assert_eq!((flows, factors), ([-5, -6], [7, 8]));
}

/// Records, the number that the reader refuses them by, and the rewriter's, 0 where it takes them.
type Case = (&'static str, Vec<u8>, u32, u32);

/// Records that both refuse for their lengths, kinds or total, by the same number.
fn broken() -> Vec<Case> {
    let (head, region) = (&I[..12], &I[12..32]);
    let unknown = |length: u8| [length, 0, 0, 0, 99, 0];
    let two_prices = &[&with(region, 0, 24)[..], &[0; 4]].concat();
    let cases: [(&str, &[&[u8]], u32); 15] = [
        ("nothing", &[], 40),
        ("five bytes", &[&I[..5]], 40),
        ("total 3, nothing behind", &[&with(head, 11, 3)], 41),
        ("total 0", &[&with(&I, 11, 0)], 41),
        ("a head alone", &[head], 40),
        ("a head of 13", &[&with(head, 0, 13), &[0]], 40),
        ("unknown kind", &[&unknown(6), &I], 41),
        ("unknown kind, length 5", &[&unknown(5), &I], 40),
        ("unknown kind, cut", &[&unknown(7)], 40),
        ("a region first", &[&I[12..]], 41),
        ("a region of 21 first", &[&with(region, 0, 21), &[0]], 40),
        ("a second head", &[head, &I], 41),
        ("a second head of 13", &[head, &with(&I, 0, 13)], 40),
        ("two prices", &[head, two_prices, two_prices], 40),
        ("the last region cut", &[&I[..51]], 40),
    ];
    let whole = cases.map(|(name, parts, number)| (name, parts.concat(), number, number));
    whole.to_vec()
}

/// Records whose regions are not the next ones.
fn regions() -> Vec<Case> {
    let (head, region) = (&I[..12], &I[12..32]);
    let cases: [(&str, &[&[u8]], u32, u32); 8] = [
        ("region 2", &[head, &with(region, 6, 2)], 45, 42),
        ("region 2, cut", &[head, &with(region, 6, 2)[..19]], 40, 40),
        ("region 255", &[head, &with(region, 6, 255), region], 45, 42),
        ("region 0 twice", &[&I[..32], region], 45, 42),
        ("region 0 twice, more", &[&I[..32], region, &I], 45, 42),
        ("region 2 second", &[&I[..32], &with(region, 6, 2)], 45, 42),
        ("region 1 first", &[&exchanged()], 45, 0),
        ("region 1, nothing behind", &[head, &I[32..]], 45, 40),
    ];
    let whole =
        cases.map(|(name, parts, reader, rewriter)| (name, parts.concat(), reader, rewriter));
    whole.to_vec()
}

#[test]
fn refused() {
    for (name, records, reader, rewriter) in [broken(), regions()].concat() {
        let answer = read(&reading(&records, 0)).map_err(|refusal| refusal.number);
        assert_eq!(answer, Err(reader), "{name}");
        let answer = rewritten(&records, 0, 52).err().unwrap_or(0);
        assert_eq!(answer, rewriter, "{name}");
    }
    for at in [52, 53, usize::MAX] {
        let answer = read(&reading(&I, at)).map_err(|refusal| refusal.number);
        assert_eq!(answer, Err(40), "place {at}");
    }
}

/// 10 comes before 11, and 11 before everything that the records say.
#[test]
fn book_and_lengths_first() {
    let mut short = reading(&[], 9);
    short.lent.factors.truncate(1);
    assert_eq!(read(&short).map_err(|refusal| refusal.number), Err(11));
    let mut closed = reading(&[], 0);
    closed.book = paper(&raw::Book::CLOSED);
    closed.lent = Interval {
        prices: vec![0; 9],
        marks: vec![0; 9],
        flows: vec![0; 9],
        factors: vec![0; 9],
        ..lent()
    };
    assert_eq!(read(&closed).map_err(|refusal| refusal.number), Err(10));
}

#[test]
fn written() {
    let writing = |interval: Interval, buffer: usize| Writing {
        book: book(),
        interval,
        buffer,
    };
    // What lies behind the 52 bytes, and a refused writing's buffer, stay as they were filled.
    assert_ne!(u8::FILL, I[51]);
    for room in [52, 55] {
        assert_eq!(write(&writing(said(), room)), Ok(I.to_vec()), "{room}");
    }
    let refused = |interval: Interval, buffer: usize| {
        let answer = write(&writing(interval, buffer));
        answer.map_err(|refusal| refusal.number)
    };
    assert_eq!(refused(said(), 51), Err(23));
    let mut short = said();
    short.factors.truncate(1);
    assert_eq!(refused(short, 0), Err(11));
}
