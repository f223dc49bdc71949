//! Bytes as interval records, read at any place by a book of any size, sound or damaged, and rewritten from there; then what the
//! slices hold is written.

use crate::bytes::Bytes;
use crate::pages::Pages;
use crate::Met;
use compare::typed::{paper, told};
use guxhamole::{Book, IntervalMut, Settings, BOOK_LENGTH};
use independent::interval::Interval;

/// The ends of an additional link, half a byte each, where no two regions are linked otherwise; none by zeros and by others that are none.
fn ends(byte: u8, regions: u8) -> (u8, u8) {
    match (byte >> 4, byte & 15) {
        (from, to) if from < regions && to < regions && from != to => (from, to),
        _ => (guxhamole::NONE, guxhamole::NONE),
    }
}

/// A book just opened, with one of its bytes changed; zeros change none.
fn book(bytes: &mut Bytes) -> Book {
    let (regions, services) = (1 + bytes.byte() % 8, bytes.byte() % 11);
    let (from, to) = ends(bytes.byte(), regions);
    let settings = Settings {
        regions,
        services,
        window: 1,
        halves: 1,
        parents: [255; 8],
        from,
        to,
        ..Settings::default()
    };
    let mut ring = vec![0; guxhamole::ring_length(regions.into(), services.into(), 1)];
    let book = Book::open(settings, &mut ring).expect("a valid opening");
    let mut fields = book.to_bytes();
    fields[usize::from(bytes.u16()) % BOOK_LENGTH] ^= bytes.byte();
    Book::from_bytes(&fields)
}

/// The start, a place near it, or any.
fn place(bytes: &mut Bytes) -> usize {
    match bytes.byte() % 4 {
        0 | 1 => 0,
        2 => bytes.u16().into(),
        _ => bytes.u64() as usize,
    }
}

/// Slices as they are lent, of about the lengths that the book asks for.
fn lent(bytes: &mut Bytes, book: &Book) -> Interval {
    let regions = book.regions().into();
    Interval {
        number: bytes.u32(),
        kind: bytes.byte(),
        prices: vec![-1; bytes.length(book.prices_length())],
        marks: vec![2; bytes.length(regions)],
        flows: vec![-3; bytes.length(book.flows_length())],
        factors: vec![4; bytes.length(book.flows_length())],
    }
}

/// Slices of the lengths that the book asks for.
fn fitting(book: &Book) -> Interval {
    let regions = book.regions().into();
    Interval {
        number: 0,
        kind: 0,
        prices: vec![-1; book.prices_length()],
        marks: vec![2; regions],
        flows: vec![-3; book.flows_length()],
        factors: vec![4; book.flows_length()],
    }
}

pub fn run(room: &mut [Pages], data: &[u8]) -> Met {
    let mut bytes = Bytes::new(data);
    let at_end = bytes.byte().is_multiple_of(2);
    let book = book(&mut bytes);
    let (at, mut interval) = (place(&mut bytes), lent(&mut bytes, &book));
    let buffer = bytes.length(book.interval_length());
    let records = bytes.part(Pages::most::<u8>());
    let read = read(room, at_end, &book, records, at, &mut interval);
    let rewritten = rewrite(room, at_end, &book, records, at, buffer);
    let written = write(room, at_end, &book, &interval, buffer);
    vec![("read", read), ("rewrite", rewritten), ("write", written)]
}

/// The number that both readers answer; what they read takes the place of what is lent.
fn read(
    room: &mut [Pages],
    at_end: bool,
    book: &Book,
    records: &[u8],
    at: usize,
    interval: &mut Interval,
) -> u32 {
    let [one, two, three, four, five, ..] = room else {
        unreachable!("five slices at least")
    };
    let bytes = one.hold(records, at_end);
    let prices = two.hold(&interval.prices, at_end);
    let marks = three.hold(&interval.marks, at_end);
    let flows = four.hold(&interval.flows, at_end);
    let factors = five.hold(&interval.factors, at_end);
    let slices = IntervalMut {
        prices: &mut *prices.lent,
        marks: &mut *marks.lent,
        flows: &mut *flows.lent,
        factors: &mut *factors.lent,
    };
    let found = told(book.read_interval(bytes.lent, at, slices));
    let found = found.map(|found| (found.next, found.number, found.day_kind));
    let expected = paper(book.raw()).read_interval(records, at, interval);
    let expected = expected.map(|next| (next, interval.number, interval.kind));
    assert_eq!(found, expected, "reading");
    assert!(bytes.holds(records), "records");
    let filled = prices.holds(&interval.prices)
        && marks.holds(&interval.marks)
        && flows.holds(&interval.flows)
        && factors.holds(&interval.factors);
    assert!(filled, "slices after the reading");
    expected.err().map_or(0, |refusal| refusal.number)
}

/// The number that both rewriters answer. What was written is then rewritten to itself, and read to the entry that the earlier reader
/// gives.
fn rewrite(
    room: &mut [Pages],
    at_end: bool,
    book: &Book,
    records: &[u8],
    at: usize,
    buffer: usize,
) -> u32 {
    let [one, two, ..] = room else {
        unreachable!("two slices at least")
    };
    let bytes = one.hold(records, at_end);
    let lent = two.lend::<u8>(buffer, at_end);
    let mut expected_buffer = lent.lent.to_vec();
    let next = told(book.rewrite_interval(bytes.lent, at, lent.lent));
    let expected = paper(book.raw()).rewrite_interval(records, at, &mut expected_buffer);
    assert_eq!(next, expected, "rewriting");
    assert!(bytes.holds(records), "records of the rewriting");
    assert!(lent.holds(&expected_buffer), "buffer of the rewriting");
    let Ok(next) = expected else {
        return expected.err().map_or(0, |refusal| refusal.number);
    };
    let form = &expected_buffer[..next - at];
    let (bytes, lent) = (one.hold(form, at_end), two.lend::<u8>(form.len(), at_end));
    assert_eq!(
        book.rewrite_interval(bytes.lent, 0, lent.lent),
        Ok(next - at)
    );
    assert!(lent.holds(form), "what is rewritten again");
    let (mut interval, mut earlier) = (fitting(book), fitting(book));
    assert_eq!(read(room, at_end, book, form, 0, &mut interval), 0);
    let taken = paper(book.raw()).read_earlier(records, at, &mut earlier);
    assert_eq!((taken, earlier), (Ok(next), interval), "the same entry");
    0
}

/// The number that both writers answer.
fn write(room: &mut [Pages], at_end: bool, book: &Book, interval: &Interval, buffer: usize) -> u32 {
    let [one, two, three, four, five, ..] = room else {
        unreachable!("five slices at least")
    };
    let lent = one.lend::<u8>(buffer, at_end);
    let prices = two.hold(&interval.prices, at_end);
    let marks = three.hold(&interval.marks, at_end);
    let flows = four.hold(&interval.flows, at_end);
    let factors = five.hold(&interval.factors, at_end);
    let mut expected_buffer = lent.lent.to_vec();
    let writing = guxhamole::Interval {
        number: interval.number,
        day_kind: interval.kind,
        prices: prices.lent,
        marks: marks.lent,
        flows: flows.lent,
        factors: factors.lent,
    };
    let written = told(book.write_interval(writing, lent.lent));
    let expected = paper(book.raw()).write_interval(interval, &mut expected_buffer);
    assert_eq!(written, expected, "writing");
    assert!(lent.holds(&expected_buffer), "buffer");
    let kept = prices.holds(&interval.prices)
        && marks.holds(&interval.marks)
        && flows.holds(&interval.flows)
        && factors.holds(&interval.factors);
    assert!(kept, "what the writing lends");
    expected.err().map_or(0, |refusal| refusal.number)
}
