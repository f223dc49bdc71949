//! Interval records through the crate `guxhamole` beside the independent reader and writer: every answer, everything that is
//! lent, and what lies beside it.

use crate::cutting;
use crate::lent::Lent;
use crate::typed::{same, told, verdict, Difference};
use generator::intervals::{Reading, Writing};
use guxhamole::{raw, Book, IntervalMut};
use independent::book::Book as Paper;
use independent::interval::Interval;
use independent::Refusal;

/// What a reading that is accepted gives.
#[derive(Clone, Debug, PartialEq, Eq)]
pub struct Read {
    pub next: usize,
    pub interval: Interval,
}

/// The fields of an independent book in the compiled one's record.
pub fn compiled(book: &Paper) -> raw::Book {
    raw::Book {
        regions: book.regions,
        services: book.services,
        window: book.window,
        halves: book.halves,
        parents: book.parents,
        from: book.from,
        to: book.to,
        threshold: book.threshold,
        cap: book.cap,
        floor: book.floor,
        entries: book.entries,
        position: book.position,
        counts: book.counts,
        nexts: book.nexts,
        sums: book.sums,
        marks: book.marks,
    }
}

/// Copies of an interval's slices, each guarded.
pub(crate) struct Lending {
    prices: Lent<i32>,
    marks: Lent<u8>,
    flows: Lent<i32>,
    factors: Lent<u32>,
}

impl Lending {
    pub(crate) fn of(interval: &Interval) -> Lending {
        Lending {
            prices: Lent::of(&interval.prices),
            marks: Lent::of(&interval.marks),
            flows: Lent::of(&interval.flows),
            factors: Lent::of(&interval.factors),
        }
    }

    pub(crate) fn slices_mut(&mut self) -> IntervalMut<'_> {
        IntervalMut {
            prices: self.prices.slice_mut(),
            marks: self.marks.slice_mut(),
            flows: self.flows.slice_mut(),
            factors: self.factors.slice_mut(),
        }
    }

    fn interval(&self, number: u32, day_kind: u8) -> guxhamole::Interval<'_> {
        guxhamole::Interval {
            number,
            day_kind,
            prices: self.prices.slice(),
            marks: self.marks.slice(),
            flows: self.flows.slice(),
            factors: self.factors.slice(),
        }
    }

    pub(crate) fn holds(&self, interval: &Interval) -> bool {
        self.prices.holds(&interval.prices)
            && self.marks.holds(&interval.marks)
            && self.flows.holds(&interval.flows)
            && self.factors.holds(&interval.factors)
    }
}

/// One reading by all three: the independent reader, the crate's method, and the C face, whose values are zeros when refused.
pub fn try_read(reading: &Reading) -> Result<Result<Read, Refusal>, Difference> {
    let Reading {
        book, records, at, ..
    } = reading;
    let mut interval = reading.lent.clone();
    let expected = book.read_interval(records, *at, &mut interval);
    let lent_records = Lent::of(records);
    let mut lending = Lending::of(&reading.lent);
    let found = Book::from_raw(compiled(book)).read_interval(
        lent_records.slice(),
        *at,
        lending.slices_mut(),
    );
    let found = told(found).map(|found| (found.next, found.number, found.day_kind));
    let wanted = expected.map(|next| (next, interval.number, interval.kind));
    if found != wanted {
        return Err(format!(
            "answer: {found:?}, the independent one: {wanted:?}"
        ));
    }
    same(lending.holds(&interval), "slices")?;
    let mut again = Lending::of(&reading.lent);
    let slices = again.slices_mut();
    let face = raw::interval_read(compiled(book), lent_records.slice(), *at, slices);
    same(face == told_by_c(&wanted), "C answer")?;
    same(again.holds(&interval), "slices of the C face")?;
    same(lent_records.holds(records), "records")?;
    Ok(expected.map(|next| Read { next, interval }))
}

/// Next place, number and day kind as the C face answers them.
fn told_by_c(wanted: &Result<(usize, u32, u8), Refusal>) -> raw::Found {
    let (next, entry, day_kind) = wanted.unwrap_or((0, 0, 0));
    raw::Found {
        number: verdict(wanted).0,
        next: next as u64,
        entry,
        day_kind: day_kind.into(),
    }
}

/// One writing by all three, into buffers that are filled before: the interval's records.
pub fn try_write(writing: &Writing) -> Result<Result<Vec<u8>, Refusal>, Difference> {
    let Writing {
        book,
        interval,
        buffer,
    } = writing;
    let mut lent = Lent::filled(*buffer);
    let mut paper_buffer = lent.slice().to_vec();
    let expected = book.write_interval(interval, &mut paper_buffer);
    let lending = Lending::of(interval);
    let written = lending.interval(interval.number, interval.kind);
    let stored = Book::from_raw(compiled(book)).write_interval(written, lent.slice_mut());
    let stored = told(stored);
    if stored != expected {
        return Err(format!(
            "answer: {stored:?}, the independent one: {expected:?}"
        ));
    }
    same(lent.holds(&paper_buffer), "buffer")?;
    let mut again = Lent::filled(*buffer);
    let face = raw::interval_write(compiled(book), written, again.slice_mut());
    let answer = raw::Stored {
        number: verdict(&expected).0,
        length: expected.unwrap_or(0) as u64,
    };
    same(face == answer, "C answer")?;
    same(again.holds(&paper_buffer), "buffer of the C face")?;
    same(lending.holds(interval), "what the writing lends")?;
    Ok(expected.map(|length| paper_buffer[..length].to_vec()))
}

/// One reading; a difference prints it with the shortest records found by cutting.
pub fn read(reading: &Reading) -> Result<Read, Refusal> {
    try_read(reading).unwrap_or_else(|what| {
        let cut = |records: &[u8]| Reading {
            records: records.to_vec(),
            ..reading.clone()
        };
        let differs = |records: &[u8]| try_read(&cut(records)).is_err();
        let short = cut(&cutting::shortest(&reading.records, differs));
        let what = try_read(&short).err().unwrap_or(what);
        let (at, records, lent) = (short.at, &short.records, &short.lent);
        let book = &short.book;
        panic!("reading at {at} differs in {what}\nrecords {records:02x?}\n{lent:?}\n{book:?}")
    })
}

/// One writing; a difference prints it.
pub fn write(writing: &Writing) -> Result<Vec<u8>, Refusal> {
    try_write(writing).unwrap_or_else(|what| {
        let Writing {
            book,
            interval,
            buffer,
        } = writing;
        panic!("writing into {buffer} bytes differs in {what}\n{interval:?}\n{book:?}")
    })
}
