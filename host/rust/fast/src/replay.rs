//! Plays a list of calls from bytes and writes the answers as bytes: docs/RECORDS.md.

use crate::book::{Book, Opening, Refusal, Report, NO_END};
use crate::bytes::{
    decode, decode_unsigned, eight_at, encode, i32_at, i64_at, put, u16_at, u32_at,
};
use crate::entry::Entry;

const OPENING: u16 = 64;
const ENTRY: u16 = 65;
const THRESHOLD: u16 = 66;
const LIMITS: u16 = 67;
const REPORT: u16 = 68;
const RESTART: u16 = 69;

/// Lengths of an answer and of an entry's record without its contents.
const ANSWER: usize = 14;
const ENTRY_HEAD: usize = 40;

/// The book that is played, its ring and the other one, and the room for what records hold.
struct Player<'a> {
    book: Book,
    ring: &'a mut [i32],
    other: &'a mut [i32],
    image: &'a mut [u8],
    numbers: &'a mut [i32],
    factors: &'a mut [u32],
    table: &'a mut [i32],
}

/// Plays the calls until one of the ends that docs/RECORDS.md lists. Answers how many bytes of answers it wrote.
#[allow(clippy::too_many_arguments)]
pub fn replay(
    calls: &[u8],
    answers: &mut [u8],
    ring: &mut [i32],
    other: &mut [i32],
    image: &mut [u8],
    numbers: &mut [i32],
    factors: &mut [u32],
    table: &mut [i32],
) -> usize {
    let Some((record, mut rest)) = split(calls) else {
        return 0;
    };
    let Some(opening) = opening_of(record) else {
        return 0;
    };
    if answers.len() < ANSWER {
        return 0;
    }
    let places = ring_length(&opening);
    let (ring_part, other_part) = (places.min(ring.len()), places.min(other.len()));
    let mut player = Player {
        book: Book::CLOSED,
        ring: &mut ring[..ring_part],
        other: &mut other[..other_part],
        image,
        numbers,
        factors,
        table,
    };
    let opened = player.open(&opening);
    let mut written = put_answer(answers, ANSWER, OPENING, opened.err());
    while let Some((record, after)) = split(rest) {
        let Some(length) = player.play(record, &mut answers[written..]) else {
            break;
        };
        written += length;
        rest = after;
    }
    written
}

/// The first whole record, of at least length and kind, and the bytes after it.
#[inline]
fn split(calls: &[u8]) -> Option<(&[u8], &[u8])> {
    if calls.len() < 6 {
        return None;
    }
    let length = u32_at(calls, 0) as usize;
    if length < 6 {
        return None;
    }
    calls.split_at_checked(length)
}

fn opening_of(record: &[u8]) -> Option<Opening> {
    if u16_at(record, 4) != OPENING || record.len() != 38 || record[11] != 0 {
        return None;
    }
    Some(Opening {
        regions: record[6],
        services: record[7],
        window: u16_at(record, 8),
        halves: record[10],
        first: u16_at(record, 12),
        parents: eight_at(record, 14),
        from: NO_END,
        to: NO_END,
        threshold: i64_at(record, 22),
        cap: i32_at(record, 30),
        floor: i32_at(record, 34),
    })
}

/// R × M × W of any opening.
fn ring_length(opening: &Opening) -> usize {
    let markets = usize::from(opening.services) + 1;
    usize::from(opening.regions) * markets * usize::from(opening.window)
}

/// Writes length, kind, number and place. Answers the length.
#[inline]
fn put_answer(answers: &mut [u8], length: usize, kind: u16, refusal: Option<Refusal>) -> usize {
    let Refusal { number, place } = refusal.unwrap_or(Refusal {
        number: 0,
        place: 0,
    });
    put(answers, 0, &(length as u32).to_le_bytes());
    put(answers, 4, &kind.to_le_bytes());
    put(answers, 6, &number.to_le_bytes());
    put(answers, 10, &place.to_le_bytes());
    length
}

/// An entry's record: its head's numbers and the parts of its contents.
struct Parts<'a> {
    number: u32,
    kind: u8,
    ring: usize,
    prices: &'a [u8],
    marks: &'a [u8],
    flows: &'a [u8],
    factors: &'a [u8],
    schedule: &'a [u8],
    table: &'a [u8],
}

/// The parts of an entry's record whose length and zero byte are right.
fn parts_of(record: &[u8]) -> Option<Parts<'_>> {
    if record.len() < ENTRY_HEAD || record[11] != 0 {
        return None;
    }
    let bytes = |field: usize| {
        let width = if field == 1 { 1 } else { 4 };
        width * u32_at(record, 12 + 4 * field) as usize
    };
    let (prices, rest) = record[ENTRY_HEAD..].split_at_checked(bytes(0))?;
    let (marks, rest) = rest.split_at_checked(bytes(1))?;
    let (flows, rest) = rest.split_at_checked(bytes(2))?;
    let (factors, rest) = rest.split_at_checked(bytes(3))?;
    let (schedule, table) = rest.split_at_checked(bytes(4))?;
    if table.len() != bytes(5) {
        return None;
    }
    Some(Parts {
        number: u32_at(record, 6),
        kind: record[10],
        ring: u32_at(record, 36) as usize,
        prices,
        marks,
        flows,
        factors,
        schedule,
        table,
    })
}

impl Player<'_> {
    fn open(&mut self, opening: &Opening) -> Result<(), Refusal> {
        self.book = Book::open(opening, self.ring)?;
        Ok(())
    }

    /// Plays one record. Answers the length of its answer, or nothing where the replay ends.
    #[inline]
    fn play(&mut self, record: &[u8], answers: &mut [u8]) -> Option<usize> {
        match (u16_at(record, 4), record.len()) {
            (ENTRY, _) => self.play_entry(record, answers),
            (THRESHOLD, 14) if answers.len() >= ANSWER => {
                let set = self.book.set_threshold(i64_at(record, 6));
                Some(put_answer(answers, ANSWER, THRESHOLD, set.err()))
            }
            (LIMITS, 14) if answers.len() >= ANSWER => {
                let set = self.book.set_limits(i32_at(record, 6), i32_at(record, 10));
                Some(put_answer(answers, ANSWER, LIMITS, set.err()))
            }
            (REPORT, 14) if answers.len() >= ANSWER + 20 => {
                let report = self.book.report(u32_at(record, 6), u32_at(record, 10));
                Some(put_report(answers, report))
            }
            (RESTART, 6) if answers.len() >= ANSWER => {
                let restarted = self.restart();
                Some(put_answer(answers, ANSWER, RESTART, restarted.err()))
            }
            _ => None,
        }
    }

    fn play_entry(&mut self, record: &[u8], answers: &mut [u8]) -> Option<usize> {
        let parts = parts_of(record)?;
        let (prices, flows) = (parts.prices.len() / 4, parts.flows.len() / 4);
        let numbers = prices + flows + parts.schedule.len() / 4;
        let length = ANSWER + 4 + parts.table.len();
        let ring = self.ring.get_mut(..parts.ring)?;
        let numbers = self.numbers.get_mut(..numbers)?;
        let factors = self.factors.get_mut(..parts.factors.len() / 4)?;
        let table = self.table.get_mut(..parts.table.len() / 4)?;
        let answer = answers.get_mut(..length)?;
        let (prices, rest) = numbers.split_at_mut(prices);
        let (flows, schedule) = rest.split_at_mut(flows);
        decode(parts.prices, prices);
        decode(parts.flows, flows);
        decode_unsigned(parts.factors, factors);
        decode(parts.schedule, schedule);
        decode(parts.table, table);
        let entry = Entry {
            number: parts.number,
            kind: parts.kind,
            prices,
            marks: parts.marks,
            flows,
            factors,
            schedule,
        };
        let entered = self.book.enter(ring, &entry, table);
        put_answer(answer, length, ENTRY, entered.err());
        put(answer, ANSWER, &entered.unwrap_or(0).to_le_bytes());
        encode(table, &mut answer[ANSWER + 4..]);
        Some(length)
    }

    /// "A restart is an image stored into a long enough buffer and loaded, from exactly its bytes, into another ring".
    fn restart(&mut self) -> Result<(), Refusal> {
        let length = self.book.store_kind_1(self.ring, self.image)?;
        self.book = Book::load(&self.image[..length], self.other)?;
        core::mem::swap(&mut self.ring, &mut self.other);
        Ok(())
    }
}

fn put_report(answers: &mut [u8], report: Result<Report, Refusal>) -> usize {
    let length = put_answer(answers, ANSWER + 20, REPORT, report.err());
    let numbers = report.unwrap_or_default();
    put(answers, 14, &numbers.sum.to_le_bytes());
    put(answers, 22, &numbers.counted.to_le_bytes());
    put(answers, 26, &numbers.mark.to_le_bytes());
    put(answers, 30, &numbers.entries.to_le_bytes());
    length
}
