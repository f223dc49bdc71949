//! docs/RECORDS.md read a second time: a list of calls from its bytes, played on the ledger, and the answers' bytes. Of
//! the lent slices it knows the lengths alone. Quotations are that document's.

use crate::calls::{closed_answer, Answer, Call, Values};
use crate::image::{number, Kind};
use crate::ledger::{Entry, Ledger};
use crate::rings::Rings;
use crate::rules::{Opening, NO_END};

/// The lengths of the lent slices, the calls aside.
#[derive(Clone, Copy, Debug, PartialEq, Eq)]
pub struct Lent {
    pub answers: usize,
    pub ring: usize,
    pub other: usize,
    pub image: usize,
    pub numbers: usize,
    pub factors: usize,
    pub table: usize,
}

/// What a replay leaves behind.
#[derive(Clone, Debug, Default, PartialEq, Eq)]
pub struct Played {
    pub answers: Vec<u8>,
    /// The first bytes of the image buffer, as stores left them; the bytes after them stay.
    pub image: Vec<u8>,
    /// The first places of the ring and of the other ring, once an accepted call wrote there; those after them stay.
    pub ring: Vec<i32>,
    pub other: Vec<i32>,
    /// Which of `ENDS`.
    pub ended: &'static str,
}

/// "What ends a replay": a name for each, to see that tests reach them all.
pub const ENDS: [&str; 10] = [
    ALL_PLAYED, NO_WHOLE, LENGTH, KIND, ZERO, RING, NUMBERS, FACTORS, TABLE, ANSWERS,
];
const ALL_PLAYED: &str = "all played";
const NO_WHOLE: &str = "no whole record";
const LENGTH: &str = "not its kind's length";
const KIND: &str = "kind";
const ZERO: &str = "zero byte";
const RING: &str = "ring longer than the book's";
const NUMBERS: &str = "room in numbers";
const FACTORS: &str = "room in factors";
const TABLE: &str = "room in table";
const ANSWERS: &str = "room in answers";

/// Why the replay ends here.
type End = &'static str;

fn ends_unless(holds: bool, end: End) -> Result<(), End> {
    if holds {
        Ok(())
    } else {
        Err(end)
    }
}

/// The book: none before the opening, closed by a refused one.
enum Book {
    None,
    Closed,
    Open(Box<Ledger>, Rings),
}

struct Player<'a> {
    lent: &'a Lent,
    book: Book,
    /// Places of the book's ring, and of the other ring's part.
    ring: usize,
    other: usize,
    played: Played,
}

/// Plays the records one by one until something ends the replay.
pub fn play(calls: &[u8], lent: &Lent) -> Played {
    let mut player = Player {
        lent,
        book: Book::None,
        ring: 0,
        other: 0,
        played: Played::default(),
    };
    let mut rest = calls;
    let ended = loop {
        match player.step(rest) {
            Ok(after) => rest = after,
            Err(end) => break end,
        }
    };
    let [ring, other] = match player.book {
        Book::Open(_, rings) => rings.held(),
        _ => Default::default(),
    };
    Played {
        ring,
        other,
        ended,
        ..player.played
    }
}

/// "Each begins with its length (4 bytes, the whole record) and its kind (2)": the first record, its kind, and what
/// stands after it.
fn whole_record(rest: &[u8]) -> Result<(&[u8], u64, &[u8]), End> {
    ends_unless(!rest.is_empty(), ALL_PLAYED)?;
    ends_unless(rest.len() >= 6, NO_WHOLE)?;
    let length = number(rest, 0, 4) as usize;
    ends_unless(length <= rest.len(), NO_WHOLE)?;
    ends_unless(length >= 6, LENGTH)?;
    let (record, after) = rest.split_at(length);
    Ok((record, number(record, 4, 2), after))
}

impl Player<'_> {
    /// Plays the first record: what stands after it.
    fn step<'b>(&mut self, rest: &'b [u8]) -> Result<&'b [u8], End> {
        let (record, kind, after) = whole_record(rest)?;
        if let Book::None = self.book {
            self.open(kind, record)?;
        } else {
            let call = self.read(kind, record)?;
            self.room_for_answer(answer_length(&call))?;
            let answer = self.play(&call);
            self.append(kind, &answer);
        }
        Ok(after)
    }

    /// "the answer's record doesn't fit the rest of the answers' buffer"
    fn room_for_answer(&self, length: usize) -> Result<(), End> {
        let rest = self.lent.answers - self.played.answers.len();
        ends_unless(length <= rest, ANSWERS)
    }

    /// "The opening is lent the first R × M × W places of the ring, or all of it where it has fewer". "The other ring's
    /// part is made alike."
    fn open(&mut self, kind: u64, record: &[u8]) -> Result<(), End> {
        ends_unless(kind == 64, KIND)?;
        ends_unless(record.len() == 38, LENGTH)?;
        ends_unless(record[11] == 0, ZERO)?;
        self.room_for_answer(14)?;
        let opening = read_opening(record);
        let markets = u64::from(opening.services) + 1;
        let places = u64::from(opening.regions) * markets * u64::from(opening.window);
        self.ring = self.lent.ring.min(places as usize);
        self.other = self.lent.other.min(places as usize);
        let (number, place) = match Ledger::open(&opening, self.ring) {
            Ok(ledger) => {
                let rings = Rings::opened(ledger.shape());
                self.book = Book::Open(Box::new(ledger), rings);
                (0, 0)
            }
            Err(refusal) => {
                self.book = Book::Closed;
                (refusal.number, refusal.place)
            }
        };
        let values = Values::Nothing;
        let answer = Answer {
            number,
            place,
            values,
        };
        self.append(kind, &answer);
        Ok(())
    }

    /// Any record but the opening.
    fn read(&self, kind: u64, record: &[u8]) -> Result<Call, End> {
        let length = |length| ends_unless(record.len() == length, LENGTH);
        match kind {
            65 => self.read_entry(record),
            66 => {
                length(14)?;
                Ok(Call::Threshold(number(record, 6, 8) as i64))
            }
            67 => {
                length(14)?;
                Ok(Call::Limits(signed(record, 6), signed(record, 10)))
            }
            68 => {
                length(14)?;
                let (region, market) = (number(record, 6, 4), number(record, 10, 4));
                Ok(Call::Report(region as u32, market as u32))
            }
            69 => {
                length(6)?;
                Ok(Call::Restart(Kind::One, self.lent.image, self.other))
            }
            _ => Err(KIND),
        }
    }

    /// "6: number (4), 10: day kind (1), 11: zero (1), 12: lengths of prices, marks, flows, factors, schedule, table and
    /// ring (4 each), 40: the contents of the first six in that order, marks a byte each, all others 4"
    fn read_entry(&self, record: &[u8]) -> Result<Call, End> {
        ends_unless(record.len() >= 40, LENGTH)?;
        let lengths: Vec<usize> = (0..7)
            .map(|which| number(record, 12 + 4 * which, 4) as usize)
            .collect();
        let (prices, marks, flows) = (lengths[0], lengths[1], lengths[2]);
        let (factors, schedule, table) = (lengths[3], lengths[4], lengths[5]);
        let contents = marks + 4 * (prices + flows + factors + schedule + table);
        ends_unless(record.len() == 40 + contents, LENGTH)?;
        ends_unless(record[11] == 0, ZERO)?;
        ends_unless(lengths[6] <= self.ring, RING)?;
        ends_unless(prices + flows + schedule <= self.lent.numbers, NUMBERS)?;
        ends_unless(factors <= self.lent.factors, FACTORS)?;
        ends_unless(table <= self.lent.table, TABLE)?;
        let mut place = 40;
        let mut take = |length: usize| {
            place += length;
            &record[place - length..place]
        };
        let entry = Entry {
            number: number(record, 6, 4) as u32,
            kind: record[10],
            prices: all_signed(take(4 * prices)),
            marks: take(marks).to_vec(),
            flows: all_signed(take(4 * flows)),
            factors: all_signed(take(4 * factors))
                .into_iter()
                .map(|factor| factor as u32)
                .collect(),
            schedule: all_signed(take(4 * schedule)),
        };
        let table = all_signed(take(4 * table));
        Ok(Call::Entry(entry, lengths[6], table))
    }

    /// "A restart stores the book into the image buffer and loads it, from exactly the image's bytes, into the other
    /// ring": once the store is accepted its image stands there, even where the load is refused.
    fn play(&mut self, call: &Call) -> Answer {
        let Book::Open(ledger, rings) = &mut self.book else {
            return closed_answer(call);
        };
        let answer = ledger.call(call);
        match (call, answer.number) {
            (Call::Entry(entry, ..), 0) => rings.entered(entry),
            (Call::Restart(..), 0 | 11) => {
                let mut image = ledger.image();
                if answer.number == 0 {
                    rings.restarted(&image);
                }
                let covered = image.len().min(self.played.image.len());
                image.extend(&self.played.image[covered..]);
                self.played.image = image;
            }
            _ => {}
        }
        answer
    }

    /// "length (4), the call's kind (2), number (4), place (4) …; then entry: count (4), and the table as it then stands
    /// (4 each); report: sum (8), prices counted (4), period mark (4), entries taken (4)"
    fn append(&mut self, kind: u64, answer: &Answer) {
        let mut values = Vec::new();
        match &answer.values {
            Values::Nothing => {}
            Values::Entry(count, table) => {
                values.extend(count.to_le_bytes());
                values.extend(table.iter().flat_map(|price| price.to_le_bytes()));
            }
            Values::Report(report) => {
                values.extend(report.sum.to_le_bytes());
                values.extend(report.counted.to_le_bytes());
                values.extend(report.mark.to_le_bytes());
                values.extend(report.entries.to_le_bytes());
            }
        }
        let answers = &mut self.played.answers;
        answers.extend((14 + values.len() as u32).to_le_bytes());
        answers.extend((kind as u16).to_le_bytes());
        answers.extend(answer.number.to_le_bytes());
        answers.extend(answer.place.to_le_bytes());
        answers.extend(values);
    }
}

/// "an answer has 14 bytes, an entry's 18 and four a place of its table, a report's 34"
fn answer_length(call: &Call) -> usize {
    match call {
        Call::Entry(_, _, table) => 18 + 4 * table.len(),
        Call::Report(..) => 34,
        _ => 14,
    }
}

/// "6: R (1), 7: S (1), 8: W (2), 10: H (1), 11: zero (1), 12: first position (2), 14: parents (8), 22: threshold (8),
/// 30: cap (4), 34: floor (4)"
fn read_opening(record: &[u8]) -> Opening {
    let mut parents = [0; 8];
    parents.copy_from_slice(&record[14..22]);
    Opening {
        regions: number(record, 6, 1) as u32,
        services: number(record, 7, 1) as u32,
        window: number(record, 8, 2) as u32,
        halves: number(record, 10, 1) as u32,
        first: number(record, 12, 2) as u32,
        parents,
        from: NO_END,
        to: NO_END,
        threshold: number(record, 22, 8) as i64,
        cap: signed(record, 30),
        floor: signed(record, 34),
    }
}

fn signed(bytes: &[u8], place: usize) -> i32 {
    number(bytes, place, 4) as u32 as i32
}

fn all_signed(bytes: &[u8]) -> Vec<i32> {
    bytes.chunks_exact(4).map(|four| signed(four, 0)).collect()
}
