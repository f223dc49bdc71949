//! "Calls": records written end to end, whole or damaged.

use crate::{ENTRY, LIMITS, OPENING, REPORT, RESTART, THRESHOLD};
use std::fmt;

#[derive(Clone, Debug, PartialEq, Eq)]
pub struct Opening {
    pub regions: u8,
    pub services: u8,
    pub window: u16,
    pub halves: u8,
    pub first: u16,
    pub parents: [u8; 8],
    pub threshold: i64,
    pub cap: i32,
    pub floor: i32,
}

#[derive(Clone, Debug, PartialEq, Eq)]
pub struct Entry {
    pub number: u32,
    pub kind: u8,
    pub prices: Vec<i32>,
    pub marks: Vec<u8>,
    pub flows: Vec<i32>,
    pub factors: Vec<u32>,
    pub schedule: Vec<i32>,
    /// The table as it is lent.
    pub table: Vec<i32>,
    /// How many places of the book's ring are lent.
    pub ring: u32,
}

/// One record, or bytes that stand where a record should.
#[derive(Clone, Debug, PartialEq, Eq)]
pub enum Record {
    Opening(Opening),
    Entry(Entry),
    Threshold(i64),
    Limits { cap: i32, floor: i32 },
    Report { region: u32, market: u32 },
    Restart,
    Damaged(Box<Record>, Damage),
    Bytes(Vec<u8>),
}

/// What is done to a record's bytes.
#[derive(Clone, Debug, PartialEq, Eq)]
pub enum Damage {
    /// Bytes written over those at a place, as far as the record goes.
    Put(usize, Vec<u8>),
    /// So many of its bytes alone.
    Cut(usize),
    /// Bytes after its own.
    Longer(Vec<u8>),
}

impl Damage {
    /// Another length field.
    pub fn length(length: u32) -> Damage {
        Damage::Put(0, length.to_le_bytes().to_vec())
    }

    /// Another kind.
    pub fn kind(kind: u16) -> Damage {
        Damage::Put(4, kind.to_le_bytes().to_vec())
    }

    /// Another byte in the place of an opening's or an entry's zero byte.
    pub fn zero(byte: u8) -> Damage {
        Damage::Put(11, vec![byte])
    }

    /// Another one of an entry's seven lengths, its contents as they are.
    pub fn entry_length(which: usize, length: u32) -> Damage {
        Damage::Put(12 + 4 * which, length.to_le_bytes().to_vec())
    }

    fn apply(&self, bytes: &mut Vec<u8>) {
        match self {
            Damage::Put(place, over) => {
                let room = bytes.iter_mut().skip(*place);
                room.zip(over).for_each(|(byte, &new)| *byte = new);
            }
            Damage::Cut(length) => bytes.truncate(*length),
            Damage::Longer(more) => bytes.extend(more),
        }
    }
}

impl Record {
    /// This record with something done to its bytes.
    pub fn damaged(self, damage: Damage) -> Record {
        Record::Damaged(Box::new(self), damage)
    }

    pub fn bytes(&self) -> Vec<u8> {
        match self {
            Record::Opening(opening) => framed(OPENING, &opening.fields()),
            Record::Entry(entry) => framed(ENTRY, &entry.fields()),
            Record::Threshold(threshold) => framed(THRESHOLD, &threshold.to_le_bytes()),
            Record::Limits { cap, floor } => framed(LIMITS, &numbers(&[*cap, *floor])),
            Record::Report { region, market } => {
                let fields = [region.to_le_bytes(), market.to_le_bytes()].concat();
                framed(REPORT, &fields)
            }
            Record::Restart => framed(RESTART, &[]),
            Record::Damaged(record, damage) => {
                let mut bytes = record.bytes();
                damage.apply(&mut bytes);
                bytes
            }
            Record::Bytes(bytes) => bytes.clone(),
        }
    }
}

/// "Records stand end to end".
pub fn bytes(records: &[Record]) -> Vec<u8> {
    records.iter().flat_map(Record::bytes).collect()
}

/// "Each begins with its length (4 bytes, the whole record) and its kind (2)."
fn framed(kind: u16, fields: &[u8]) -> Vec<u8> {
    let length = 6 + fields.len() as u32;
    [&length.to_le_bytes()[..], &kind.to_le_bytes(), fields].concat()
}

fn numbers(numbers: &[i32]) -> Vec<u8> {
    numbers
        .iter()
        .flat_map(|number| number.to_le_bytes())
        .collect()
}

impl Opening {
    /// The bytes from place 6 on.
    fn fields(&self) -> Vec<u8> {
        [
            &[self.regions, self.services][..],
            &self.window.to_le_bytes(),
            &[self.halves, 0],
            &self.first.to_le_bytes(),
            &self.parents,
            &self.threshold.to_le_bytes(),
            &self.cap.to_le_bytes(),
            &self.floor.to_le_bytes(),
        ]
        .concat()
    }
}

impl Entry {
    /// The bytes from place 6 on.
    fn fields(&self) -> Vec<u8> {
        let mut bytes = self.number.to_le_bytes().to_vec();
        bytes.extend([self.kind, 0]);
        for length in [
            self.prices.len() as u32,
            self.marks.len() as u32,
            self.flows.len() as u32,
            self.factors.len() as u32,
            self.schedule.len() as u32,
            self.table.len() as u32,
            self.ring,
        ] {
            bytes.extend(length.to_le_bytes());
        }
        bytes.extend(numbers(&self.prices));
        bytes.extend(&self.marks);
        bytes.extend(numbers(&self.flows));
        bytes.extend(self.factors.iter().flat_map(|factor| factor.to_le_bytes()));
        bytes.extend(numbers(&self.schedule));
        bytes.extend(numbers(&self.table));
        bytes
    }
}

/// One line.
impl fmt::Display for Record {
    fn fmt(&self, f: &mut fmt::Formatter) -> fmt::Result {
        match self {
            Record::Opening(opening) => write!(f, "{opening}"),
            Record::Entry(entry) => write!(f, "{entry}"),
            Record::Threshold(threshold) => write!(f, "threshold {threshold}"),
            Record::Limits { cap, floor } => write!(f, "limits cap {cap} floor {floor}"),
            Record::Report { region, market } => write!(f, "report {region} {market}"),
            Record::Restart => write!(f, "restart"),
            Record::Damaged(record, damage) => write!(f, "{record}, damaged by {damage:?}"),
            Record::Bytes(bytes) => write!(f, "bytes {bytes:02x?}"),
        }
    }
}

impl fmt::Display for Opening {
    fn fmt(&self, f: &mut fmt::Formatter) -> fmt::Result {
        write!(
            f,
            "opening R {} S {} W {} H {} first position {} parents {:?} threshold {} cap {} floor {}",
            self.regions,
            self.services,
            self.window,
            self.halves,
            self.first,
            self.parents,
            self.threshold,
            self.cap,
            self.floor
        )
    }
}

impl fmt::Display for Entry {
    fn fmt(&self, f: &mut fmt::Formatter) -> fmt::Result {
        write!(
            f,
            "entry {} kind {} prices {:?} marks {:?} flows {:?} factors {:?} schedule {} table {:?} ring {}",
            self.number,
            self.kind,
            self.prices,
            self.marks,
            self.flows,
            self.factors,
            runs(&self.schedule),
            self.table,
            self.ring
        )
    }
}

/// A schedule is long and mostly plain: equal neighbours are written once, with their number.
fn runs(numbers: &[i32]) -> String {
    let runs = numbers.chunk_by(|left, right| left == right);
    let written: Vec<String> = runs
        .map(|run| match run.len() {
            1 => run[0].to_string(),
            length => format!("{length} × {}", run[0]),
        })
        .collect();
    format!("[{}]", written.join(", "))
}

#[cfg(test)]
mod tests {
    use super::*;

    /// The layout by hand.
    #[test]
    fn opening_by_hand() {
        let opening = Record::Opening(Opening {
            regions: 5,
            services: 10,
            window: 2_016,
            halves: 48,
            first: 287,
            parents: [255, 0, 1, 2, 3, 255, 255, 255],
            threshold: 100_000_000_000,
            cap: 60_000,
            floor: -60_000,
        });
        let expected = [
            &[38, 0, 0, 0, 64, 0, 5, 10, 0xE0, 0x07, 48, 0, 0x1F, 0x01][..],
            &[255, 0, 1, 2, 3, 255, 255, 255],
            &[0x00, 0xE8, 0x76, 0x48, 0x17, 0, 0, 0],
            &[0x60, 0xEA, 0, 0, 0xA0, 0x15, 0xFF, 0xFF],
        ];
        assert_eq!(opening.bytes(), expected.concat());
    }

    #[test]
    fn entry_by_hand() {
        let entry = Record::Entry(Entry {
            number: 258,
            kind: 1,
            prices: vec![-2, 3],
            marks: vec![1, 0, 7],
            flows: vec![4],
            factors: vec![],
            schedule: vec![5],
            table: vec![6],
            ring: 9,
        });
        let expected = [
            &[63, 0, 0, 0, 65, 0, 2, 1, 0, 0, 1, 0][..],
            &[2, 0, 0, 0, 3, 0, 0, 0, 1, 0, 0, 0, 0, 0, 0, 0],
            &[1, 0, 0, 0, 1, 0, 0, 0, 9, 0, 0, 0],
            &[0xFE, 0xFF, 0xFF, 0xFF, 3, 0, 0, 0, 1, 0, 7],
            &[4, 0, 0, 0, 5, 0, 0, 0, 6, 0, 0, 0],
        ];
        assert_eq!(entry.bytes(), expected.concat());
    }

    #[test]
    fn others_and_damage_by_hand() {
        let limits = Record::Limits { cap: 1, floor: -1 };
        let expected = [14, 0, 0, 0, 67, 0, 1, 0, 0, 0, 0xFF, 0xFF, 0xFF, 0xFF];
        assert_eq!(limits.bytes(), expected);
        let (region, market) = (7, 10);
        let report = Record::Report { region, market };
        let expected = [14, 0, 0, 0, 68, 0, 7, 0, 0, 0, 10, 0, 0, 0];
        assert_eq!(report.bytes(), expected);
        let threshold = Record::Threshold(-2).damaged(Damage::Cut(8));
        assert_eq!(threshold.bytes(), [14, 0, 0, 0, 66, 0, 0xFE, 0xFF]);
        let longer = Record::Restart
            .damaged(Damage::Longer(vec![9]))
            .damaged(Damage::length(7))
            .damaged(Damage::kind(70));
        assert_eq!(longer.bytes(), [7, 0, 0, 0, 70, 0, 9]);
    }
}
