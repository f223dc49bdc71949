//! "Answers": the bytes that a replay wrote, split into records.

use crate::{ENTRY, LIMITS, OPENING, REPORT, RESTART, THRESHOLD};
use std::fmt;

#[derive(Clone, Debug, PartialEq, Eq)]
pub struct Answer {
    /// The call's kind.
    pub kind: u16,
    pub number: u32,
    pub place: u32,
    pub values: Values,
}

#[derive(Clone, Debug, PartialEq, Eq)]
pub enum Values {
    Nothing,
    Entry {
        count: u32,
        table: Vec<i32>,
    },
    Report {
        sum: i64,
        counted: u32,
        mark: u32,
        entries: u32,
    },
}

/// The answers, and the bytes from the first place on at which no whole one stands.
pub fn split(bytes: &[u8]) -> (Vec<Answer>, &[u8]) {
    let mut answers = Vec::new();
    let mut rest = bytes;
    while let Some((answer, after)) = first(rest) {
        answers.push(answer);
        rest = after;
    }
    (answers, rest)
}

/// The first answer and the bytes after it.
fn first(bytes: &[u8]) -> Option<(Answer, &[u8])> {
    let length = u32_at(bytes, 0)? as usize;
    if length < 14 || length > bytes.len() {
        return None;
    }
    let (record, after) = bytes.split_at(length);
    let kind = u16::from_le_bytes([record[4], record[5]]);
    let values = match (kind, length) {
        (OPENING | THRESHOLD | LIMITS | RESTART, 14) => Values::Nothing,
        (ENTRY, _) if length >= 18 && length % 4 == 2 => Values::Entry {
            count: u32_at(record, 14)?,
            table: (18..length)
                .step_by(4)
                .filter_map(|place| u32_at(record, place))
                .map(|number| number as i32)
                .collect(),
        },
        (REPORT, 34) => Values::Report {
            sum: i64::from(u32_at(record, 14)?) + (i64::from(u32_at(record, 18)? as i32) << 32),
            counted: u32_at(record, 22)?,
            mark: u32_at(record, 26)?,
            entries: u32_at(record, 30)?,
        },
        _ => return None,
    };
    let answer = Answer {
        kind,
        number: u32_at(record, 6)?,
        place: u32_at(record, 10)?,
        values,
    };
    Some((answer, after))
}

fn u32_at(bytes: &[u8], place: usize) -> Option<u32> {
    let four = bytes.get(place..place + 4)?;
    Some(u32::from_le_bytes([four[0], four[1], four[2], four[3]]))
}

/// One line.
impl fmt::Display for Answer {
    fn fmt(&self, f: &mut fmt::Formatter) -> fmt::Result {
        match (self.number, self.place) {
            (0, 0) => write!(f, "accepted")?,
            (number, 0) => write!(f, "refused by {number}")?,
            (number, place) => write!(f, "refused by {number} at {place}")?,
        }
        match &self.values {
            Values::Nothing => Ok(()),
            Values::Entry { count, table } => write!(f, ", count {count}, table {table:?}"),
            Values::Report {
                sum,
                counted,
                mark,
                entries,
            } => write!(
                f,
                ", sum {sum}, counted {counted}, mark {mark}, entries {entries}"
            ),
        }
    }
}

#[cfg(test)]
mod tests {
    use super::*;

    /// The layout by hand: an entry's answer, a report's with a sum below 0, a restart's, and a cut one.
    #[test]
    fn by_hand() {
        let bytes = [
            &[
                22, 0, 0, 0, 65, 0, 0, 0, 0, 0, 0, 0, 0, 0, 1, 0, 0, 0, 0xFE, 0xFF, 0xFF, 0xFF,
            ][..],
            &[34, 0, 0, 0, 68, 0, 0, 0, 0, 0, 0, 0, 0, 0],
            &[0xFD, 0xFF, 0xFF, 0xFF, 0xFF, 0xFF, 0xFF, 0xFF],
            &[2, 0, 0, 0, 1, 0, 0, 0, 7, 1, 0, 0],
            &[14, 0, 0, 0, 69, 0, 23, 0, 0, 0, 0, 0, 0, 0],
            &[14, 0, 0, 0, 69, 0, 23, 0, 0, 0, 0, 0, 0],
        ]
        .concat();
        let answer = |kind, number, values| Answer {
            kind,
            number,
            place: 0,
            values,
        };
        let entry = Values::Entry {
            count: 1,
            table: vec![-2],
        };
        let report = Values::Report {
            sum: -3,
            counted: 2,
            mark: 1,
            entries: 263,
        };
        let (answers, rest) = split(&bytes);
        let expected = [
            answer(65, 0, entry),
            answer(68, 0, report),
            answer(69, 23, Values::Nothing),
        ];
        assert_eq!(answers, expected);
        assert_eq!(rest.len(), 13);
    }
}
