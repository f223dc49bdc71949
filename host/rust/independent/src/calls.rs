//! The calls of a list L with their arguments, and their answers.

use crate::image::Kind;
use crate::ledger::{Entry, Ledger, Report};
use crate::rules::Refusal;

/// A call of L. Of a ring its length alone is told.
#[derive(Clone, Debug, PartialEq, Eq)]
pub enum Call {
    /// An entry, the lent ring's length and the table as it was lent.
    Entry(Entry, usize, Vec<i32>),
    Threshold(i64),
    Limits(i32, i32),
    Report(u32, u32),
    /// The image's kind, the buffer's length and the other ring's.
    Restart(Kind, usize, usize),
}

/// "Compared, for each call of L: acceptance, or refusal with its place; an entry's count and published table; a
/// report's four numbers."
#[derive(Clone, Debug, PartialEq, Eq)]
pub struct Answer {
    pub number: u32,
    pub place: u32,
    pub values: Values,
}

/// The values beside number and place: zeros, and the table as it was lent, for a refused call.
#[derive(Clone, Debug, PartialEq, Eq)]
pub enum Values {
    Nothing,
    Entry(u32, Vec<i32>),
    Report(Report),
}

impl Ledger {
    /// Takes one call of L. "a refused call leaves P and the lent table as they were and answers zeros beside number and
    /// place"
    pub fn call(&mut self, call: &Call) -> Answer {
        match call {
            Call::Entry(entry, ring_length, lent) => {
                let mut table = lent.clone();
                let result = self.enter(*ring_length, entry.clone(), &mut table);
                answer(result, 0, |count| Values::Entry(count, table))
            }
            Call::Threshold(threshold) => {
                answer(self.set_threshold(*threshold), (), |()| Values::Nothing)
            }
            Call::Limits(cap, floor) => {
                answer(self.set_limits(*cap, *floor), (), |()| Values::Nothing)
            }
            Call::Report(region, market) => {
                answer(self.report(*region, *market), ZEROS, Values::Report)
            }
            Call::Restart(kind, buffer_length, ring_length) => {
                let result = self.restart(*kind, *buffer_length, *ring_length);
                answer(result, (), |()| Values::Nothing)
            }
        }
    }
}

/// A refused report's numbers.
const ZEROS: Report = Report {
    sum: 0,
    counted: 0,
    mark: 0,
    entries: 0,
};

/// "Any call on a book: 10, it is closed".
pub fn closed_answer(call: &Call) -> Answer {
    let values = match call {
        Call::Entry(_, _, lent) => Values::Entry(0, lent.clone()),
        Call::Report(..) => Values::Report(ZEROS),
        _ => Values::Nothing,
    };
    Answer {
        number: 10,
        place: 0,
        values,
    }
}

fn answer<T>(result: Result<T, Refusal>, zeros: T, values: impl FnOnce(T) -> Values) -> Answer {
    match result {
        Ok(value) => Answer {
            number: 0,
            place: 0,
            values: values(value),
        },
        Err(Refusal { number, place }) => Answer {
            number,
            place,
            values: values(zeros),
        },
    }
}
