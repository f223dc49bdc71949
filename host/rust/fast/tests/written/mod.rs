//! Lists of calls and their answers as the bytes of docs/RECORDS.md, and a run of `replay` over them.

use independent::ledger::Entry;
use independent::{Answer, Call, Opening, Values};

/// Puts a record together: its length and kind, then its fields.
fn record(kind: u16, fields: &[&[u8]]) -> Vec<u8> {
    let fields = fields.concat();
    let length = 6 + fields.len() as u32;
    [&length.to_le_bytes()[..], &kind.to_le_bytes(), &fields].concat()
}

fn signed(numbers: &[i32]) -> Vec<u8> {
    numbers.iter().flat_map(|n| n.to_le_bytes()).collect()
}

fn unsigned(numbers: &[u32]) -> Vec<u8> {
    numbers.iter().flat_map(|n| n.to_le_bytes()).collect()
}

/// The opening's record, if its settings are numbers that the record has room for.
pub fn opening(opening: &Opening) -> Option<Vec<u8>> {
    let regions = u8::try_from(opening.regions).ok()?;
    let services = u8::try_from(opening.services).ok()?;
    let window = u16::try_from(opening.window).ok()?;
    let halves = u8::try_from(opening.halves).ok()?;
    let first = u16::try_from(opening.first).ok()?;
    Some(record(
        64,
        &[
            &[regions, services],
            &window.to_le_bytes(),
            &[halves, 0],
            &first.to_le_bytes(),
            &opening.parents,
            &opening.threshold.to_le_bytes(),
            &opening.cap.to_le_bytes(),
            &opening.floor.to_le_bytes(),
        ],
    ))
}

fn entry(entry: &Entry, ring: usize, table: &[i32]) -> Vec<u8> {
    let lengths = [
        entry.prices.len(),
        entry.marks.len(),
        entry.flows.len(),
        entry.factors.len(),
        entry.schedule.len(),
        table.len(),
        ring,
    ];
    record(
        65,
        &[
            &entry.number.to_le_bytes(),
            &[entry.kind, 0],
            &unsigned(&lengths.map(|length| length as u32)),
            &signed(&entry.prices),
            &entry.marks,
            &signed(&entry.flows),
            &unsigned(&entry.factors),
            &signed(&entry.schedule),
            &signed(table),
        ],
    )
}

pub fn call(call: &Call) -> Vec<u8> {
    match call {
        Call::Entry(e, ring, table) => entry(e, *ring, table),
        Call::Threshold(threshold) => record(66, &[&threshold.to_le_bytes()]),
        Call::Limits(cap, floor) => record(67, &[&signed(&[*cap, *floor])]),
        Call::Report(region, market) => record(68, &[&unsigned(&[*region, *market])]),
        Call::Restart(..) => record(69, &[]),
    }
}

/// The answer to a call, or to the opening where there is none.
pub fn answer(call: Option<&Call>, answer: &Answer) -> Vec<u8> {
    let kind = match call {
        None => 64,
        Some(Call::Entry(..)) => 65,
        Some(Call::Threshold(..)) => 66,
        Some(Call::Limits(..)) => 67,
        Some(Call::Report(..)) => 68,
        Some(Call::Restart(..)) => 69,
    };
    let values = match &answer.values {
        Values::Nothing => Vec::new(),
        Values::Entry(count, table) => [unsigned(&[*count]), signed(table)].concat(),
        Values::Report(report) => [
            report.sum.to_le_bytes().to_vec(),
            unsigned(&[report.counted, report.mark, report.entries]),
        ]
        .concat(),
    };
    record(kind, &[&unsigned(&[answer.number, answer.place]), &values])
}

/// The lengths of what is lent to `replay`.
#[derive(Clone, Copy, Debug)]
pub struct Lent {
    pub answers: usize,
    pub ring: usize,
    pub other: usize,
    pub image: usize,
    pub numbers: usize,
    pub factors: usize,
    pub table: usize,
}

/// Plays calls. Slices are lent full of numbers that no call wrote; the bytes after the answers must stay.
pub fn replay(calls: &[u8], lent: &Lent) -> Vec<u8> {
    let mut answers = vec![0xA5; lent.answers];
    let written = fast::replay(
        calls,
        &mut answers,
        &mut vec![77; lent.ring],
        &mut vec![78; lent.other],
        &mut vec![79; lent.image],
        &mut vec![80; lent.numbers],
        &mut vec![81; lent.factors],
        &mut vec![82; lent.table],
    );
    assert!(answers[written..].iter().all(|&byte| byte == 0xA5));
    answers.truncate(written);
    answers
}
