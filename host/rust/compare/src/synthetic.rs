//! Draws of a test load through the crate `guxhamole` beside the independent one: every answer, everything that is lent, what lies
//! beside it, and that an entry takes what was drawn.

use crate::intervals::{compiled, Lending};
use crate::typed::{same, told, verdict, Difference};
use generator::draws::Drawing;
use guxhamole::{raw, Book};
use independent::book::Book as Paper;
use independent::interval::Interval;
use independent::ledger::Entry;
use independent::rules::{Shape, MOST_ENTRIES};
use independent::Refusal;

/// What a draw that is accepted gives.
#[derive(Clone, Debug, PartialEq, Eq)]
pub struct Drawn {
    pub seed: u32,
    pub interval: Interval,
}

/// One draw by all three: the independent one, the crate's method, and the C face, whose values are zeros when refused. The book stays.
pub fn try_draw(drawing: &Drawing) -> Result<Result<Drawn, Refusal>, Difference> {
    let Drawing { book, seed, lent } = drawing;
    let mut interval = lent.clone();
    let expected = book.synthetic(*seed, &mut interval);
    let kept = Book::from_raw(compiled(book));
    let mut lending = Lending::of(lent);
    let drawn = kept.synthetic(*seed, lent.number, lent.kind, lending.slices_mut());
    let drawn = told(drawn).map(|drawn| (drawn.seed, drawn.number, drawn.day_kind));
    let wanted = expected.map(|seed| (seed, lent.number, lent.kind));
    if drawn != wanted {
        return Err(format!(
            "answer: {drawn:?}, the independent one: {wanted:?}"
        ));
    }
    same(lending.holds(&interval), "slices")?;
    same(*kept.raw() == compiled(book), "book")?;
    let mut again = Lending::of(lent);
    let (number, kind, slices) = (lent.number, lent.kind, again.slices_mut());
    let face = raw::synthetic(compiled(book), *seed, number, kind, slices);
    same(face == told_by_c(&wanted), "C answer")?;
    same(again.holds(&interval), "slices of the C face")?;
    if expected.is_ok() {
        taken(book, &interval, (*seed % 2) as u8)?;
    }
    Ok(expected.map(|seed| Drawn { seed, interval }))
}

/// Last s, number and day kind as the C face answers them.
fn told_by_c(wanted: &Result<(u32, u32, u8), Refusal>) -> raw::Drawn {
    let (seed, entry, day_kind) = wanted.unwrap_or((0, 0, 0));
    raw::Drawn {
        number: verdict(wanted).0,
        seed,
        entry,
        day_kind: day_kind.into(),
    }
}

/// "For every seed and size this must pass an entry's checks on prices, marks and factors": the compiled book takes what was drawn as its
/// next entry, over a ring of its length, unless it has taken as many as it can.
fn taken(book: &Paper, interval: &Interval, day_kind: u8) -> Result<(), Difference> {
    let mut kept = Book::from_raw(compiled(book));
    let (mut ring, mut table) = (vec![0; kept.ring_length()], vec![0; kept.prices_length()]);
    let entry = guxhamole::Entry {
        number: book.entries,
        day_kind,
        prices: &interval.prices,
        marks: &interval.marks,
        flows: &interval.flows,
        factors: &interval.factors,
        schedule: &vec![0; kept.schedule_length()],
    };
    let full = book.entries == MOST_ENTRIES;
    match kept.enter(&mut ring, entry, &mut table) {
        Err(guxhamole::Refusal::Full) if full => Ok(()),
        Err(refusal) => Err(format!("the entry of what was drawn: {refusal}")),
        Ok(_) => same(!full, "the entry over a full book"),
    }
}

/// One draw; a difference prints it.
pub fn draw(drawing: &Drawing) -> Result<Drawn, Refusal> {
    try_draw(drawing).unwrap_or_else(|what| {
        let Drawing { book, seed, lent } = drawing;
        panic!("drawing from {seed} differs in {what}\n{lent:?}\n{book:?}")
    })
}

/// What was drawn as an entry, the schedule full of zeros.
pub fn entry(shape: &Shape, interval: &Interval) -> Entry {
    Entry {
        number: interval.number,
        kind: interval.kind,
        prices: interval.prices.clone(),
        marks: interval.marks.clone(),
        flows: interval.flows.clone(),
        factors: interval.factors.clone(),
        schedule: vec![0; shape.schedule()],
    }
}
