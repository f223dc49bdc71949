//! Twins played through the crate `guxhamole`: before the first call and after every one a report of each of the region's markets;
//! and what is said where these differ.

use crate::cutting::shortest_twins;
use crate::lent::Memory;
use crate::twins::{heard, List, Told, Twins};
use crate::typed::{Difference, Pair};
use generator::{calls, lists};
use guxhamole::raw;
use independent::image::Fields;
use independent::{Answer, Call, Report, Values};
use std::fmt::Write;

/// Reports of each of a region's markets.
pub type Reports = Vec<Report>;

/// A list that was played: every answer; and before the first call and after every one the book and the region's reports.
pub struct Played {
    pub answers: Vec<Answer>,
    pub books: Vec<raw::Book>,
    pub reports: Vec<Reports>,
}

impl Played {
    /// Plays a list whole, or says in what the compiled book and the independent one differ.
    pub fn of(list: &List, region: usize) -> Result<Played, Difference> {
        let ring = calls::ring_length(&list.opening);
        let memory = Memory::with_any_contents(list.memory);
        let begun = match list.loaded {
            true => Pair::load_in(memory, &Fields::blank(&list.opening).bytes(), ring)?,
            false => Pair::open_in(memory, &list.opening, ring)?,
        };
        let mut pair = begun.map_err(|refusal| format!("a refused start: {refusal:?}"))?;
        let mut played = Played {
            answers: Vec::new(),
            books: vec![*pair.kept().0],
            reports: vec![reports(&mut pair, region)?],
        };
        for call in &list.calls {
            played.answers.push(pair.call(call)?);
            played.books.push(*pair.kept().0);
            played.reports.push(reports(&mut pair, region)?);
        }
        Ok(played)
    }

    /// Both lists of twins.
    pub fn both(twins: &Twins) -> Result<[Played; 2], Difference> {
        let [one, other] = &twins.lists;
        Ok([
            Played::of(one, twins.region)?,
            Played::of(other, twins.region)?,
        ])
    }
}

fn reports(pair: &mut Pair, region: usize) -> Result<Reports, Difference> {
    let markets = 0..=pair.kept().0.services.into();
    let report = |market| {
        let answer = pair.call(&Call::Report(region as u32, market))?;
        match (answer.number, answer.values) {
            (0, Values::Report(report)) => Ok(report),
            answer => Err(format!("a report's answer: {answer:?}")),
        }
    };
    markets.map(report).collect()
}

/// What both lists of twins tell the region, by the compiled book's answers.
pub fn heard_by(twins: &Twins, played: &[Played; 2]) -> [Vec<Told>; 2] {
    [0, 1].map(|which| heard(&twins.lists[which], &played[which].answers, twins.region))
}

/// Whether what the request supposes holds: "books opened alike", and the region told the same at every place, which says too that
/// "the same kinds of call" are "accepted in the same places".
pub fn supposed(twins: &Twins, played: &[Played; 2]) -> bool {
    let [one, other] = heard_by(twins, played);
    twins.opened_alike() && one == other
}

/// After how many calls reports differ first.
pub fn first_difference(one: &[Reports], other: &[Reports]) -> Option<usize> {
    one.iter().zip(other).position(|(one, other)| one != other)
}

/// Where what is supposed holds, and reports yet differ: in what.
pub fn difference(twins: &Twins) -> Option<Difference> {
    let played = match Played::both(twins) {
        Ok(played) => played,
        Err(what) => return Some(what),
    };
    let [one, other] = &played;
    let place = first_difference(&one.reports, &other.reports)?;
    let markets = one.reports[place].iter().zip(&other.reports[place]);
    let differing: Vec<_> = markets
        .enumerate()
        .filter(|(_, (one, other))| one != other)
        .collect();
    supposed(twins, &played)
        .then(|| format!("the reports after {place} calls, by market: {differing:?}"))
}

/// Says the shortest twins found by cutting that show a difference, as `shows` finds it.
pub fn differs(twins: &Twins, shows: impl Fn(&Twins) -> Option<Difference>) -> ! {
    let short = shortest_twins(twins, |twins| shows(twins).is_some());
    let [first, last] = [twins, &short].map(|twins| shows(twins).unwrap_or_default());
    panic!(
        "isolation: a difference in {first}\nshortest: in {last}\n{}",
        described(&short)
    );
}

/// Twins in words, a line a call, those of one place together.
pub fn described(twins: &Twins) -> String {
    let [one, other] = &twins.lists;
    let mut text = format!("region {}\n", twins.region);
    for list in [one, other] {
        let opening = records::Record::Opening(lists::opening_record(&list.opening));
        let by = if list.loaded { "the image of an " } else { "" };
        let _ = writeln!(text, "{by}{opening}, memory from {:#x}", list.memory);
    }
    for (place, calls) in one.calls.iter().zip(&other.calls).enumerate() {
        let [one, other] = [calls.0, calls.1].map(|call| lists::call_record(call.clone()));
        let _ = writeln!(text, "{place}: {one}\n{place}: {other}");
    }
    text
}
