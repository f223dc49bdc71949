//! Twins (request 2026-05 of document 02): what a list of calls with its answers tells one region, and a second list made from a
//! first that tells the region the same, everything else redrawn.

use crate::books;
use generator::{calls, images, Random};
use independent::ledger::Entry;
use independent::rules::{in_hundreds, Shape};
use independent::Kind as ImageKind;
use independent::{Answer, Call, Ledger, Opening};
use std::ops::Range;

#[derive(Clone, Copy, Debug, PartialEq, Eq)]
pub enum Kind {
    Entry,
    Threshold,
    Limits,
    Report,
    Restart,
}

impl Kind {
    pub const ALL: [Kind; 5] = [
        Kind::Entry,
        Kind::Threshold,
        Kind::Limits,
        Kind::Report,
        Kind::Restart,
    ];

    pub fn of(call: &Call) -> Kind {
        match call {
            Call::Entry(..) => Kind::Entry,
            Call::Threshold(_) => Kind::Threshold,
            Call::Limits(..) => Kind::Limits,
            Call::Report(..) => Kind::Report,
            Call::Restart(..) => Kind::Restart,
        }
    }
}

/// A list of calls from a valid opening, or from the image of a book of its settings, over a ring of the right length. What rings and
/// buffers held before they were lent comes from a seed.
#[derive(Clone, Debug)]
pub struct List {
    pub opening: Opening,
    /// Whether the list begins with the image: "its settings standing for the opening's".
    pub loaded: bool,
    pub memory: u64,
    pub calls: Vec<Call>,
}

/// The ledger with which a list begins, which remembers what it would recompute.
fn begun(opening: &Opening, loaded: bool) -> Ledger {
    let begun = match loaded {
        true => books::begin(opening),
        false => books::open(opening),
    };
    begun.cached()
}

/// What one call tells a region.
#[derive(Clone, Debug, PartialEq, Eq)]
pub enum Told {
    /// A refused call, of whatever kind and by whatever number.
    Nothing,
    /// An entry's prices of the region's markets.
    Prices(Vec<i32>),
    /// An entry at which the region is marked: its prices are not looked at.
    Suspended,
    Threshold(i64),
    Limits,
    Report,
    Restart,
}

impl Told {
    /// By an accepted call.
    fn by(call: &Call, region: usize, markets: usize) -> Told {
        match call {
            Call::Entry(entry, ..) if entry.marks[region] == 0 => {
                Told::Prices(entry.prices[own_places(region, markets)].to_vec())
            }
            Call::Entry(..) => Told::Suspended,
            Call::Threshold(threshold) => Told::Threshold(*threshold),
            Call::Limits(..) => Told::Limits,
            Call::Report(..) => Told::Report,
            Call::Restart(..) => Told::Restart,
        }
    }
}

/// A region's places among R × M.
pub fn own_places(region: usize, markets: usize) -> Range<usize> {
    region * markets..(region + 1) * markets
}

/// What a list with its answers tells a region, call by call.
pub fn heard(list: &List, answers: &[Answer], region: usize) -> Vec<Told> {
    assert_eq!(list.calls.len(), answers.len());
    let markets = list.opening.services as usize + 1;
    let told = |(call, answer): (&Call, &Answer)| match answer.number {
        0 => Told::by(call, region, markets),
        _ => Told::Nothing,
    };
    list.calls.iter().zip(answers).map(told).collect()
}

/// "books opened alike": in all that a region's sums, counts and marks can take from an opening. R, parents, cap and floor may differ.
pub fn opened_alike(one: &Opening, other: &Opening) -> bool {
    let taken = |opening: &Opening| {
        (
            opening.services,
            opening.window,
            opening.halves,
            opening.first,
            opening.threshold,
        )
    };
    taken(one) == taken(other)
}

/// Two lists, and the region that both are to tell the same.
#[derive(Clone, Debug)]
pub struct Twins {
    pub region: usize,
    pub lists: [List; 2],
}

impl Twins {
    /// A generated list of so many calls and its twin.
    pub fn drawn(random: &mut Random, length: usize) -> Twins {
        let opening = match random.chance(70) {
            true => calls::opening(random),
            false => images::settings(random),
        };
        let loaded = any_start(random, &opening);
        let mut ledger = begun(&opening, loaded);
        let (calls, _) = calls::list(random, &ledger, length);
        let answers: Vec<Answer> = calls.iter().map(|call| ledger.call(call)).collect();
        let list = List {
            opening,
            loaded,
            memory: random.word(),
            calls,
        };
        let region = random.below(opening.regions as usize);
        let twin = twin(random, &list, &answers, region);
        let lists = [list, twin];
        Twins { region, lists }
    }

    /// Whether both books have the region and are opened alike.
    pub fn opened_alike(&self) -> bool {
        let [one, other] = &self.lists;
        let has_region = |list: &List| self.region < list.opening.regions as usize;
        has_region(one) && has_region(other) && opened_alike(&one.opening, &other.opening)
    }
}

/// A list that tells a region what this one with its answers does.
pub fn twin(random: &mut Random, list: &List, answers: &[Answer], region: usize) -> List {
    let opening = other_opening(random, &list.opening, region);
    let loaded = any_start(random, &opening);
    let mut ledger = begun(&opening, loaded);
    let mut calls = Vec::new();
    for (call, answer) in list.calls.iter().zip(answers) {
        let call = match answer.number {
            0 => accepted(random, &ledger, call, region),
            _ => refused(random, &ledger),
        };
        ledger.call(&call);
        calls.push(call);
    }
    List {
        opening,
        loaded,
        memory: random.word(),
        calls,
    }
}

/// Whether a list begins with the image: half of those that could be opened, and all that could not.
fn any_start(random: &mut Random, opening: &Opening) -> bool {
    !in_hundreds(opening.threshold) || random.chance(50)
}

/// An opening like this one with other regions, parents and limits; the region exists.
fn other_opening(random: &mut Random, like: &Opening, region: usize) -> Opening {
    let regions = match random.chance(40) {
        true => like.regions,
        false => random.between(region as i64 + 1, 8) as u32,
    };
    let (cap, floor) = calls::limits(random);
    let parents = calls::parents(random, regions);
    let other = Opening {
        regions,
        parents,
        cap,
        floor,
        ..*like
    };
    calls::maybe_linked(random, other)
}

/// A refused call of any kind.
fn refused(random: &mut Random, ledger: &Ledger) -> Call {
    let kind = random.pick(&Kind::ALL);
    drawn(random, ledger, kind, false)
}

/// An accepted call of the same kind that tells the region the same.
fn accepted(random: &mut Random, ledger: &Ledger, like: &Call, region: usize) -> Call {
    match like {
        Call::Entry(entry, ..) => {
            let entry = other_entry(random, ledger, entry, region);
            let shape = ledger.shape();
            let table = any_numbers(random, shape.prices());
            Call::Entry(entry, shape.ring(), table)
        }
        Call::Threshold(threshold) => Call::Threshold(*threshold),
        _ => drawn(random, ledger, Kind::of(like), true),
    }
}

fn any_numbers(random: &mut Random, length: usize) -> Vec<i32> {
    (0..length).map(|_| calls::any_number(random)).collect()
}

/// A valid entry with the region's mark and, where it is unmarked, its prices; a marked region's prices are often wild.
fn other_entry(random: &mut Random, ledger: &Ledger, like: &Entry, region: usize) -> Entry {
    let shape = ledger.shape();
    let own = own_places(region, shape.markets());
    let mut entry = calls::entry(random, ledger);
    if random.chance(60) {
        drive_neighbours(random, shape, &mut entry);
    }
    entry.marks[region] = like.marks[region];
    if like.marks[region] == 0 {
        entry.prices[own.clone()].copy_from_slice(&like.prices[own]);
    } else if random.chance(50) {
        let wild = any_numbers(random, own.len());
        entry.prices[own].copy_from_slice(&wild);
    }
    entry
}

/// Prices at the ends of their ranges, so that the neighbours' periods begin where those of the other list do not.
fn drive_neighbours(random: &mut Random, shape: &Shape, entry: &mut Entry) {
    let most = 10_000_000;
    for (place, price) in entry.prices.iter_mut().enumerate() {
        let lowest = if place % shape.markets() == 0 {
            -most
        } else {
            0
        };
        *price = random.pick(&[most, most, lowest]);
    }
}

/// How often a call is drawn until it is answered as wanted.
const TRIES: usize = 12;

/// A call of a kind that the ledger accepts, or one that it refuses: the first one drawn that it does, or else one that it surely does.
fn drawn(random: &mut Random, ledger: &Ledger, kind: Kind, accepted: bool) -> Call {
    for _ in 0..TRIES {
        let call = any_call(random, ledger, kind);
        if (ledger.clone().call(&call).number == 0) == accepted {
            return call;
        }
    }
    match accepted {
        true => surely_accepted(ledger, kind),
        false => surely_refused(ledger, kind),
    }
}

fn any_call(random: &mut Random, ledger: &Ledger, kind: Kind) -> Call {
    match kind {
        Kind::Entry => calls::any_entry(random, ledger),
        Kind::Threshold => Call::Threshold(calls::next_threshold(random, ledger)),
        Kind::Limits => calls::next_limits(random),
        Kind::Report => calls::any_report(random, ledger),
        Kind::Restart => calls::restart(random, ledger),
    }
}

fn surely_accepted(ledger: &Ledger, kind: Kind) -> Call {
    let shape = ledger.shape();
    let zeros = vec![0; shape.prices()];
    match kind {
        Kind::Entry => Call::Entry(books::plain(ledger, &zeros), shape.ring(), zeros),
        Kind::Threshold => Call::Threshold(10_000),
        Kind::Limits => Call::Limits(1, -1),
        Kind::Report => Call::Report(0, 0),
        Kind::Restart => Call::Restart(
            ImageKind::holding(shape),
            ledger.image().len(),
            shape.ring(),
        ),
    }
}

fn surely_refused(ledger: &Ledger, kind: Kind) -> Call {
    let zeros = vec![0; ledger.shape().prices()];
    match kind {
        Kind::Entry => Call::Entry(books::plain(ledger, &zeros), 0, zeros),
        Kind::Threshold => Call::Threshold(0),
        Kind::Limits => Call::Limits(0, 0),
        Kind::Report => Call::Report(8, 11),
        Kind::Restart => Call::Restart(ImageKind::One, 0, 0),
    }
}
