//! Openings and lists of calls over small books, so that windows fill and days end often.

use crate::questions::staying;
use crate::random::Random;
use crate::ties;
use independent::ledger::Entry;
use independent::publishing::publish;
use independent::rules::{ends_allowed, Settings, Shape, NO_END, NO_PARENT};
use independent::{Call, Kind, Ledger, Opening};

/// How many of a hundred openings get an additional link (request 2026-10 of document 02), where two regions are left for one.
const LINKED: usize = 40;

/// The ring length that an opening with small settings asks for.
pub fn ring_length(opening: &Opening) -> usize {
    let markets = u64::from(opening.services) + 1;
    let length = u64::from(opening.regions)
        .saturating_mul(markets)
        .saturating_mul(opening.window.into());
    length.min(1 << 40) as usize
}

/// Limits: the guide's, small ones at which rounding shows, the least and the most, and those that tie.
pub fn limits(random: &mut Random) -> (i32, i32) {
    let cap = match random.chance(50) {
        true => ties::cap(random),
        false => random.pick(&[60_000, 60_000, 60_001, 1, 2, 7, 10_000_000]),
    };
    let floor = match random.chance(50) {
        true => ties::floor(random),
        false => random.pick(&[-60_000, -60_000, -60_001, -1, -2, -7, -10_000_000]),
    };
    (cap, floor)
}

/// The least threshold, of which every other one is a multiple; only an image may hold others.
const HUNDRED: i64 = 10_000;

/// The highest threshold.
const HIGHEST: i64 = 100_000_000_000;

/// A threshold to open with, that windows of a few prices pass often, or a bound of its range.
fn threshold(random: &mut Random, cap: i32) -> i64 {
    match random.below(10) {
        0 => HUNDRED,
        1 => HIGHEST,
        2 => 9 * HUNDRED,
        _ => HUNDRED * random.between(1, 1 + 3 * i64::from(cap) / HUNDRED),
    }
}

/// A threshold that an image may hold, likewise.
pub fn held_threshold(random: &mut Random, cap: i32) -> i64 {
    match random.below(10) {
        0 => random.pick(&[1, 2, HUNDRED - 1]),
        1 => random.pick(&[HIGHEST - 1, HIGHEST - HUNDRED, HIGHEST]),
        2 => 95_000,
        3 | 4 => threshold(random, cap),
        _ => random.between(1, 3 * i64::from(cap)),
    }
}

/// A keying slip: a threshold beside a multiple, half a multiple from it, or with a digit too few.
fn slip(random: &mut Random, threshold: i64) -> i64 {
    let beside = match random.below(6) {
        0 | 1 => random.pick(&[-1, 1]),
        2 | 3 => random.pick(&[-5_000, 5_000]),
        4 => return threshold / 10,
        _ => random.pick(&[-1_000, 1_000, 100, 2_500, 9_000]),
    };
    threshold.saturating_add(beside)
}

/// The regions' parents: mostly any lower ones, else those before them, so that limits go over many links.
pub fn parents(random: &mut Random, regions: u32) -> [u8; 8] {
    let mut parents = [NO_PARENT; 8];
    let in_a_row = random.chance(40);
    let linkable = parents.iter_mut().enumerate().take(regions as usize);
    for (region, parent) in linkable.skip(1) {
        if in_a_row {
            *parent = region as u8 - 1;
        } else if random.chance(85) {
            *parent = random.below(region) as u8;
        }
    }
    parents
}

/// A valid opening: R 1..8, S 0..10, W mostly 1..6, H mostly 1..3.
pub fn opening(random: &mut Random) -> Opening {
    let regions = if random.chance(75) {
        random.between(1, 4)
    } else {
        random.between(1, 8)
    } as u32;
    let services = if random.chance(75) {
        random.between(0, 2)
    } else {
        random.between(0, 10)
    } as u32;
    let window = match random.below(20) {
        0 => random.between(7, 40),
        1 => random.pick(&[2_015, 2_016]),
        _ => random.between(1, 6),
    } as u32;
    let halves = match random.below(20) {
        0 => random.pick(&[47, 48]),
        _ => random.between(1, 3),
    } as u32;
    let parents = parents(random, regions);
    let (cap, floor) = limits(random);
    let opening = Opening {
        regions,
        services,
        window,
        halves,
        first: random.below(6 * halves as usize) as u32,
        parents,
        from: NO_END,
        to: NO_END,
        threshold: threshold(random, cap),
        cap,
        floor,
    };
    maybe_linked(random, opening)
}

/// The opening with or without an additional link, whichever it had: for openings whose regions or parents were changed.
pub fn maybe_linked(random: &mut Random, opening: Opening) -> Opening {
    if random.chance(LINKED) {
        return linked(random, opening);
    }
    unlinked(opening)
}

/// The opening without an additional link.
pub fn unlinked(opening: Opening) -> Opening {
    Opening {
        from: NO_END,
        to: NO_END,
        ..opening
    }
}

/// The opening with an additional link between any two regions not already linked, in either order, whether or not it closes a ring;
/// without one where all are.
pub fn linked(random: &mut Random, opening: Opening) -> Opening {
    let ends = good_ends(&opening);
    let (from, to) = match ends.len() {
        0 => (NO_END, NO_END),
        _ => random.pick(&ends),
    };
    Opening {
        from,
        to,
        ..opening
    }
}

/// Every pair of ends that an opening's additional link may have.
pub fn good_ends(opening: &Opening) -> Vec<(u8, u8)> {
    let regions = 0..opening.regions as u8;
    let pairs = regions
        .clone()
        .flat_map(|from| regions.clone().map(move |to| (from, to)));
    let good = |&(from, to): &(u8, u8)| ends_allowed(from, to, &opening.parents, opening.regions);
    pairs.filter(good).collect()
}

/// The opening with ends that are mostly refused by 20: one of them none, one past the regions, both the same, or two that are linked.
pub fn with_any_ends(random: &mut Random, opening: Opening) -> Opening {
    let regions = opening.regions as u8;
    let menu = [0, 1, regions.wrapping_sub(1), regions, 8, 254, NO_END];
    let (mut from, mut to) = (random.pick(&menu), random.pick(&menu));
    if random.chance(30) {
        let child = random.below(8);
        (from, to) = (child as u8, opening.parents[child]);
    }
    if random.chance(50) {
        (from, to) = (to, from);
    }
    Opening {
        from,
        to,
        ..opening
    }
}

/// A kind of image that a book can be stored by.
pub fn image_kind(random: &mut Random, shape: &Shape) -> Kind {
    match shape.link {
        None => random.pick(&Kind::ALL),
        Some(_) => Kind::Two,
    }
}

/// An opening and a ring length, often with one, two or three settings at or past a bound.
pub fn damaged_opening(random: &mut Random) -> (Opening, usize) {
    let mut opening = opening(random);
    let mut ring = ring_length(&opening);
    for _ in 0..random.between(0, 3) {
        match random.below(9) {
            0 => opening.regions = random.pick(&[0, 1, 8, 9, 255, u32::MAX]),
            1 => opening.services = random.pick(&[0, 10, 11, 255, u32::MAX]),
            2 => opening.window = random.pick(&[0, 1, 2_016, 2_017, u32::MAX]),
            3 => {
                opening.halves = random.pick(&[0, 1, 48, 49, 255, u32::MAX]);
                ring = ring_length(&opening);
            }
            4 => {
                let day = opening.halves.wrapping_mul(6);
                let (last, past) = (day.wrapping_sub(1), day.wrapping_add(1));
                opening.first = random.pick(&[0, last, day, past, u32::MAX]);
            }
            5 => {
                let region = random.below(8);
                let bytes = [0, region as u8, (region + 1) as u8, 7, 8, 254, NO_PARENT];
                opening.parents[region] = random.pick(&bytes);
            }
            6 => opening.threshold = wrong_threshold(random, opening.threshold),
            7 => (opening.cap, opening.floor) = any_limits(random),
            _ => {
                ring = random.pick(&[0, 1, ring.wrapping_add(1), ring.wrapping_sub(1), usize::MAX])
            }
        }
        if random.chance(70) {
            ring = ring_length(&opening);
        }
    }
    if random.chance(20) {
        opening = with_any_ends(random, opening);
    }
    (opening, ring)
}

/// An opening whose threshold and limits alone are at or past a bound, or whose threshold is a slip.
pub fn damaged_settings(random: &mut Random) -> Opening {
    let mut opening = opening(random);
    if random.chance(70) {
        opening.threshold = wrong_threshold(random, opening.threshold);
    }
    if random.chance(60) {
        (opening.cap, opening.floor) = any_limits(random);
    }
    opening
}

/// A threshold at or past every bound, multiples and others.
fn any_threshold(random: &mut Random) -> i64 {
    match random.below(3) {
        0 => random.pick(&[i64::MIN, -95_000, -HUNDRED, -1, 0, i64::MAX]),
        1 => random.pick(&[1, 5_000, HUNDRED - 1, HUNDRED, HUNDRED + 1]),
        _ => HIGHEST + random.pick(&[-HUNDRED, -1, 0, 1, 5_000, HUNDRED]),
    }
}

/// A threshold that is mostly refused: by a slip, or around the bounds.
fn wrong_threshold(random: &mut Random, threshold: i64) -> i64 {
    match random.chance(40) {
        true => slip(random, threshold),
        false => any_threshold(random),
    }
}

fn any_limits(random: &mut Random) -> (i32, i32) {
    let most = 10_000_000;
    let cap = random.pick(&[i32::MIN, -1, 0, 1, most, most + 1, i32::MAX, 60_000]);
    let floor = random.pick(&[i32::MIN, -most - 1, -most, -1, 0, 1, i32::MAX, -60_000]);
    (cap, floor)
}

/// A valid price: around the limits, around the threshold's share of a window and what the sum lacks to meet it, the bounds, or anything
/// between.
fn price(random: &mut Random, ledger: &Ledger, region: usize, market: usize) -> i32 {
    let settings = ledger.settings();
    let share = settings.threshold / ledger.shape().window as i64;
    let most = 10_000_000i64;
    let (cap, floor) = (i64::from(settings.cap), i64::from(settings.floor));
    let nearby = random.between(-1, 1);
    let price = match random.below(13) {
        0 => nearby,
        1 | 2 => cap + nearby,
        3 | 4 => floor + nearby,
        5 | 6 => share + nearby,
        7 | 8 => settings.threshold - staying(ledger, region, market, 1) + nearby,
        9 => most + nearby,
        10 => -most + nearby,
        11 => random.between(-most, most),
        _ => random.between(2 * floor, 2 * cap),
    };
    let price = price.clamp(-most, most) as i32;
    if market == 0 {
        price
    } else {
        price.abs()
    }
}

/// Any number, often a bound of what is allowed or one past it.
pub fn any_number(random: &mut Random) -> i32 {
    let most = 10_000_000;
    let menu = [i32::MIN, -most - 1, -1, 0, 1, most + 1, i32::MAX];
    if random.chance(50) {
        random.pick(&menu)
    } else {
        random.word() as i32
    }
}

/// Energy prices of a whole entry, for limits that bind: all of them beyond the cap, one alone and the others not above 0, all of
/// them beyond the floor, or each of its own.
#[derive(Clone, Copy, Debug, PartialEq, Eq)]
enum Energy {
    High,
    OneHigh(usize),
    Low,
    Any,
}

impl Energy {
    /// One high price where no energy is administered; low ones, mostly, where some is, since its own floor is nearer than those that
    /// reach it; high ones where all is.
    fn of(random: &mut Random, ledger: &Ledger) -> Energy {
        let regions = ledger.shape().regions;
        let reports = (0..regions).map(|region| ledger.report(region as u32, 0));
        let marks: u32 = reports
            .map(|report| report.map_or(0, |report| report.mark))
            .sum();
        match random.below(10) {
            0..=3 => Energy::Any,
            _ if marks == 0 => Energy::OneHigh(random.below(regions)),
            4 => Energy::Low,
            _ if marks == regions as u32 => Energy::High,
            5 => Energy::High,
            _ => Energy::Low,
        }
    }

    /// A region's valid price. Seven links make a floor 128 times as low.
    fn price(self, random: &mut Random, ledger: &Ledger, region: usize) -> i32 {
        let settings = ledger.settings();
        let most = 10_000_000;
        let price = match self {
            Energy::Any => return price(random, ledger, region, 0),
            Energy::OneHigh(one) if one != region => random.between(-1, 0),
            Energy::Low => i64::from(settings.floor) * random.pick(&[1, 8, 129, 129]),
            _ => random
                .pick(&[settings.cap, settings.cap.saturating_add(1), most, most])
                .into(),
        };
        price.clamp(-i64::from(most), most.into()) as i32
    }
}

/// Prices, half of them wild where a mark is.
fn prices(random: &mut Random, ledger: &Ledger, marks: &[u8], energy: Energy) -> Vec<i32> {
    let mut prices = Vec::new();
    for (region, &mark) in marks.iter().enumerate() {
        for market in 0..ledger.shape().markets() {
            prices.push(if mark == 1 && random.chance(50) {
                any_number(random)
            } else if market == 0 {
                energy.price(random, ledger, region)
            } else {
                price(random, ledger, region, market)
            });
        }
    }
    prices
}

/// Factors, half of them wild where a region has no parent: of half of the entries those that tie, else from the range's ends, the
/// guide's or any.
fn factors(random: &mut Random, ledger: &Ledger, energy: Energy) -> Vec<u32> {
    let Settings { cap, floor, .. } = ledger.settings();
    let limits = match energy {
        Energy::Any => [cap, floor],
        Energy::Low => [floor; 2],
        Energy::High | Energy::OneHigh(_) => [cap; 2],
    };
    let ties = random.chance(50).then(|| ties::factors(random, &limits));
    let mut factors = Vec::new();
    let shape = ledger.shape();
    for place in 0..shape.flows() {
        let linked = place == shape.regions || shape.parent(place).is_some();
        factors.push(match &ties {
            _ if !linked && random.chance(50) => random.pick(&[0, 9_999, 20_001, u32::MAX]),
            Some(route) => route[(place + route.len() - 1) % route.len()],
            None => match random.below(4) {
                0 => random.pick(&[10_000, 20_000, 15_000, 10_001, 19_999]),
                1 => 11_000,
                _ => random.between(10_000, 20_000) as u32,
            },
        });
    }
    factors
}

/// Flows: each of its own, or all one way, so that limits go over every link.
fn flows(random: &mut Random, places: usize) -> Vec<i32> {
    let menu = [1, 1, 1, -1, -1, -1, 0, i32::MIN, i32::MAX, 437];
    match random.below(4) {
        0 => vec![1; places],
        1 => vec![-1; places],
        _ => (0..places).map(|_| random.pick(&menu)).collect(),
    }
}

/// Moves energy prices to those that the entry publishes, or a cent beside them: where a limit just binds, or just does not.
fn draw_near(random: &mut Random, ledger: &Ledger, entry: &mut Entry) {
    let (shape, settings) = (ledger.shape(), ledger.settings());
    let market = |place| {
        (
            (place / shape.markets()) as u32,
            (place % shape.markets()) as u32,
        )
    };
    let reports = (0..shape.prices()).map(|place| ledger.report(market(place).0, market(place).1));
    let administered: Vec<bool> = reports
        .map(|report| report.is_ok_and(|report| report.mark == 1))
        .collect();
    let published = publish(shape, &settings, ledger.position(), &administered, entry);
    for region in 0..shape.regions {
        let energy = shape.place(region, 0);
        if entry.marks[region] == 0 && random.chance(60) {
            let nearby = published.table[energy] + random.between(-1, 1) as i32;
            entry.prices[energy] = nearby.clamp(-10_000_000, 10_000_000);
        }
    }
}

/// A valid entry, with wild numbers where they are not looked at.
pub fn entry(random: &mut Random, ledger: &Ledger) -> Entry {
    let shape = *ledger.shape();
    let settings = ledger.settings();
    let suspension = random.pick(&[0, 0, 0, 30, 100]);
    let marks: Vec<u8> = (0..shape.regions)
        .map(|_| random.chance(suspension).into())
        .collect();
    let energy = Energy::of(random, ledger);
    let prices = prices(random, ledger, &marks, energy);
    let factors = factors(random, ledger, energy);
    let flows = flows(random, shape.flows());
    let schedule = (0..shape.schedule())
        .map(|_| match random.below(6) {
            0 => any_number(random),
            1 => settings.cap.saturating_add(random.between(-1, 1) as i32),
            2 => settings.floor.saturating_sub(random.between(-1, 1) as i32),
            _ => random.between(-100_000, 100_000) as i32,
        })
        .collect();
    let mut entry = Entry {
        number: ledger.entries_taken(),
        kind: random.below(2) as u8,
        prices,
        marks,
        flows,
        factors,
        schedule,
    };
    if random.chance(15) {
        draw_near(random, ledger, &mut entry);
    }
    entry
}

/// A slice made one longer, one shorter or empty.
fn resize<T: Copy>(random: &mut Random, slice: &mut Vec<T>, spare: T) {
    match random.below(3) {
        0 => slice.push(spare),
        1 => {
            slice.pop();
        }
        _ => slice.clear(),
    }
}

/// Damages an entry call: up to three things at once, so that the order of refusals shows.
fn damage(random: &mut Random, entry: &mut Entry, ring: &mut usize, table: &mut Vec<i32>) {
    let only_lengths = random.chance(25);
    let rounds = random.between(1, 3);
    for _ in 0..rounds {
        let what = random.below(if only_lengths { 7 } else { 12 });
        if what < 7 && !only_lengths && random.chance(80) {
            continue;
        }
        match what {
            0 => resize(random, &mut entry.prices, 0),
            1 => resize(random, &mut entry.marks, 0),
            2 => resize(random, &mut entry.flows, 0),
            3 => resize(random, &mut entry.factors, 10_000),
            4 => resize(random, &mut entry.schedule, 0),
            5 => resize(random, table, 0),
            6 => *ring = random.pick(&[0, *ring + 1, ring.saturating_sub(1), 2 * *ring]),
            7 => {
                let next = entry.number;
                let menu = [next.wrapping_sub(1), next.wrapping_add(1), 0, u32::MAX];
                entry.number = random.pick(&menu);
            }
            8 => entry.kind = random.pick(&[2, 3, 255]),
            9 => {
                if let Some(place) = any_place(random, entry.marks.len()) {
                    entry.marks[place] = random.pick(&[2, 3, 254, 255]);
                }
            }
            10 => {
                if let Some(place) = any_place(random, entry.prices.len()) {
                    let menu = [-1, 10_000_001, -10_000_001, i32::MIN, i32::MAX];
                    entry.prices[place] = random.pick(&menu);
                }
            }
            _ => {
                if let Some(place) = any_place(random, entry.factors.len()) {
                    entry.factors[place] = random.pick(&[0, 9_999, 20_001, u32::MAX]);
                }
            }
        }
    }
}

fn any_place(random: &mut Random, length: usize) -> Option<usize> {
    (length > 0).then(|| random.below(length))
}

/// The next call of a list that has led to this ledger.
pub fn call(random: &mut Random, ledger: &Ledger) -> Call {
    match random.below(100) {
        0..=54 => any_entry(random, ledger),
        55..=66 => Call::Threshold(next_threshold(random, ledger)),
        67..=72 => next_limits(random),
        73..=86 => any_report(random, ledger),
        _ => restart(random, ledger),
    }
}

/// An entry call, damaged once in five times.
pub fn any_entry(random: &mut Random, ledger: &Ledger) -> Call {
    let shape = *ledger.shape();
    let mut entry = entry(random, ledger);
    let mut ring = shape.ring();
    let mut table: Vec<i32> = (0..shape.prices()).map(|_| any_number(random)).collect();
    if random.chance(20) {
        damage(random, &mut entry, &mut ring, &mut table);
    }
    Call::Entry(entry, ring, table)
}

/// Limits as they are set, or at and past every bound.
pub fn next_limits(random: &mut Random) -> Call {
    let (cap, floor) = if random.chance(50) {
        limits(random)
    } else {
        any_limits(random)
    };
    Call::Limits(cap, floor)
}

/// A report, mostly of a used market.
pub fn any_report(random: &mut Random, ledger: &Ledger) -> Call {
    let shape = *ledger.shape();
    let (regions, markets) = (shape.regions as u32, shape.markets() as u32);
    let unused = [0, regions, markets, 8, 11, u32::MAX];
    if random.chance(70) {
        let region = random.below(shape.regions) as u32;
        Call::Report(region, random.below(shape.markets()) as u32)
    } else {
        Call::Report(random.pick(&unused), random.pick(&unused))
    }
}

/// A threshold around a market's sum, as the report gives it: mostly the next multiple below it or above it, else a slip, the sum
/// itself, or one around the bounds.
pub fn next_threshold(random: &mut Random, ledger: &Ledger) -> i64 {
    let shape = ledger.shape();
    let region = random.below(shape.regions) as u32;
    let market = random.below(shape.markets()) as u32;
    let report = ledger.report(region, market);
    let sum = report.map(|report| report.sum).unwrap_or(1);
    let multiple = HUNDRED * (sum.div_euclid(HUNDRED) + random.between(0, 1));
    match random.below(12) {
        0 => any_threshold(random),
        1 | 2 => slip(random, multiple),
        3 => sum + random.between(-1, 1),
        4 => HUNDRED * random.between(1, 20),
        5 => multiple,
        _ => multiple.max(HUNDRED),
    }
}

/// A restart: mostly a long enough buffer and the right ring, else one or both wrong.
pub fn restart(random: &mut Random, ledger: &Ledger) -> Call {
    let ring = ledger.shape().ring();
    let kind = match ledger.shape().link {
        // Refused by 47.
        Some(_) if random.chance(20) => Kind::One,
        _ => image_kind(random, ledger.shape()),
    };
    let image = ledger.image_by(kind).len();
    let buffer = if random.chance(80) {
        image + random.pick(&[0, 0, 1, 40])
    } else {
        random.pick(&[0, 147, image - 1])
    };
    let ring = if random.chance(80) {
        ring
    } else {
        random.pick(&[0, ring - 1, ring + 1])
    };
    Call::Restart(kind, buffer, ring)
}

/// A list of calls over a book, and the ledger that it leads to.
pub fn list(random: &mut Random, from: &Ledger, length: usize) -> (Vec<Call>, Ledger) {
    let mut ledger = from.clone();
    let mut calls = Vec::new();
    for _ in 0..length {
        let call = call(random, &ledger);
        ledger.call(&call);
        calls.push(call);
    }
    (calls, ledger)
}

/// A newly opened ledger of any valid shape.
pub fn opened(random: &mut Random) -> Ledger {
    let opening = opening(random);
    opened_by(&opening)
}

/// One without an additional link, as a replay's is.
pub fn opened_unlinked(random: &mut Random) -> Ledger {
    let opening = unlinked(opening(random));
    opened_by(&opening)
}

fn opened_by(opening: &Opening) -> Ledger {
    match Ledger::open(opening, ring_length(opening)) {
        Ok(ledger) => ledger,
        Err(refusal) => panic!("{opening:?} refused: {refusal:?}"),
    }
}
