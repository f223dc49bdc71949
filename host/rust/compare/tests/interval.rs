//! "One interval" against "The ledger machine": document 01 words the book twice. Here the first wording, with running
//! windows, period marks from step to step and limits by two sweeps over the tree, is held to the ledger; where an additional link may
//! close a ring, limits go over every candidate route instead.

use compare::links::{routes, Energy, Reading};
use compare::{rounds, say};
use generator::{calls, images, Random};
use independent::ledger::Entry;
use independent::rules::{Settings, Shape};
use independent::{Call, Ledger, Values};
use std::collections::VecDeque;

/// A book that moves from entry to entry.
struct Running {
    shape: Shape,
    settings: Settings,
    position: usize,
    entries: u32,
    windows: Vec<VecDeque<i32>>,
    sums: Vec<i64>,
    marks: Vec<bool>,
}

/// Ten-thousandths of a cent, in which limits are carried, that make a cent.
const CENT: i64 = 10_000;

/// Nearest, half away from zero, by shifting half the divisor.
fn divide(dividend: i64, divisor: i64) -> i64 {
    (2 * dividend.abs() + divisor) / (2 * divisor) * dividend.signum()
}

/// The lesser of two limits, if there are any; floors are held negated.
fn lesser(one: Option<i64>, other: Option<i64>) -> Option<i64> {
    match (one, other) {
        (Some(one), Some(other)) => Some(one.min(other)),
        (one, other) => one.or(other),
    }
}

impl Running {
    fn new(ledger: &Ledger) -> Running {
        let shape = *ledger.shape();
        Running {
            shape,
            settings: ledger.settings(),
            position: ledger.position(),
            entries: 0,
            windows: vec![VecDeque::new(); shape.prices()],
            sums: vec![0; shape.prices()],
            marks: vec![false; shape.prices()],
        }
    }

    /// Step 1.
    fn effective(&self, entry: &Entry) -> Vec<i64> {
        let (cap, floor) = (i64::from(self.settings.cap), i64::from(self.settings.floor));
        let markets = self.shape.markets();
        let mut effective: Vec<i64> = entry.prices.iter().map(|&price| price.into()).collect();
        for (place, price) in effective.iter_mut().enumerate() {
            let lowest = if place % markets == 0 { floor } else { 0 };
            if entry.marks[place / markets] == 1 {
                let row = (2 * place + usize::from(entry.kind)) * self.shape.halves;
                *price = i64::from(entry.schedule[row + self.position / 6]).clamp(lowest, cap);
            }
        }
        effective
    }

    /// Steps 1 to 6 of an entry that is accepted: the table and the count of changed prices. Energy that was worked out over routes takes
    /// the place of what the sweeps would make of it.
    fn enter(&mut self, entry: &Entry, by_routes: Option<Vec<i128>>) -> (Vec<i32>, u32) {
        let (cap, floor) = (i64::from(self.settings.cap), i64::from(self.settings.floor));
        let (regions, markets) = (self.shape.regions, self.shape.markets());
        let effective = self.effective(entry);
        let mut table = effective.clone();
        let mut caps = vec![None; regions];
        let mut floors = vec![None; regions];
        for region in 0..regions {
            let row = region * markets..(region + 1) * markets;
            let energy = region * markets;
            if self.marks[energy] {
                table[energy] = table[energy].clamp(floor, cap);
                caps[region] = (effective[energy] >= cap).then_some(cap * CENT);
                floors[region] = (effective[energy] <= floor).then_some(-floor * CENT);
            }
            if self.marks[row.clone()].contains(&true) {
                for service in &mut table[row][1..] {
                    *service = (*service).min(cap);
                }
            }
        }
        self.sweep(entry, &mut caps, &mut floors);
        for region in 0..regions {
            let energy = &mut table[region * markets];
            let cents = |limit: Option<i64>| limit.map_or(i64::MAX, |units| divide(units, CENT));
            *energy = match &by_routes {
                Some(energies) => energies[region] as i64,
                None => (*energy)
                    .min(cents(caps[region]))
                    .max(-cents(floors[region])),
            };
        }
        self.join_windows(entry);
        let changed = table
            .iter()
            .zip(&effective)
            .filter(|(one, other)| one != other);
        let count = changed.count() as u32;
        (table.iter().map(|&price| price as i32).collect(), count)
    }

    /// Step 4 by two sweeps: children to parents from the last region down, then parents to children.
    fn sweep(&self, entry: &Entry, caps: &mut [Option<i64>], floors: &mut [Option<i64>]) {
        let order: Vec<usize> = (0..self.shape.regions).collect();
        for (region, upward) in order
            .iter()
            .rev()
            .map(|&region| (region, true))
            .chain(order.iter().map(|&region| (region, false)))
        {
            let Some(parent) = self.shape.parent(region) else {
                continue;
            };
            let (flow, factor) = (entry.flows[region], i64::from(entry.factors[region]));
            let (from, to) = match flow.signum() {
                1 => (region, parent),
                -1 => (parent, region),
                _ => continue,
            };
            let target = if upward { parent } else { region };
            if target == from {
                let given = caps[to].map(|cap| divide(cap * 10_000, factor));
                caps[from] = lesser(caps[from], given);
            } else {
                let given = floors[from].map(|floor| divide(floor * factor, 10_000));
                floors[to] = lesser(floors[to], given);
            }
        }
    }

    /// Steps 5 and 6.
    fn join_windows(&mut self, entry: &Entry) {
        let last = self.position + 1 == self.shape.day();
        for place in 0..self.shape.prices() {
            if entry.marks[place / self.shape.markets()] == 0 {
                let window = &mut self.windows[place];
                if window.len() == self.shape.window {
                    self.sums[place] -= i64::from(window.pop_front().unwrap_or(0));
                }
                window.push_back(entry.prices[place]);
                self.sums[place] += i64::from(entry.prices[place]);
            }
            if self.sums[place] > self.settings.threshold {
                self.marks[place] = true;
            } else if last {
                self.marks[place] = false;
            }
        }
        self.position = (self.position + 1) % self.shape.day();
        self.entries += 1;
    }

    fn agrees(&self, ledger: &Ledger) {
        for place in 0..self.shape.prices() {
            let (region, market) = (place / self.shape.markets(), place % self.shape.markets());
            let report = ledger.report(region as u32, market as u32);
            let report = report.expect("a used market");
            let running = (
                self.sums[place],
                self.windows[place].len() as u32,
                u32::from(self.marks[place]),
                self.entries,
            );
            let told = (report.sum, report.counted, report.mark, report.entries);
            assert_eq!(running, told, "region {region}, market {market}");
        }
    }
}

/// How many markets are administered by the second marks and not by the first.
fn changes(was: &[bool], is: &[bool]) -> u64 {
    let pairs = was.iter().zip(is);
    pairs.filter(|(was, is)| !**was && **is).count() as u64
}

/// The energy prices of an accepted call's entry, if the book has an additional link.
fn by_routes(ledger: &Ledger, call: &Call, candidates: &[Vec<Vec<usize>>]) -> Option<Vec<i128>> {
    let shape = ledger.shape();
    match call {
        Call::Entry(entry, ..) if shape.link.is_some() => {
            let routes = &candidates[shape.regions];
            Some(Energy::of(ledger, entry).published(Reading::Right, entry, routes))
        }
        _ => None,
    }
}

#[test]
fn one_interval_is_the_ledger_machine() {
    let candidates: Vec<_> = (0..=8).map(routes).collect();
    let (mut entries, mut changed, mut linked, mut ringed) = (0u64, 0u64, 0u64, 0u64);
    let (mut begun, mut ended) = (0u64, 0u64);
    for round in 0..rounds() {
        let mut random = Random::new(0xA_0000 + round);
        for _ in 0..2_500 {
            let mut ledger = images::begun(&mut random);
            let mut running = Running::new(&ledger);
            for _ in 0..random.between(1, 50) {
                let call = calls::call(&mut random, &ledger);
                let before = ledger.clone();
                let answer = ledger.call(&call);
                if answer.number != 0 {
                    continue;
                }
                match (&call, answer.values) {
                    (Call::Entry(entry, ..), Values::Entry(count, table)) => {
                        let by_routes = by_routes(&before, &call, &candidates);
                        let before = running.marks.clone();
                        ringed += u64::from(by_routes.is_some() && count > 0);
                        assert_eq!(running.enter(entry, by_routes), (table, count), "{entry:?}");
                        entries += 1;
                        changed += u64::from(count > 0);
                        linked += u64::from(entry.flows.iter().any(|&flow| flow != 0) && count > 0);
                        begun += changes(&before, &running.marks);
                        ended += changes(&running.marks, &before);
                    }
                    (Call::Threshold(threshold), _) => running.settings.threshold = *threshold,
                    (Call::Limits(cap, floor), _) => {
                        (running.settings.cap, running.settings.floor) = (*cap, *floor);
                    }
                    _ => {}
                }
            }
            running.agrees(&ledger);
        }
    }
    say(&format!(
        "interval: {entries} entries, {changed} with changed prices ({linked} with flows, {ringed} with an additional link), {begun} periods begun, {ended} ended"
    ));
    assert!(changed >= 2_000 && ringed >= 1_000 && begun >= 2_000 && ended >= 2_000);
}
