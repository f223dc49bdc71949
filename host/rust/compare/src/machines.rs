//! A machine that works out one region's reports from a list's calls and whether they were accepted, right or wrong by one rule: what
//! each wrong one makes of twins shows that the comparison would notice such a book.

use crate::isolation::Reports;
use crate::twins::List;
use independent::ledger::Entry;
use independent::publishing::publish;
use independent::rules::{Settings, Shape};
use independent::{Answer, Call, Report};

/// How a machine goes by its neighbours, if at all.
#[derive(Clone, Copy, Debug, PartialEq, Eq)]
pub enum Rule {
    /// Steps 5 and 6 of document 01: not at all.
    Own,
    /// The window takes the published energy.
    PublishedJoins,
    /// The threshold is tested against the largest of all regions' sums of the same market.
    LargestSum,
    /// The end of the day releases no market while a neighbour's same one is administered.
    ReleaseWaits,
    /// Region 0's mark suspends every region.
    FirstMark,
    /// A marked region's prices join as they are published by the schedule.
    ScheduledJoins,
    /// A refused entry takes its place in the day.
    RefusedPasses,
}

/// The wrong ones, by what is wrong with them.
pub const WRONG: [(&str, Rule); 6] = [
    ("published energy joins", Rule::PublishedJoins),
    ("the largest sum is tested", Rule::LargestSum),
    ("the release waits for neighbours", Rule::ReleaseWaits),
    ("region 0's mark suspends", Rule::FirstMark),
    ("scheduled prices join", Rule::ScheduledJoins),
    ("a refused entry passes", Rule::RefusedPasses),
];

/// A market: all prices that joined its window, and whether it is administered at the next entry.
#[derive(Clone, Debug, Default)]
struct Market {
    joined: Vec<i32>,
    administered: bool,
}

impl Market {
    /// The prices that are counted.
    fn counted(&self, window: usize) -> &[i32] {
        &self.joined[self.joined.len().saturating_sub(window)..]
    }

    fn sum(&self, window: usize) -> i64 {
        self.counted(window).iter().map(|&p| i64::from(p)).sum()
    }
}

struct Machine {
    rule: Rule,
    shape: Shape,
    settings: Settings,
    position: usize,
    taken: u32,
    markets: Vec<Market>,
}

/// A region's reports before the first call of a list and after every one, by a machine of a rule.
pub fn reports(rule: Rule, list: &List, answers: &[Answer], region: usize) -> Vec<Reports> {
    let mut machine = Machine::open(rule, list);
    let mut reports = vec![machine.reports(region)];
    for (call, answer) in list.calls.iter().zip(answers) {
        match call {
            _ if answer.number != 0 => machine.refused(call),
            Call::Entry(entry, ..) => machine.enter(entry),
            Call::Threshold(threshold) => machine.settings.threshold = *threshold,
            Call::Limits(cap, floor) => {
                (machine.settings.cap, machine.settings.floor) = (*cap, *floor);
            }
            Call::Report(..) | Call::Restart(..) => {}
        }
        reports.push(machine.reports(region));
    }
    reports
}

impl Machine {
    fn open(rule: Rule, list: &List) -> Machine {
        let opening = &list.opening;
        let shape = opening.shape();
        Machine {
            rule,
            shape,
            settings: Settings {
                threshold: opening.threshold,
                cap: opening.cap,
                floor: opening.floor,
            },
            position: opening.first as usize,
            taken: 0,
            markets: vec![Market::default(); shape.prices()],
        }
    }

    fn reports(&self, region: usize) -> Reports {
        let own = (0..self.shape.markets()).map(|market| self.shape.place(region, market));
        let report = |place: usize| {
            let market = &self.markets[place];
            Report {
                sum: market.sum(self.shape.window),
                counted: market.counted(self.shape.window).len() as u32,
                mark: market.administered.into(),
                entries: self.taken,
            }
        };
        own.map(report).collect()
    }

    fn refused(&mut self, call: &Call) {
        if self.rule == Rule::RefusedPasses && matches!(call, Call::Entry(..)) {
            self.position = (self.position + 1) % self.shape.day();
        }
    }

    fn enter(&mut self, entry: &Entry) {
        let joining = self.joining(entry);
        for (market, price) in self.markets.iter_mut().zip(joining) {
            market.joined.extend(price);
        }
        let places = 0..self.markets.len();
        let next: Vec<bool> = places.map(|place| self.administered_next(place)).collect();
        let marks = self
            .markets
            .iter_mut()
            .map(|market| &mut market.administered);
        marks.zip(next).for_each(|(mark, next)| *mark = next);
        self.position = (self.position + 1) % self.shape.day();
        self.taken += 1;
    }

    /// Step 5: the price that joins each market's window, if any.
    fn joining(&self, entry: &Entry) -> Vec<Option<i32>> {
        let published = self.published(entry);
        let joins = |place: usize| {
            let region = place / self.shape.markets();
            let energy = place.is_multiple_of(self.shape.markets());
            let suspended = entry.marks[region] == 1;
            match self.rule {
                Rule::FirstMark => (entry.marks[0] == 0).then_some(entry.prices[place]),
                Rule::ScheduledJoins if suspended => Some(published[place]),
                _ if suspended => None,
                Rule::PublishedJoins if energy => Some(published[place]),
                _ => Some(entry.prices[place]),
            }
        };
        (0..self.shape.prices()).map(joins).collect()
    }

    /// Steps 1 to 4, for the rules that look at them.
    fn published(&self, entry: &Entry) -> Vec<i32> {
        if !matches!(self.rule, Rule::PublishedJoins | Rule::ScheduledJoins) {
            return Vec::new();
        }
        let administered: Vec<bool> = self.markets.iter().map(|m| m.administered).collect();
        let (shape, settings) = (&self.shape, &self.settings);
        publish(shape, settings, self.position, &administered, entry).table
    }

    /// Step 6, of the market at a place, before any market's mark changes.
    fn administered_next(&self, place: usize) -> bool {
        let market = &self.markets[place];
        let sum = |market: &Market| market.sum(self.shape.window);
        let tested = match self.rule {
            Rule::LargestSum => self.same_markets(place).map(sum).max().unwrap_or_default(),
            _ => sum(market),
        };
        let last_of_day = self.position == self.shape.day() - 1;
        let waits = self.rule == Rule::ReleaseWaits
            && self
                .same_markets(place)
                .any(|other| !std::ptr::eq(other, market) && other.administered);
        let released = last_of_day && !waits;
        tested > self.settings.threshold || (market.administered && !released)
    }

    /// The same market in every region.
    fn same_markets(&self, place: usize) -> impl Iterator<Item = &Market> {
        let markets = self.shape.markets();
        self.markets.iter().skip(place % markets).step_by(markets)
    }
}
