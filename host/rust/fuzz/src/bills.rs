//! Bytes as a day and its bill, on the book and ring of `typed`: intervals and lines are the bytes' difference from valid and right ones, so
//! that zeros are a right bill.

use crate::bytes::Bytes;
use crate::pages::{Pages, Slice};
use crate::typed::{flows, lengths, numbers, small, Kept};
use compare::bills::judgement;
use compare::typed::told;
use independent::bill::{amount, Bill, Judgement, Lines};
use independent::interval::Interval;

/// Intervals of a day at most.
const MOST: u8 = 6;

/// An interval that differs from the next one, at no price and without marks, by the bytes; of the lengths that the book asks for.
fn interval(kept: &Kept, bytes: &mut Bytes, turn: u32) -> Interval {
    let (regions, prices, ..) = lengths(kept.book.raw());
    let (number, links) = (
        kept.book.entries().wrapping_add(turn),
        flows(kept.book.raw()),
    );
    Interval {
        number: number ^ small(bytes),
        kind: bytes.byte(),
        prices: numbers(bytes, prices),
        marks: numbers(bytes, regions)
            .iter()
            .map(|&mark| mark as u8)
            .collect(),
        flows: numbers(bytes, links),
        factors: numbers(bytes, links)
            .iter()
            .map(|&factor| 10_000 ^ factor as u32)
            .collect(),
    }
}

/// The records of some intervals, in which a byte may differ, and some bytes behind them; none by a book that writes none.
fn records(kept: &Kept, bytes: &mut Bytes) -> Vec<u8> {
    let mut records = Vec::new();
    for turn in 0..bytes.byte() % (MOST + 1) {
        let interval = interval(kept, bytes, turn.into());
        let mut buffer = [0; guxhamole::MOST_INTERVAL];
        let length = kept.paper.write_interval(&interval, &mut buffer);
        records.extend(&buffer[..length.unwrap_or(0)]);
    }
    let (place, length) = (bytes.u16(), records.len().max(1));
    if let Some(byte) = records.get_mut(usize::from(place) % length) {
        *byte ^= bytes.byte();
    }
    let behind = usize::from(bytes.byte() % 16);
    records.extend(bytes.part(behind));
    records
}

/// Lines that differ from right ones by the bytes.
fn lines(kept: &Kept, bytes: &mut Bytes, bill: &Bill) -> Lines {
    let mut lines = Lines::default();
    let (mut book, mut ring) = (kept.paper.clone(), kept.ring.clone());
    let (regions, prices, ..) = lengths(kept.book.raw());
    let links = flows(kept.book.raw());
    let (mut at, energy_at) = (0, bill.region as usize * (prices / regions.max(1)));
    while at < bill.records.len() {
        let mut interval = Interval {
            number: 0,
            kind: 0,
            prices: vec![0; prices],
            marks: vec![0; regions],
            flows: vec![0; links],
            factors: vec![0; links],
        };
        let Ok(next) = book.read_interval(&bill.records, at, &mut interval) else {
            break;
        };
        let (entry, mut table) = (interval.with(&bill.schedule), vec![0; prices]);
        if book.enter(&mut ring, &entry, &mut table).is_err() {
            break;
        }
        let (energy, price) = (small(bytes), table.get(energy_at).copied().unwrap_or(0));
        lines.numbers.push(entry.number ^ small(bytes));
        lines.energy.push(energy);
        lines.prices.push(price ^ small(bytes) as i32);
        lines
            .amounts
            .push(amount(energy, price) ^ i64::from(small(bytes)));
        at = next;
    }
    lines.numbers.resize(bytes.length(lines.numbers.len()), 0);
    lines.energy.resize(bytes.length(lines.energy.len()), 0);
    lines.prices.resize(bytes.length(lines.prices.len()), 0);
    lines.amounts.resize(bytes.length(lines.amounts.len()), 0);
    lines
}

impl Kept {
    /// A bill, lent about the book's lengths: what it is to be counted as, and the number that both answer.
    pub fn bill(&self, room: &mut [Pages], bytes: &mut Bytes, at_end: bool) -> (&'static str, u32) {
        let (.., schedule) = lengths(self.book.raw());
        let mut bill = Bill {
            region: small(bytes),
            records: records(self, bytes),
            schedule: vec![0; bytes.length(schedule)],
            lines: Lines::default(),
        };
        let scheduled = numbers(bytes, bill.schedule.len());
        bill.schedule.copy_from_slice(&scheduled);
        bill.lines = lines(self, bytes, &bill);
        let mut ring = self.ring.clone();
        ring.resize(bytes.length(ring.len()), 0);
        let work = vec![-1; bytes.length(self.ring.len())];
        self.check(room, at_end, &bill, &ring, work)
    }

    /// One check by both, of slices between forbidden pages.
    fn check(
        &self,
        room: &mut [Pages],
        at_end: bool,
        bill: &Bill,
        ring: &[i32],
        mut work: Vec<i32>,
    ) -> (&'static str, u32) {
        let [one, two, three, four, rest @ ..] = room else {
            unreachable!("four slices at least")
        };
        let (lent_ring, lent_work) = (one.hold(ring, at_end), two.hold(&work, at_end));
        let records = three.hold(&bill.records, at_end);
        let schedule = four.hold(&bill.schedule, at_end);
        let mut lending = Lending::of(rest, at_end, &bill.lines);
        let checked = self.book.check_bill(
            lent_ring.lent,
            lent_work.lent,
            records.lent,
            schedule.lent,
            bill.region,
            lending.lines(),
        );
        let checked = told(checked).map(judgement);
        let expected = self.paper.check_bill(ring, &mut work, bill);
        assert_eq!(checked, expected, "{bill:?}");
        assert!(lent_work.holds(&work), "second ring");
        let stay = lent_ring.holds(ring)
            && records.holds(&bill.records)
            && schedule.holds(&bill.schedule)
            && lending.holds(&bill.lines);
        assert!(stay, "what the bill lends");
        match expected {
            Ok(Judgement::Wrong(_)) => ("wrong bill", 0),
            answer => ("bill", answer.err().map_or(0, |refusal| refusal.number)),
        }
    }
}

/// The lines, each slice between its own pages.
struct Lending<'a> {
    numbers: Slice<'a, u32>,
    energy: Slice<'a, u32>,
    prices: Slice<'a, i32>,
    amounts: Slice<'a, i64>,
}

impl<'a> Lending<'a> {
    fn of(room: &'a mut [Pages], at_end: bool, lines: &Lines) -> Lending<'a> {
        let [one, two, three, four, ..] = room else {
            unreachable!("four slices at least")
        };
        Lending {
            numbers: one.hold(&lines.numbers, at_end),
            energy: two.hold(&lines.energy, at_end),
            prices: three.hold(&lines.prices, at_end),
            amounts: four.hold(&lines.amounts, at_end),
        }
    }

    fn lines(&mut self) -> guxhamole::Lines<'_> {
        guxhamole::Lines {
            numbers: self.numbers.lent,
            energy: self.energy.lent,
            prices: self.prices.lent,
            amounts: self.amounts.lent,
        }
    }

    fn holds(&self, lines: &Lines) -> bool {
        self.numbers.holds(&lines.numbers)
            && self.energy.holds(&lines.energy)
            && self.prices.holds(&lines.prices)
            && self.amounts.holds(&lines.amounts)
    }
}
