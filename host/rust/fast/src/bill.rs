//! A retailer's bill, request 2026-09 of document 02: one pass over the day's records and the lines beside them. Quotations are document
//! 02's.

use crate::book::{unless, Book, Refusal, LINKS, MARKETS, REGIONS};
use crate::entry::Entry;
use crate::interval::IntervalMut;

/// A bill's lines, "in four slices of one length".
#[derive(Clone, Copy, Debug)]
pub struct Lines<'a> {
    pub numbers: &'a [u32],
    pub energy: &'a [u32],
    pub prices: &'a [i32],
    pub amounts: &'a [i64],
}

/// "say yes …. Otherwise give the first wrong line, counted from 0".
#[derive(Clone, Copy, Debug, PartialEq, Eq)]
pub enum Judgement {
    Right,
    Wrong(usize),
}

/// "46: kilowatt-hours above 1,000,000,000"
const MOST_ENERGY: u32 = 1_000_000_000;

/// "kilowatt-hours × price / 1,000 rounded half away from zero"; a product of 32 bits each is within 64.
#[inline]
fn amount(energy: u32, price: i32) -> i64 {
    let product = i64::from(energy) * i64::from(price);
    let magnitude = ((product.unsigned_abs() + 500) / 1_000) as i64;
    if product < 0 {
        -magnitude
    } else {
        magnitude
    }
}

impl Lines<'_> {
    fn even(&self) -> bool {
        let lengths = [self.energy.len(), self.prices.len(), self.amounts.len()];
        lengths == [self.numbers.len(); 3]
    }

    /// Whether a line is there, and is what an interval of this number and published price asks for.
    #[inline]
    fn met(&self, line: usize, number: u32, price: i32) -> bool {
        line < self.numbers.len()
            && self.numbers[line] == number
            && self.prices[line] == price
            && self.amounts[line] == amount(self.energy[line], price)
    }

    /// 46 "with the line", which is looked for only where there is one.
    fn check_energy(&self) -> Result<(), Refusal> {
        let most = self.energy.iter().fold(0, |most, &some| some.max(most));
        if most <= MOST_ENERGY {
            return Ok(());
        }
        let line = self.energy.iter().position(|&some| some > MOST_ENERGY);
        Err(Refusal {
            number: 46,
            place: line.unwrap_or(0) as u32,
        })
    }
}

/// How many intervals a day had, and the first line that wasn't one's.
struct Played {
    intervals: usize,
    wrong: Option<usize>,
}

impl Book {
    /// 10, 11 and 21; then "a second ring … is made a copy of the book's", the refusals "of the records and entries, taken interval by
    /// interval", and 46.
    pub fn check_bill(
        &self,
        ring: &[i32],
        work: &mut [i32],
        records: &[u8],
        schedule: &[i32],
        region: u32,
        lines: Lines,
    ) -> Result<Judgement, Refusal> {
        unless(self.valid(), 10)?;
        let places = self.ring_length();
        let fits = ring.len() == places
            && work.len() == places
            && schedule.len() == self.prices() * 2 * usize::from(self.halves)
            && lines.even();
        unless(fits, 11)?;
        unless(region < u32::from(self.regions), 21)?;
        work.copy_from_slice(ring);
        let energy = region as usize * self.markets();
        let day = self.clone().play(work, records, schedule, energy, &lines)?;
        lines.check_energy()?;
        Ok(match day.wrong {
            Some(line) => Judgement::Wrong(line),
            None if lines.numbers.len() > day.intervals => Judgement::Wrong(day.intervals),
            None => Judgement::Right,
        })
    }

    /// Reads and enters every interval, and looks at its line. Only a sum can leave its bound from one to the next, over a ring that others
    /// changed.
    fn play(
        mut self,
        ring: &mut [i32],
        records: &[u8],
        schedule: &[i32],
        energy: usize,
        lines: &Lines,
    ) -> Result<Played, Refusal> {
        let (regions, places, links) = (usize::from(self.regions), self.prices(), self.links());
        let (mut prices, mut table) = ([0; REGIONS * MARKETS], [0; REGIONS * MARKETS]);
        let (mut marks, mut flows, mut factors) = ([0; REGIONS], [0; LINKS], [0; LINKS]);
        let (mut at, mut intervals, mut wrong) = (0, 0, None);
        while at < records.len() {
            unless(intervals == 0 || self.markets_valid(), 10)?;
            let interval = IntervalMut {
                prices: &mut prices[..places],
                marks: &mut marks[..regions],
                flows: &mut flows[..links],
                factors: &mut factors[..links],
            };
            let found = self.read_lent(records, at, interval)?;
            let entry = Entry {
                number: found.number,
                kind: found.kind,
                prices: &prices[..places],
                marks: &marks[..regions],
                flows: &flows[..links],
                factors: &factors[..links],
                schedule,
            };
            self.enter_lent(ring, &entry, &mut table[..places])?;
            if wrong.is_none() && !lines.met(intervals, found.number, table[energy]) {
                wrong = Some(intervals);
            }
            (intervals, at) = (intervals + 1, found.next);
        }
        Ok(Played { intervals, wrong })
    }
}
