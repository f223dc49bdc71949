//! "Holding a retailer's bill against the rules", request 2026-09 of document 02, whose words are quoted here: the day is played interval
//! by interval, on the ledger that keeps the whole history or on a book and its ring, what each of them publishes is kept, and then the
//! lines are looked at one after the other.

use crate::book::Book;
use crate::interval::{interval_at, Interval};
use crate::ledger::{Entry, Ledger};
use crate::rounding::half_away;
use crate::rules::*;

/// "46: kilowatt-hours above 1,000,000,000"
pub const MOST_ENERGY: u32 = 1_000_000_000;

/// "number, kilowatt-hours, published energy price, amount, in four slices".
#[derive(Clone, Debug, Default, PartialEq, Eq)]
pub struct Lines {
    pub numbers: Vec<u32>,
    pub energy: Vec<u32>,
    pub prices: Vec<i32>,
    pub amounts: Vec<i64>,
}

/// "the day's records, one schedule, a region and the lines"
#[derive(Clone, Debug, PartialEq, Eq)]
pub struct Bill {
    pub records: Vec<u8>,
    pub schedule: Vec<i32>,
    pub region: u32,
    pub lines: Lines,
}

/// "say yes …. Otherwise give the first wrong line, counted from 0".
#[derive(Clone, Copy, Debug, PartialEq, Eq)]
pub enum Judgement {
    Right,
    Wrong(usize),
}

/// What an interval asks of its line: its number and "the published one", of the prices that its entry's table has.
struct Due {
    number: u32,
    price: i32,
}

/// "kilowatt-hours × price / 1,000 rounded half away from zero"
pub fn amount(energy: u32, price: i32) -> i64 {
    half_away(i128::from(energy) * i128::from(price), 1_000) as i64
}

impl Lines {
    /// "four slices of one length"
    fn even(&self) -> bool {
        let lengths = [self.energy.len(), self.prices.len(), self.amounts.len()];
        lengths == [self.numbers.len(); 3]
    }

    /// Whether a line is there and is what the interval asks for.
    fn met(&self, line: usize, due: &Due) -> bool {
        line < self.numbers.len()
            && self.numbers[line] == due.number
            && self.prices[line] == due.price
            && self.amounts[line] == amount(self.energy[line], due.price)
    }

    /// 46 "with the line"; then yes, "exactly when there is one line an interval in order", each of them met, or "the first wrong line, …
    /// the missing or surplus one included".
    fn judged(&self, dues: &[Due]) -> Result<Judgement, Refusal> {
        if let Some(line) = self.energy.iter().position(|&some| some > MOST_ENERGY) {
            return Err(refusal_at(46, line));
        }
        let unmet = (0..dues.len()).find(|&line| !self.met(line, &dues[line]));
        Ok(match unmet {
            Some(line) => Judgement::Wrong(line),
            None if self.numbers.len() > dues.len() => Judgement::Wrong(dues.len()),
            None => Judgement::Right,
        })
    }
}

/// What a day is played on: it reads intervals, and takes them as entries.
trait Plays {
    fn read(&self, records: &[u8], at: usize) -> Result<(Interval, usize), Refusal>;
    fn take(&mut self, entry: Entry, table: &mut [i32]) -> Result<u32, Refusal>;
}

/// The ledger, which never meets 10. Of rings it is told the length alone.
impl Plays for Ledger {
    fn read(&self, records: &[u8], at: usize) -> Result<(Interval, usize), Refusal> {
        interval_at(self.shape(), records, at)
    }

    fn take(&mut self, entry: Entry, table: &mut [i32]) -> Result<u32, Refusal> {
        self.enter(self.shape().ring(), entry, table)
    }
}

/// A book over the second ring.
struct Kept<'a> {
    book: Book,
    ring: &'a mut [i32],
}

impl Plays for Kept<'_> {
    /// The reader's 10 comes first, whatever stands at the place.
    fn read(&self, records: &[u8], at: usize) -> Result<(Interval, usize), Refusal> {
        self.book.sound()?;
        interval_at(&self.book.shape(), records, at)
    }

    fn take(&mut self, entry: Entry, table: &mut [i32]) -> Result<u32, Refusal> {
        self.book.enter(self.ring, &entry, table)
    }
}

impl Bill {
    /// 11, of the two rings, the schedule and the lines; then 21.
    fn fits(&self, shape: &Shape, ring: usize, work: usize) -> Result<(), Refusal> {
        let lengths_right = ring == shape.ring()
            && work == shape.ring()
            && self.schedule.len() == shape.schedule()
            && self.lines.even();
        unless(lengths_right, 11)?;
        unless((self.region as usize) < shape.regions, 21)
    }

    /// "all refusals of the records and entries, taken interval by interval, of which 15 to 17 give the place within their own entry":
    /// every interval is read and entered, and then the lines are judged.
    fn played(&self, shape: &Shape, on: &mut impl Plays) -> Result<Judgement, Refusal> {
        let energy = shape.place(self.region as usize, 0);
        let (mut at, mut dues) = (0, Vec::new());
        while at < self.records.len() {
            let (interval, next) = on.read(&self.records, at)?;
            let entry = interval.with(&self.schedule);
            let (number, mut table) = (entry.number, vec![0; shape.prices()]);
            on.take(entry, &mut table)?;
            dues.push(Due {
                number,
                price: table[energy],
            });
            at = next;
        }
        self.lines.judged(&dues)
    }
}

impl Interval {
    /// The entry with a schedule.
    pub fn with(self, schedule: &[i32]) -> Entry {
        Entry {
            number: self.number,
            kind: self.kind,
            prices: self.prices,
            marks: self.marks,
            flows: self.flows,
            factors: self.factors,
            schedule: schedule.to_vec(),
        }
    }
}

impl Ledger {
    /// Judges a bill for the book that this ledger stands for, over rings of these lengths. Beside the answer it gives the ledger that the
    /// accepted entries lead to.
    pub fn check_bill(
        &self,
        ring: usize,
        work: usize,
        bill: &Bill,
    ) -> (Result<Judgement, Refusal>, Ledger) {
        let mut after = self.clone();
        let fits = bill.fits(self.shape(), ring, work);
        let answer = fits.and_then(|()| bill.played(self.shape(), &mut after));
        (answer, after)
    }
}

impl Book {
    /// "The lent book isn't altered; work goes on in a second ring, which, once 10, 11 and 21 pass, is made a copy of the book's and holds,
    /// after a refusal too …, what the entries accepted till then made of it."
    pub fn check_bill(
        &self,
        ring: &[i32],
        work: &mut [i32],
        bill: &Bill,
    ) -> Result<Judgement, Refusal> {
        self.sound()?;
        let shape = self.shape();
        bill.fits(&shape, ring.len(), work.len())?;
        work.copy_from_slice(ring);
        let mut kept = Kept {
            book: self.clone(),
            ring: work,
        };
        bill.played(&shape, &mut kept)
    }
}
