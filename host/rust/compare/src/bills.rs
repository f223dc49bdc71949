//! Bills through the crate `guxhamole` beside the independent book and ledger: every answer, the second ring whole, everything else that is
//! lent, what lies beside it, and the same day entered one interval after the other through the C face.

use crate::cutting;
use crate::intervals::compiled;
use crate::lent::Lent;
use crate::typed::{same, told, verdict, Difference};
use generator::bills::Checking;
use guxhamole::{raw, Book, IntervalMut};
use independent::bill::{Bill, Judgement};
use independent::{Kind, Ledger, Refusal};

/// What a check answers.
pub type Answer = Result<Judgement, Refusal>;

/// Copies of what a check is lent, each guarded.
struct Lending {
    ring: Lent<i32>,
    work: Lent<i32>,
    records: Lent<u8>,
    schedule: Lent<i32>,
    numbers: Lent<u32>,
    energy: Lent<u32>,
    prices: Lent<i32>,
    amounts: Lent<i64>,
}

impl Lending {
    fn of(checking: &Checking) -> Lending {
        let Bill { lines, .. } = &checking.bill;
        Lending {
            ring: Lent::of(&checking.ring),
            work: Lent::of(&checking.work),
            records: Lent::of(&checking.bill.records),
            schedule: Lent::of(&checking.bill.schedule),
            numbers: Lent::of(&lines.numbers),
            energy: Lent::of(&lines.energy),
            prices: Lent::of(&lines.prices),
            amounts: Lent::of(&lines.amounts),
        }
    }

    fn lines(&self) -> guxhamole::Lines<'_> {
        guxhamole::Lines {
            numbers: self.numbers.slice(),
            energy: self.energy.slice(),
            prices: self.prices.slice(),
            amounts: self.amounts.slice(),
        }
    }

    /// The check by the crate's method.
    fn check(&mut self, book: &Book, region: u32) -> Result<guxhamole::Judgement, Refusal> {
        let mut work = self.work.clone();
        let (ring, records, schedule) = (&self.ring, &self.records, &self.schedule);
        let checked = book.check_bill(
            ring.slice(),
            work.slice_mut(),
            records.slice(),
            schedule.slice(),
            region,
            self.lines(),
        );
        self.work = work;
        told(checked)
    }

    /// The check by the C face.
    fn bill(&mut self, book: raw::Book, region: u32) -> raw::Billed {
        let mut work = self.work.clone();
        let (ring, records, schedule) = (&self.ring, &self.records, &self.schedule);
        let billed = raw::bill(
            book,
            ring.slice(),
            work.slice_mut(),
            records.slice(),
            schedule.slice(),
            region,
            self.lines(),
        );
        self.work = work;
        billed
    }

    /// "the only lent memory that one may change": everything but the second ring stays, whatever is answered.
    fn stays(&self, checking: &Checking) -> Result<(), Difference> {
        let Bill { lines, .. } = &checking.bill;
        same(self.ring.holds(&checking.ring), "ring")?;
        same(self.records.holds(&checking.bill.records), "records")?;
        same(self.schedule.holds(&checking.bill.schedule), "schedule")?;
        let kept = self.numbers.holds(&lines.numbers)
            && self.energy.holds(&lines.energy)
            && self.prices.holds(&lines.prices)
            && self.amounts.holds(&lines.amounts);
        same(kept, "lines")
    }

    /// The second ring, whole, and the guards about it.
    fn worked(&self, expected: &[i32]) -> Result<(), Difference> {
        if self.work.holds(expected) {
            return Ok(());
        }
        let (found, guarded) = (self.work.slice(), self.work.guarded());
        let place = (0..expected.len()).find(|&place| found[place] != expected[place]);
        let of = |ring: &[i32]| place.map(|place| ring[place]);
        Err(format!(
            "second ring at {place:?}: {:?}, the independent one: {:?}, guards stand: {guarded}",
            of(found),
            of(expected)
        ))
    }
}

/// One check by the independent book, the crate's method and the C face, whose values are zeros when refused; and by the day entered one
/// interval after the other, unless 10, 11 or 21 refused it before. The book stays.
pub fn try_check(checking: &Checking) -> Result<(Answer, Option<Entered>), Difference> {
    let Checking { book, bill, .. } = checking;
    let mut work = checking.work.clone();
    let expected = book.check_bill(&checking.ring, &mut work, bill);
    let kept = Book::from_raw(compiled(book));
    let mut lending = Lending::of(checking);
    let checked = lending.check(&kept, bill.region).map(judgement);
    if checked != expected {
        return Err(format!(
            "answer: {checked:?}, the independent book's: {expected:?}"
        ));
    }
    lending.worked(&work)?;
    lending.stays(checking)?;
    same(*kept.raw() == compiled(book), "book")?;
    let mut again = Lending::of(checking);
    let face = again.bill(compiled(book), bill.region);
    if face != told_by_c(&expected) {
        return Err(format!("C answer: {face:?}, of {expected:?}"));
    }
    again.worked(&work)?;
    again.stays(checking)?;
    if first_refusals(&expected, checking) {
        return Ok((expected, None));
    }
    let entered = entered_alike(checking, &expected, &work)?;
    Ok((expected, Some(entered)))
}

/// A compiled judgement as the independent ones say theirs.
pub fn judgement(told: guxhamole::Judgement) -> Judgement {
    match told {
        guxhamole::Judgement::Right => Judgement::Right,
        guxhamole::Judgement::Wrong(line) => Judgement::Wrong(line),
    }
}

/// Number, place, yes and line as the C face answers them.
fn told_by_c(expected: &Answer) -> raw::Billed {
    let (number, place) = verdict(expected);
    let (right, line) = match expected {
        Ok(Judgement::Right) => (1, 0),
        Ok(Judgement::Wrong(line)) => (0, *line as u64),
        Err(_) => (0, 0),
    };
    raw::Billed {
        number,
        place,
        right,
        line,
    }
}

/// Whether a check was refused "once 10, 11 and 21" are tested, before anything is written.
pub fn first_refusals(answer: &Answer, checking: &Checking) -> bool {
    match answer {
        Err(Refusal { number: 10, .. }) => checking.book.fault().is_some(),
        Err(refusal) => [11, 21].contains(&refusal.number),
        Ok(_) => false,
    }
}

/// A day that was entered through the C face.
pub struct Entered {
    book: raw::Book,
    ring: Vec<i32>,
    /// The number and place that refused an interval, or zeros.
    refused: (u32, u64),
}

/// The day's records, read and entered one interval after the other on a copy of book and ring.
fn enter(checking: &Checking) -> Entered {
    let mut entered = Entered {
        book: compiled(&checking.book),
        ring: checking.ring.clone(),
        refused: (0, 0),
    };
    let (records, mut at) = (&checking.bill.records, 0);
    while at < records.len() {
        match entered.next(records, at, &checking.bill.schedule) {
            Ok(next) => at = next,
            Err(refused) => {
                entered.refused = refused;
                break;
            }
        }
    }
    entered
}

impl Entered {
    /// Reads and enters the interval at a place: the place after it, or number and place of the refusal.
    fn next(&mut self, records: &[u8], at: usize, schedule: &[i32]) -> Result<usize, (u32, u64)> {
        let regions = usize::from(self.book.regions);
        let all = regions * (usize::from(self.book.services) + 1);
        let (mut prices, mut marks) = (vec![0; all], vec![0; regions]);
        let links = guxhamole::flows_length(regions, self.book.from);
        let (mut flows, mut factors) = (vec![0; links], vec![0; links]);
        let slices = IntervalMut {
            prices: &mut prices,
            marks: &mut marks,
            flows: &mut flows,
            factors: &mut factors,
        };
        let found = raw::interval_read(self.book, records, at, slices);
        if found.number != 0 {
            return Err((found.number, 0));
        }
        let entry = guxhamole::Entry {
            number: found.entry,
            day_kind: found.day_kind as u8,
            prices: &prices,
            marks: &marks,
            flows: &flows,
            factors: &factors,
            schedule,
        };
        let entered = raw::enter(self.book, &mut self.ring, entry, &mut vec![0; all]);
        if entered.number != 0 {
            return Err((entered.number, entered.place));
        }
        self.book = entered.book;
        Ok(found.next as usize)
    }
}

/// "what the entries accepted till then made of it": the second ring is the one that the entries left, and what refused one of them refused
/// the bill.
fn entered_alike(
    checking: &Checking,
    answer: &Answer,
    work: &[i32],
) -> Result<Entered, Difference> {
    let entered = enter(checking);
    same(entered.ring == work, "ring of the entries one by one")?;
    let refused = match answer {
        Err(Refusal { number: 46, .. }) => (0, 0),
        _ => verdict(answer),
    };
    if entered.refused != refused {
        return Err(format!(
            "refusal of the entries one by one: {:?}, the bill's: {refused:?}",
            entered.refused
        ));
    }
    Ok(entered)
}

/// One check of a book and ring of any contents.
pub fn check(checking: &Checking) -> Answer {
    checked(checking).0
}

/// Likewise, with what entering the day one by one led to; a difference prints the check, with the shortest records found by cutting.
fn checked(checking: &Checking) -> (Answer, Option<Entered>) {
    try_check(checking).unwrap_or_else(|what| {
        let cut = |records: &[u8]| {
            let mut cut = checking.clone();
            cut.bill.records = records.to_vec();
            cut
        };
        let differs = |records: &[u8]| try_check(&cut(records)).is_err();
        let short = match checking.bill.records.len() {
            0..20_000 => cut(&cutting::shortest(&checking.bill.records, differs)),
            _ => checking.clone(),
        };
        let what = try_check(&short).err().unwrap_or(what);
        let ring = &short.ring[..short.ring.len().min(200)];
        let Checking { book, bill, .. } = &short;
        let (region, lines) = (bill.region, &bill.lines);
        let (records, length) = (&bill.records, short.ring.len());
        panic!("a bill differs in {what}\nregion {region}, {lines:?}\nrecords {records:02x?}\nring of {length} {ring:?}\n{book:?}")
    })
}

/// One check of a list's book, by its ledger too; the entries then lead the compiled book where they lead the ledger.
pub fn check_listed(ledger: &Ledger, checking: &Checking) -> Answer {
    let (answer, entered) = checked(checking);
    let (ring, work) = (checking.ring.len(), checking.work.len());
    let (expected, after) = ledger.check_bill(ring, work, &checking.bill);
    assert_eq!(answer, expected, "the ledger's answer: {checking:?}");
    if let Some(entered) = entered {
        let book = Book::from_raw(entered.book);
        let mut image = vec![0; book.stored_length()];
        let stored = book.store(&entered.ring, &mut image);
        assert_eq!(stored, Ok(image.len()), "{checking:?}");
        let expected = after.image_by(Kind::Two);
        assert!(image == expected, "the ledger's image: {checking:?}");
    }
    answer
}
