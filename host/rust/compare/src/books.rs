//! Small books and entries for the worked cases.

use crate::playing::Playing;
use generator::calls::ring_length;
use independent::book::Book;
use independent::image::Fields;
use independent::ledger::Entry;
use independent::rules::{NO_END, NO_PARENT};
use independent::{Answer, Call, Ledger, Opening, Values};

/// Unlinked regions, first position 0, threshold 90,000, limits ±60,000.
pub fn opening(regions: u32, services: u32, window: u32, halves: u32) -> Opening {
    Opening {
        regions,
        services,
        window,
        halves,
        first: 0,
        parents: [NO_PARENT; 8],
        from: NO_END,
        to: NO_END,
        threshold: 90_000,
        cap: 60_000,
        floor: -60_000,
    }
}

/// The same with threshold 95,000, as document 01's worked books have it. They begin with an image: no book is opened with it.
pub fn worked(regions: u32, services: u32, window: u32, halves: u32) -> Opening {
    Opening {
        threshold: 95_000,
        ..opening(regions, services, window, halves)
    }
}

/// The parents of the first regions; the other places hold 255.
pub fn parents(first: &[u8]) -> [u8; 8] {
    let mut parents = [NO_PARENT; 8];
    parents[..first.len()].copy_from_slice(first);
    parents
}

/// A book of a size as it is opened, W 1 and H 1, its regions in a chain.
pub fn chained(regions: u32, services: u32) -> Book {
    chained_with(regions, services, (NO_END, NO_END))
}

/// The same with an additional link from the chain's last region to its first; there are three at least.
pub fn ringed(regions: u32, services: u32) -> Book {
    chained_with(regions, services, (regions as u8 - 1, 0))
}

/// The book of a size in a chain, and in a ring where it can be one.
pub fn chained_and_ringed(regions: u32, services: u32) -> Vec<Book> {
    let mut books = vec![chained(regions, services)];
    if regions > 2 {
        books.push(ringed(regions, services));
    }
    books
}

fn chained_with(regions: u32, services: u32, (from, to): (u8, u8)) -> Book {
    let mut opening = opening(regions, services, 1, 1);
    (opening.from, opening.to) = (from, to);
    for region in 1..regions as usize {
        opening.parents[region] = region as u8 - 1;
    }
    let mut ring = vec![0; ring_length(&opening)];
    Book::open(&opening, &mut ring).expect("a valid opening")
}

/// "R 3, parents 255, 0, 1, S 0, W 1, H 1, first position 0, threshold 95,000, limits ±60,000."
pub fn guide() -> Opening {
    Opening {
        parents: parents(&[255, 0, 1]),
        ..worked(3, 0, 1, 1)
    }
}

/// The opened ledger, over a ring of the right length.
pub fn open(opening: &Opening) -> Ledger {
    Ledger::open(opening, ring_length(opening)).expect("a valid opening")
}

/// The ledger that begins with the image of a book of these settings, over a ring of the right length.
pub fn begin(settings: &Opening) -> Ledger {
    let image = Fields::blank(settings).bytes();
    let begun = Ledger::begin(&image, ring_length(settings));
    begun.expect("a valid image").expect("no entries")
}

/// The next entry with these prices: a weekday, nothing marked, no flow, factors 10,000, a schedule of zeros.
pub fn plain(ledger: &Ledger, prices: &[i32]) -> Entry {
    let shape = ledger.shape();
    Entry {
        number: ledger.entries_taken(),
        kind: 0,
        prices: prices.to_vec(),
        marks: vec![0; shape.regions],
        flows: vec![0; shape.flows()],
        factors: vec![10_000; shape.flows()],
        schedule: vec![0; shape.schedule()],
    }
}

/// What takes calls: the ledger alone, or beside it the compiled and the independent book, held to it.
pub trait Takes {
    fn ledger(&self) -> &Ledger;
    fn answer(&mut self, call: Call) -> Answer;
}

impl Takes for Ledger {
    fn ledger(&self) -> &Ledger {
        self
    }

    fn answer(&mut self, call: Call) -> Answer {
        self.call(&call)
    }
}

impl Takes for Playing {
    fn ledger(&self) -> &Ledger {
        &self.ledger
    }

    fn answer(&mut self, call: Call) -> Answer {
        self.call(call)
    }
}

/// Takes an entry that must be accepted: its published table and count.
pub fn take(book: &mut impl Takes, entry: Entry) -> (Vec<i32>, u32) {
    let shape = *book.ledger().shape();
    let lent = vec![i32::MIN; shape.prices()];
    let answer = book.answer(Call::Entry(entry, shape.ring(), lent));
    match (answer.number, answer.values) {
        (0, Values::Entry(count, table)) => (table, count),
        refused => panic!("a valid entry: {refused:?}"),
    }
}

/// Takes an entry that must be refused: its number and place. Ledger and table stay.
pub fn refused(ledger: &mut Ledger, entry: Entry) -> (u32, u32) {
    let before = ledger.clone();
    let ring = ledger.shape().ring();
    let mut table = vec![77; ledger.shape().prices()];
    let refusal = ledger.enter(ring, entry, &mut table);
    let refusal = refusal.expect_err("an invalid entry");
    assert_eq!(*ledger, before);
    assert!(table.iter().all(|&price| price == 77));
    (refusal.number, refusal.place)
}

/// Takes a plain entry that must be accepted.
pub fn take_plain(book: &mut impl Takes, prices: &[i32]) -> (Vec<i32>, u32) {
    let entry = plain(book.ledger(), prices);
    take(book, entry)
}

/// Takes an entry in which every region is marked, the schedule full of one number.
pub fn take_marked(book: &mut impl Takes, scheduled: i32) -> (Vec<i32>, u32) {
    let ledger = book.ledger();
    let mut entry = plain(ledger, &vec![0; ledger.shape().prices()]);
    entry.marks.fill(1);
    entry.schedule.fill(scheduled);
    take(book, entry)
}

/// A market's sum, prices counted, mark and entries taken.
pub fn report(ledger: &Ledger, region: u32, market: u32) -> (i64, u32, u32, u32) {
    let report = ledger.report(region, market).expect("a used market");
    (report.sum, report.counted, report.mark, report.entries)
}

/// The same of a book that is being played, by all three.
pub fn reported(playing: &mut Playing, region: u32, market: u32) -> (i64, u32, u32, u32) {
    assert_eq!(playing.call(Call::Report(region, market)).number, 0);
    report(&playing.ledger, region, market)
}
