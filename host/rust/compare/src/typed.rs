//! Calls through the crate `guxhamole` beside the independent book: every answer, the book, its ring and everything lent.

use crate::lent::{Fill, Lent, Memory};
use guxhamole::{raw, Book, Settings};
use independent::book::Book as Paper;
use independent::ledger::Entry;
use independent::{Answer, Call, Kind, Opening, Refusal, Report, Values};

/// What differs, in a few words.
pub type Difference = String;

/// Nothing, or what differs.
pub(crate) fn same(holds: bool, what: &str) -> Result<(), Difference> {
    if holds {
        Ok(())
    } else {
        Err(what.to_string())
    }
}

/// A compiled answer as the independent ones say theirs.
pub fn told<T>(result: Result<T, guxhamole::Refusal>) -> Result<T, Refusal> {
    result.map_err(|refusal| Refusal {
        number: refusal.number(),
        place: refusal.place().unwrap_or(0) as u32,
    })
}

/// Number and place as the C face says them: an acceptance is 0 and 0.
pub(crate) fn verdict<T>(result: &Result<T, Refusal>) -> (u32, u64) {
    match result {
        Ok(_) => (0, 0),
        Err(refusal) => (refusal.number, refusal.place.into()),
    }
}

/// The fields of a compiled book in the independent one's record.
pub fn paper(book: &raw::Book) -> Paper {
    Paper {
        regions: book.regions,
        services: book.services,
        window: book.window,
        halves: book.halves,
        parents: book.parents,
        from: book.from,
        to: book.to,
        threshold: book.threshold,
        cap: book.cap,
        floor: book.floor,
        entries: book.entries,
        position: book.position,
        counts: book.counts,
        nexts: book.nexts,
        sums: book.sums,
        marks: book.marks,
    }
}

/// An opening in the C face's widths.
pub fn settings(opening: &Opening) -> Settings {
    Settings {
        regions: opening.regions as u8,
        services: opening.services as u8,
        window: opening.window as u16,
        halves: opening.halves as u8,
        first: opening.first as u16,
        parents: opening.parents,
        from: opening.from,
        to: opening.to,
        threshold: opening.threshold,
        cap: opening.cap,
        floor: opening.floor,
    }
}

/// The compiled book and the independent one, each with its ring.
#[derive(Clone)]
pub struct Pair {
    book: Book,
    ring: Lent<i32>,
    paper: Paper,
    paper_ring: Vec<i32>,
    /// Where rings and buffers come from.
    memory: Memory,
    /// Calls made, since a long ring is not looked at after each of them.
    turn: usize,
}

/// The rings that are compared after every call.
const SHORT_RING: usize = 1_024;

impl Pair {
    /// Any book and ring.
    pub fn of(book: raw::Book, ring: &[i32]) -> Pair {
        Pair {
            book: Book::from_raw(book),
            ring: Lent::of(ring),
            paper: paper(&book),
            paper_ring: ring.to_vec(),
            memory: Memory::FILLED,
            turn: 0,
        }
    }

    /// The book's fields and its ring.
    pub fn kept(&self) -> (&raw::Book, &[i32]) {
        (self.book.raw(), self.ring.slice())
    }

    /// The compiled book's image by the first kind that holds it.
    pub fn image(&self) -> Vec<u8> {
        self.image_by(Kind::holding(&self.paper.shape()))
    }

    /// Its image by a kind that holds it.
    pub fn image_by(&self, kind: Kind) -> Vec<u8> {
        let mut image = vec![0; self.book.longest_image()];
        match store(&self.book, kind, self.ring.slice(), &mut image) {
            Ok(length) => image[..length].to_vec(),
            Err(refusal) => panic!("a store {refusal:?}"),
        }
    }

    /// Opens both over a ring of a length: the pair, or the refusal that both met. A refused opening hands back the closed
    /// book and leaves the ring.
    pub fn open(
        opening: &Opening,
        ring_length: usize,
    ) -> Result<Result<Pair, Refusal>, Difference> {
        Pair::open_in(Memory::FILLED, opening, ring_length)
    }

    /// Likewise, with a ring, and from then on other rings and buffers, from a memory.
    pub fn open_in(
        mut memory: Memory,
        opening: &Opening,
        ring_length: usize,
    ) -> Result<Result<Pair, Refusal>, Difference> {
        let mut ring = memory.lend(ring_length);
        let mut paper_ring = ring.slice().to_vec();
        let opened = told(Book::open(settings(opening), ring.slice_mut()));
        let paper = Paper::open(opening, &mut paper_ring);
        same(verdict(&opened) == verdict(&paper), "opening's answer")?;
        same(ring.holds(&paper_ring), "ring after the opening")?;
        if paper.is_err() {
            let c_settings = raw_settings(opening);
            let kept = raw::open(c_settings, ring.slice_mut());
            closed(&kept, verdict(&paper))?;
            same(ring.holds(&paper_ring), "ring after a refused opening")?;
        }
        Pair::begun(opened, ring, paper, paper_ring, memory)
    }

    /// Loads both from an image into a ring of a length: the pair, or the refusal that both met.
    pub fn load(image: &[u8], ring_length: usize) -> Result<Result<Pair, Refusal>, Difference> {
        Pair::load_in(Memory::FILLED, image, ring_length)
    }

    /// Likewise, with a ring, and from then on other rings and buffers, from a memory.
    pub fn load_in(
        mut memory: Memory,
        image: &[u8],
        ring_length: usize,
    ) -> Result<Result<Pair, Refusal>, Difference> {
        let mut ring = memory.lend(ring_length);
        let mut paper_ring = ring.slice().to_vec();
        let lent = Lent::of(image);
        let loaded = told(Book::load(lent.slice(), ring.slice_mut()));
        let paper = Paper::load(image, &mut paper_ring);
        same(verdict(&loaded) == verdict(&paper), "load's answer")?;
        same(ring.holds(&paper_ring), "ring after the load")?;
        same(lent.holds(image), "image after the load")?;
        if paper.is_err() {
            let kept = raw::load(lent.slice(), ring.slice_mut());
            closed(&kept, verdict(&paper))?;
            same(ring.holds(&paper_ring), "ring after a refused load")?;
        }
        Pair::begun(loaded, ring, paper, paper_ring, memory)
    }

    fn begun(
        book: Result<Book, Refusal>,
        ring: Lent<i32>,
        paper: Result<Paper, Refusal>,
        paper_ring: Vec<i32>,
        memory: Memory,
    ) -> Result<Result<Pair, Refusal>, Difference> {
        let (book, paper) = match (book, paper) {
            (Ok(book), Ok(paper)) => (book, paper),
            (_, Err(refusal)) | (Err(refusal), _) => return Ok(Err(refusal)),
        };
        let pair = Pair {
            book,
            ring,
            paper,
            paper_ring,
            memory,
            turn: 0,
        };
        pair.kept_alike()?;
        Ok(Ok(pair))
    }

    /// Both books' fields, and their rings where these are short or it is their turn.
    fn kept_alike(&self) -> Result<(), Difference> {
        let book = paper(self.book.raw());
        if book != self.paper {
            return Err(format!(
                "book: {book:?}, the independent one: {:?}",
                self.paper
            ));
        }
        let due = self.paper_ring.len() <= SHORT_RING || self.turn.is_multiple_of(64);
        same(!due || self.ring.holds(&self.paper_ring), "ring")
    }

    /// One call on both: their answer. A refused call leaves the book's bytes.
    pub fn call(&mut self, call: &Call) -> Result<Answer, Difference> {
        let before = self.book.to_bytes();
        let answer = match call {
            Call::Entry(entry, ring_length, table) => self.enter(entry, *ring_length, table),
            Call::Threshold(threshold) => {
                let set = told(self.book.set_threshold(*threshold));
                let expected = self.paper.set_threshold(*threshold);
                self.set(
                    set,
                    expected,
                    raw::set_threshold(*self.book.raw(), *threshold),
                )
            }
            Call::Limits(cap, floor) => {
                let set = told(self.book.set_limits(*cap, *floor));
                let expected = self.paper.set_limits(*cap, *floor);
                self.set(
                    set,
                    expected,
                    raw::set_limits(*self.book.raw(), *cap, *floor),
                )
            }
            Call::Report(region, market) => self.report(*region, *market),
            Call::Restart(kind, buffer_length, ring_length) => {
                self.restart(*kind, *buffer_length, *ring_length)
            }
        }?;
        if answer.number != 0 {
            same(self.book.to_bytes() == before, "book after a refusal")?;
        }
        self.turn += 1;
        self.kept_alike()?;
        Ok(answer)
    }

    /// A setting, whose second call by the C face hands back the same book.
    fn set(
        &self,
        set: Result<(), Refusal>,
        expected: Result<(), Refusal>,
        again: raw::Kept,
    ) -> Result<Answer, Difference> {
        same(set == expected, "setting's answer")?;
        same(
            (again.number, again.place) == verdict(&set),
            "setting's number",
        )?;
        same(again.book == *self.book.raw(), "setting's book")?;
        Ok(answer(set, (), |()| Values::Nothing))
    }

    fn report(&self, region: u32, market: u32) -> Result<Answer, Difference> {
        let reported = told(self.book.report(region, market)).map(|report| Report {
            sum: report.sum,
            counted: report.counted,
            mark: report.administered.into(),
            entries: report.entries,
        });
        same(reported == self.paper.report(region, market), "report")?;
        let values = reported.unwrap_or(ZEROS);
        let reading = raw::Reading {
            number: verdict(&reported).0,
            counted: values.counted,
            mark: values.mark,
            entries: values.entries,
            sum: values.sum,
        };
        let again = raw::report(*self.book.raw(), region, market);
        same(again == reading, "report's zeros")?;
        Ok(answer(reported, ZEROS, Values::Report))
    }

    /// An entry over the book's own ring, or over another one of a wrong length.
    fn enter(&mut self, entry: &Entry, ring: usize, table: &[i32]) -> Result<Answer, Difference> {
        let mut published = Lent::of(table);
        let mut paper_table = table.to_vec();
        let own = ring == self.paper_ring.len();
        let mut other = self.memory.lend(if own { 0 } else { ring });
        let mut paper_other = other.slice().to_vec();
        let (lent, paper_lent) = if own {
            (&mut self.ring, &mut self.paper_ring)
        } else {
            (&mut other, &mut paper_other)
        };
        let lending = Lending::of(entry);
        let entered = self
            .book
            .enter(lent.slice_mut(), lending.entry(), published.slice_mut());
        let entered = told(entered);
        let expected = self.paper.enter(paper_lent, entry, &mut paper_table);
        same(entered == expected, "entry's answer")?;
        same(published.holds(&paper_table), "table")?;
        if expected.is_err() {
            let book = *self.book.raw();
            let again = raw::enter(
                book,
                lent.slice_mut(),
                lending.entry(),
                published.slice_mut(),
            );
            same(
                (again.number, again.place) == verdict(&entered),
                "entry's number",
            )?;
            same(again.count == 0 && again.book == book, "entry's zeros")?;
            same(published.holds(table), "table after a refusal")?;
        }
        same(other.holds(&paper_other), "ring of a wrong length")?;
        same(lending.holds(entry), "what the entry lends")?;
        let table = published.slice().to_vec();
        Ok(answer(entered, 0, |count| Values::Entry(count, table)))
    }

    /// A store by a kind into a buffer of a length, and a load from exactly the image's bytes into another ring of a length.
    fn restart(
        &mut self,
        kind: Kind,
        buffer: usize,
        ring_length: usize,
    ) -> Result<Answer, Difference> {
        let mut image = self.memory.lend(buffer);
        let mut paper_image = image.slice().to_vec();
        let stored = store(&self.book, kind, self.ring.slice(), image.slice_mut());
        let expected = self.paper.store(kind, &self.paper_ring, &mut paper_image);
        same(stored == expected, "store's answer")?;
        same(image.holds(&paper_image), "image")?;
        same(self.ring.guarded(), "memory beside the stored ring")?;
        let length = match stored {
            Ok(length) => length,
            Err(refusal) => {
                let again = raw_store(&self.book, kind, self.ring.slice(), image.slice_mut());
                let (number, length) = (refusal.number, 0);
                same(again == raw::Stored { number, length }, "store's zeros")?;
                same(image.holds(&paper_image), "image after a refused store")?;
                return Ok(answer(Err(refusal), (), |()| Values::Nothing));
            }
        };
        same(length == stored_length(&self.book, kind), "image's length")?;
        let memory = self.memory.clone();
        let loaded = Pair::load_in(memory, &image.slice()[..length], ring_length)?;
        let loaded = loaded.map(|pair| {
            *self = Pair {
                turn: self.turn,
                ..pair
            }
        });
        Ok(answer(loaded, (), |()| Values::Nothing))
    }
}

/// The image by a kind through the crate.
pub fn store(book: &Book, kind: Kind, ring: &[i32], image: &mut [u8]) -> Result<usize, Refusal> {
    told(match kind {
        Kind::One => book.store_kind_1(ring, image),
        Kind::Two => book.store(ring, image),
    })
}

/// The same by the C face.
pub fn raw_store(book: &Book, kind: Kind, ring: &[i32], image: &mut [u8]) -> raw::Stored {
    match kind {
        Kind::One => raw::store(*book.raw(), ring, image),
        Kind::Two => raw::store_kind_2(*book.raw(), ring, image),
    }
}

/// The length of the image by a kind, as the crate says it.
pub fn stored_length(book: &Book, kind: Kind) -> usize {
    match kind {
        Kind::One => book.stored_length_kind_1(),
        Kind::Two => book.stored_length(),
    }
}

fn raw_settings(opening: &Opening) -> raw::Settings {
    let settings = settings(opening);
    raw::Settings {
        regions: settings.regions,
        services: settings.services,
        window: settings.window,
        halves: settings.halves,
        first: settings.first,
        parents: settings.parents,
        from: settings.from,
        to: settings.to,
        threshold: settings.threshold,
        cap: settings.cap,
        floor: settings.floor,
    }
}

/// "A closed book (all zero) is what refused opening or loading returns."
fn closed(kept: &raw::Kept, expected: (u32, u64)) -> Result<(), Difference> {
    same((kept.number, kept.place) == expected, "number and place")?;
    same(kept.book == raw::Book::CLOSED, "closed book")
}

/// A refused report's numbers.
const ZEROS: Report = Report {
    sum: 0,
    counted: 0,
    mark: 0,
    entries: 0,
};

fn answer<T>(result: Result<T, Refusal>, zeros: T, values: impl FnOnce(T) -> Values) -> Answer {
    let refusal = result.as_ref().err();
    let (number, place) = refusal.map_or((0, 0), |refusal| (refusal.number, refusal.place));
    Answer {
        number,
        place,
        values: values(result.unwrap_or(zeros)),
    }
}

/// Copies of an entry's slices, each guarded.
struct Lending {
    number: u32,
    day_kind: u8,
    prices: Lent<i32>,
    marks: Lent<u8>,
    flows: Lent<i32>,
    factors: Lent<u32>,
    schedule: Lent<i32>,
}

impl Lending {
    fn of(entry: &Entry) -> Lending {
        Lending {
            number: entry.number,
            day_kind: entry.kind,
            prices: Lent::of(&entry.prices),
            marks: Lent::of(&entry.marks),
            flows: Lent::of(&entry.flows),
            factors: Lent::of(&entry.factors),
            schedule: Lent::of(&entry.schedule),
        }
    }

    fn entry(&self) -> guxhamole::Entry<'_> {
        guxhamole::Entry {
            number: self.number,
            day_kind: self.day_kind,
            prices: self.prices.slice(),
            marks: self.marks.slice(),
            flows: self.flows.slice(),
            factors: self.factors.slice(),
            schedule: self.schedule.slice(),
        }
    }

    fn holds(&self, entry: &Entry) -> bool {
        fn all<T: Fill>(lent: &Lent<T>, contents: &[T]) -> bool {
            lent.slice().len() == contents.len() && lent.holds(contents)
        }
        all(&self.prices, &entry.prices)
            && all(&self.marks, &entry.marks)
            && all(&self.flows, &entry.flows)
            && all(&self.factors, &entry.factors)
            && all(&self.schedule, &entry.schedule)
    }
}
