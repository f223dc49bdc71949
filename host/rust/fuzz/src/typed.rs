//! Bytes as a book, its ring and calls on them through the crate `guxhamole`, beside the independent book. Most arguments
//! are the bytes' difference from a valid one, so that zeros are accepted. `bills` has the bills.

use crate::bytes::Bytes;
use crate::pages::Pages;
use crate::Met;
use compare::typed::{paper, store, stored_length, told};
use guxhamole::{raw, Book, IntervalMut, Settings, BOOK_LENGTH};
use independent::amount::amount_text;
use independent::book::Book as Paper;
use independent::index::index;
use independent::interval::Interval;
use independent::ledger::Entry;
use independent::maker::{make, Making};
use independent::{Kind, Opening, Refusal, Report};

/// Calls that one run makes at most.
const MOST_CALLS: usize = 12;

/// The compiled book, the independent one, and the ring that both have.
pub(crate) struct Kept {
    pub(crate) book: Book,
    pub(crate) paper: Paper,
    pub(crate) ring: Vec<i32>,
}

pub fn run(room: &mut [Pages], data: &[u8]) -> Met {
    let mut bytes = Bytes::new(data);
    let mut met = Met::new();
    let at_end = bytes.byte().is_multiple_of(2);
    let Some(mut kept) = start(room, &mut bytes, at_end, &mut met) else {
        return met;
    };
    for _ in 0..MOST_CALLS {
        if bytes.is_empty() {
            break;
        }
        let (name, number) = match bytes.byte() % 18 {
            0..=4 => ("entry", kept.enter(room, &mut bytes, at_end)),
            5 => ("threshold", kept.set_threshold(&mut bytes)),
            6 => ("limits", kept.set_limits(&mut bytes)),
            7 => ("report", kept.report(&mut bytes)),
            8 | 9 => ("restart", kept.restart(room, &mut bytes, at_end)),
            10 => ("schedule", schedule(room, &mut bytes, at_end)),
            11 => ("text and index", text_and_index(room, &mut bytes, at_end)),
            12 => ("draw", kept.draw(room, &mut bytes, at_end)),
            13..=15 => kept.bill(room, &mut bytes, at_end),
            _ => ("intervals left", kept.ask(room, &mut bytes, at_end)),
        };
        assert_eq!(paper(kept.book.raw()), kept.paper, "book after {name}");
        met.push((name, number));
    }
    met
}

/// The number of an answer that both give.
fn number<T>(result: &Result<T, Refusal>) -> u32 {
    result.as_ref().err().map_or(0, |refusal| refusal.number)
}

/// Flows of a book of any fields, as many as a book can have.
pub(crate) fn flows(book: &raw::Book) -> usize {
    guxhamole::flows_length(book.regions.min(8).into(), book.from)
}

/// Regions, prices, ring and schedule of a book of any fields, as long as a book can have them.
pub(crate) fn lengths(book: &raw::Book) -> (usize, usize, usize, usize) {
    let regions = usize::from(book.regions.min(8));
    let prices = regions * (usize::from(book.services.min(10)) + 1);
    let window = usize::from(book.window.min(2_016));
    let halves = usize::from(book.halves.min(48));
    (regions, prices, prices * window, prices * 2 * halves)
}

/// Limits; zeros in the bytes are the real market's.
fn limits(bytes: &mut Bytes) -> (i32, i32) {
    (60_000 ^ bytes.i32(), -60_000 ^ bytes.i32())
}

/// A small number, or any by bytes from 128 on.
pub(crate) fn small(bytes: &mut Bytes) -> u32 {
    match bytes.byte() {
        few @ 0..=127 => few.into(),
        _ => bytes.u32(),
    }
}

/// A few numbers from the bytes, which repeat up to a length; none is a zero.
pub(crate) fn numbers(bytes: &mut Bytes, length: usize) -> Vec<i32> {
    let few: Vec<i32> = (0..bytes.byte() % 64).map(|_| bytes.i32()).collect();
    if few.is_empty() {
        vec![0; length]
    } else {
        few.into_iter().cycle().take(length).collect()
    }
}

/// A book of any bytes with a ring, one that was opened, or one that was loaded; none where the start is refused.
fn start(room: &mut [Pages], bytes: &mut Bytes, at_end: bool, met: &mut Met) -> Option<Kept> {
    match bytes.byte() % 3 {
        0 => {
            let book = Book::from_bytes(&bytes.take::<BOOK_LENGTH>());
            let (_, _, ring, _) = lengths(book.raw());
            let length = bytes.length(ring);
            let ring = numbers(bytes, length);
            let paper = paper(book.raw());
            Some(Kept { book, paper, ring })
        }
        1 => open(room, bytes, at_end, met),
        _ => {
            let length = bytes.u16().into();
            let image = bytes.part(length);
            let ring = match image.len() {
                0..148 => 0,
                _ => usize::from(image[6].min(8)) * (usize::from(image[7].min(10)) + 1),
            };
            let window = u16::from_le_bytes([
                image.get(8).copied().unwrap_or(0),
                image.get(9).copied().unwrap_or(0),
            ]);
            let ring = bytes.length(ring * usize::from(window.min(2_016)));
            load(room, image, ring, at_end, met)
        }
    }
}

/// An opening of the bytes' settings.
fn open(room: &mut [Pages], bytes: &mut Bytes, at_end: bool, met: &mut Met) -> Option<Kept> {
    let settings = Settings {
        regions: bytes.byte(),
        services: bytes.byte(),
        window: bytes.u16(),
        halves: bytes.byte(),
        first: bytes.u16(),
        parents: bytes.take(),
        from: bytes.byte(),
        to: bytes.byte(),
        threshold: bytes.i64(),
        cap: bytes.i32(),
        floor: bytes.i32(),
    };
    let opening = Opening {
        regions: settings.regions.into(),
        services: settings.services.into(),
        window: settings.window.into(),
        halves: settings.halves.into(),
        first: settings.first.into(),
        parents: settings.parents,
        from: settings.from,
        to: settings.to,
        threshold: settings.threshold,
        cap: settings.cap,
        floor: settings.floor,
    };
    let markets = usize::from(settings.services.min(10)) + 1;
    let window = usize::from(settings.window.min(2_016));
    let length = bytes.length(usize::from(settings.regions.min(8)) * markets * window);
    let lent = room[0].lend::<i32>(length, at_end);
    let mut ring = lent.lent.to_vec();
    let opened = told(Book::open(settings, lent.lent));
    let expected = Paper::open(&opening, &mut ring);
    assert!(lent.holds(&ring), "ring after the opening");
    met.push(("opening", number(&expected)));
    both(opened, expected, ring)
}

/// A load of an image into a ring of a length.
fn load(
    room: &mut [Pages],
    image: &[u8],
    ring: usize,
    at_end: bool,
    met: &mut Met,
) -> Option<Kept> {
    let [one, two, ..] = room else {
        unreachable!("two slices at least")
    };
    let bytes = one.hold(image, at_end);
    let lent = two.lend::<i32>(ring, at_end);
    let mut ring = lent.lent.to_vec();
    let loaded = told(Book::load(bytes.lent, lent.lent));
    let expected = Paper::load(image, &mut ring);
    assert!(lent.holds(&ring), "ring after the load");
    assert!(bytes.holds(image), "image after the load");
    met.push(("load", number(&expected)));
    both(loaded, expected, ring)
}

/// What both starts answer: the books, or none where both were refused alike.
fn both(
    book: Result<Book, Refusal>,
    paper_book: Result<Paper, Refusal>,
    ring: Vec<i32>,
) -> Option<Kept> {
    match (book, paper_book) {
        (Ok(book), Ok(expected)) => {
            assert_eq!(paper(book.raw()), expected, "book at the start");
            let paper = expected;
            Some(Kept { book, paper, ring })
        }
        (Err(refusal), Err(expected)) => {
            assert_eq!(refusal, expected, "refused start");
            None
        }
        (book, expected) => panic!("start: {book:?}, the independent one: {expected:?}"),
    }
}

impl Kept {
    fn entry(&self, bytes: &mut Bytes) -> Entry {
        let (regions, prices, _, schedule) = lengths(self.book.raw());
        let mut some = |asked| {
            let length = bytes.length(asked);
            numbers(bytes, length)
        };
        let (prices, schedule) = (some(prices), some(schedule));
        let links = flows(self.book.raw());
        let (flows, marks, factors) = (some(links), some(regions), some(links));
        Entry {
            number: self.book.entries() ^ bytes.u32(),
            kind: bytes.byte(),
            prices,
            marks: marks.into_iter().map(|mark| mark as u8).collect(),
            flows,
            factors: factors
                .into_iter()
                .map(|factor| 10_000 ^ factor as u32)
                .collect(),
            schedule,
        }
    }

    fn enter(&mut self, room: &mut [Pages], bytes: &mut Bytes, at_end: bool) -> u32 {
        let entry = self.entry(bytes);
        let table = bytes.length(self.book.prices_length().min(88));
        let [one, two, three, four, five, six, seven, ..] = room else {
            unreachable!("seven slices at least")
        };
        let ring = one.hold(&self.ring, at_end);
        let prices = two.hold(&entry.prices, at_end);
        let marks = three.hold(&entry.marks, at_end);
        let flows = four.hold(&entry.flows, at_end);
        let factors = five.hold(&entry.factors, at_end);
        let schedule = six.hold(&entry.schedule, at_end);
        let table = seven.lend::<i32>(table, at_end);
        let mut expected_table = table.lent.to_vec();
        let lending = guxhamole::Entry {
            number: entry.number,
            day_kind: entry.kind,
            prices: prices.lent,
            marks: marks.lent,
            flows: flows.lent,
            factors: factors.lent,
            schedule: schedule.lent,
        };
        let entered = told(self.book.enter(ring.lent, lending, table.lent));
        let expected = self
            .paper
            .enter(&mut self.ring, &entry, &mut expected_table);
        assert_eq!(entered, expected, "{entry:?}");
        assert!(ring.holds(&self.ring), "ring after an entry");
        assert!(table.holds(&expected_table), "table");
        let lent = prices.holds(&entry.prices)
            && marks.holds(&entry.marks)
            && flows.holds(&entry.flows)
            && factors.holds(&entry.factors)
            && schedule.holds(&entry.schedule);
        assert!(lent, "what the entry lends");
        number(&expected)
    }

    fn set_threshold(&mut self, bytes: &mut Bytes) -> u32 {
        let threshold = 182_360_000 ^ bytes.i64();
        let set = told(self.book.set_threshold(threshold));
        assert_eq!(set, self.paper.set_threshold(threshold), "threshold");
        number(&set)
    }

    fn set_limits(&mut self, bytes: &mut Bytes) -> u32 {
        let (cap, floor) = limits(bytes);
        let set = told(self.book.set_limits(cap, floor));
        assert_eq!(set, self.paper.set_limits(cap, floor), "limits");
        number(&set)
    }

    fn report(&self, bytes: &mut Bytes) -> u32 {
        let (region, market) = (bytes.u32(), bytes.u32());
        let reported = told(self.book.report(region, market)).map(|report| Report {
            sum: report.sum,
            counted: report.counted,
            mark: report.administered.into(),
            entries: report.entries,
        });
        assert_eq!(reported, self.paper.report(region, market), "report");
        number(&reported)
    }

    /// A question for the intervals left, lent about the book's ring; zeros ask of region 0's energy, at the threshold's share of a
    /// window.
    fn ask(&self, room: &mut [Pages], bytes: &mut Bytes, at_end: bool) -> u32 {
        let (region, market) = (small(bytes), small(bytes));
        let share = self.book.threshold() / i64::from(self.book.window().max(1));
        let price = share.clamp(-10_000_000, 10_000_000) as i32 ^ bytes.i32();
        let mut contents = self.ring.clone();
        contents.resize(bytes.length(contents.len()), 0);
        let ring = room[0].hold(&contents, at_end);
        let left = told(self.book.intervals_left(ring.lent, region, market, price));
        let expected = self.paper.intervals_left(&contents, region, market, price);
        assert_eq!(left, expected, "intervals left");
        assert!(ring.holds(&contents), "ring after a question");
        number(&left)
    }

    /// A draw of a test load into slices of about the book's lengths.
    fn draw(&self, room: &mut [Pages], bytes: &mut Bytes, at_end: bool) -> u32 {
        let (regions, asked, _, _) = lengths(self.book.raw());
        let links = flows(self.book.raw());
        let seed = bytes.u32();
        let mut interval = Interval {
            number: bytes.u32(),
            kind: bytes.byte(),
            prices: vec![-1; bytes.length(asked)],
            marks: vec![2; bytes.length(regions)],
            flows: vec![-3; bytes.length(links)],
            factors: vec![4; bytes.length(links)],
        };
        let [one, two, three, four, ..] = room else {
            unreachable!("four slices at least")
        };
        let prices = one.hold(&interval.prices, at_end);
        let marks = two.hold(&interval.marks, at_end);
        let flows = three.hold(&interval.flows, at_end);
        let factors = four.hold(&interval.factors, at_end);
        let slices = IntervalMut {
            prices: &mut *prices.lent,
            marks: &mut *marks.lent,
            flows: &mut *flows.lent,
            factors: &mut *factors.lent,
        };
        let drawn = told(
            self.book
                .synthetic(seed, interval.number, interval.kind, slices),
        );
        let drawn = drawn.map(|drawn| (drawn.seed, drawn.number, drawn.day_kind));
        let expected = self.paper.synthetic(seed, &mut interval);
        let expected = expected.map(|last| (last, interval.number, interval.kind));
        assert_eq!(drawn, expected, "draw");
        let filled = prices.holds(&interval.prices)
            && marks.holds(&interval.marks)
            && flows.holds(&interval.flows)
            && factors.holds(&interval.factors);
        assert!(filled, "slices after the draw");
        number(&expected)
    }

    /// A store by a kind, of zeros kind 2, into a buffer that is about long enough, and a load of exactly the image.
    fn restart(&mut self, room: &mut [Pages], bytes: &mut Bytes, at_end: bool) -> u32 {
        let kind = match bytes.byte().is_multiple_of(2) {
            true => Kind::Two,
            false => Kind::One,
        };
        let asked = stored_length(&self.book, kind).min(guxhamole::MOST_IMAGE);
        let (buffer, other) = (bytes.length(asked), bytes.length(self.ring.len()));
        let [one, two, ..] = room else {
            unreachable!("two slices at least")
        };
        let ring = one.hold(&self.ring, at_end);
        let image = two.lend::<u8>(buffer, at_end);
        let mut expected_image = image.lent.to_vec();
        let stored = store(&self.book, kind, ring.lent, image.lent);
        let expected = self.paper.store(kind, &self.ring, &mut expected_image);
        assert_eq!(stored, expected, "store");
        assert!(image.holds(&expected_image), "image");
        assert!(ring.holds(&self.ring), "ring after a store");
        let Ok(length) = stored else {
            return number(&stored);
        };
        let mut met = Met::new();
        if let Some(kept) = load(room, &expected_image[..length], other, at_end, &mut met) {
            *self = kept;
        }
        met[0].1
    }
}

/// A schedule of up to two half-hours.
fn schedule(room: &mut [Pages], bytes: &mut Bytes, at_end: bool) -> u32 {
    let [one, two, ..] = room else {
        unreachable!("two slices at least")
    };
    let halves = 1 ^ bytes.byte();
    let ((cap, floor), energy) = (limits(bytes), bytes.byte() % 2 == 1);
    let length = bytes.length(168 * usize::from(halves.min(2)));
    let prices = numbers(bytes, length);
    let length = bytes.length(28);
    let kinds = numbers(bytes, length);
    let kinds = kinds.into_iter().enumerate();
    let kinds: Vec<u8> = kinds
        .map(|(day, kind)| (day % 2) as u8 ^ kind as u8)
        .collect();
    let lent = (one.hold(&prices, at_end), two.hold(&kinds, at_end));
    let made = guxhamole::schedule(halves, cap, floor, energy, lent.0.lent, lent.1.lent);
    let made = told(made).map(|schedule| [schedule.weekday, schedule.weekend]);
    let making = Making {
        halves: halves.into(),
        cap,
        floor,
        energy,
        prices: &prices,
        kinds: &kinds,
    };
    assert_eq!(made, make(&making), "schedule");
    assert!(
        lent.0.holds(&prices) && lent.1.holds(&kinds),
        "what the maker is lent"
    );
    number(&made)
}

/// An amount's text into a short buffer, and an index.
fn text_and_index(room: &mut [Pages], bytes: &mut Bytes, at_end: bool) -> u32 {
    let (cents, length) = (bytes.i64(), usize::from(bytes.byte() % 32));
    let text = amount_text(cents);
    let buffer = room[0].lend::<u8>(length, at_end);
    let written = guxhamole::amount_text(cents, buffer.lent).map(str::to_string);
    if length < text.len() {
        assert_eq!(written, Err(guxhamole::Refusal::Text), "text");
        assert!(buffer.begins_with(&[]), "buffer");
    } else {
        assert_eq!(written.as_deref(), Ok(&text[..]), "text");
        assert!(buffer.begins_with(text.as_bytes()), "buffer");
    }
    let amount = 1_125_000 ^ bytes.u64();
    let mut quarters = || [(); 4].map(|()| 1_000 ^ bytes.u32());
    let (c, b) = (quarters(), quarters());
    let last = bytes.u64();
    let indexed = told(guxhamole::index(amount, c, b, last));
    assert_eq!(indexed, index(amount, c, b, last), "index");
    number(&indexed)
}
