//! A test load that anyone can remake (request 2026-07 of document 02): the compiled draw against the independent one, draw by draw;
//! cases computed apart from both; and a week of drawn intervals that is entered, written as records and replayed.

use compare::intervals::{compiled, write};
use compare::playing::{Playing, Start};
use compare::replay::answered;
use compare::synthetic::{draw, entry, Drawn};
use compare::typed::paper;
use compare::{books, rounds, say};
use generator::draws::{self, draws, seed_of, turns, Drawing};
use generator::intervals::{self, Writing};
use generator::{calls, lists, Random};
use guxhamole::{raw, IntervalMut};
use independent::book::Book;
use independent::interval::Interval;
use independent::player::Lent;
use independent::{Answer, Call, Ledger, Opening, Refusal, Values};
use records::Record;
use std::collections::BTreeMap;

/// What was met: each answer, the draws that 10 and 11 both refuse, and energies at the high price.
#[derive(Default)]
struct Met {
    answers: BTreeMap<u32, u64>,
    both: u64,
    high: u64,
}

impl Met {
    fn draw(&mut self, drawing: &Drawing) -> Result<Drawn, Refusal> {
        let answer = draw(drawing);
        let number = answer.as_ref().err().map_or(0, |refusal| refusal.number);
        *self.answers.entry(number).or_default() += 1;
        if let Ok(drawn) = &answer {
            let prices = drawn.interval.prices.iter();
            self.high += prices.filter(|&&price| price == 1_500_000).count() as u64;
        }
        answer
    }

    fn all(&self) -> u64 {
        self.answers.values().sum()
    }

    fn say(&self, name: &str) {
        say(&format!(
            "test load, {name}: {} draws, answers {:?}, both refusals {}, high prices {}",
            self.all(),
            self.answers,
            self.both,
            self.high
        ));
    }
}

/// Slices of a book's lengths that hold none of what is drawn, and a number and a day kind.
fn lent(book: &Book, number: u32, kind: u8) -> Interval {
    let shape = book.shape();
    Interval {
        number,
        kind,
        prices: vec![-77_777; shape.prices()],
        marks: vec![7; shape.regions],
        flows: vec![7_777; shape.flows()],
        factors: vec![7; shape.flows()],
    }
}

/// All of R 1..8 and S 0..10.
fn sizes() -> impl Iterator<Item = (u32, u32)> {
    (1..=8).flat_map(|regions| (0..=10).map(move |services| (regions, services)))
}

/// A draw by a book from a seed, with a number and a day kind of some value.
fn drawing(book: &Book, seed: u32) -> Drawing {
    Drawing {
        lent: lent(book, seed, seed as u8),
        book: book.clone(),
        seed,
    }
}

/// A book's size and a seed; the first prices, every flow and factor, and the last s.
struct Case {
    size: (u32, u32),
    seed: u32,
    prices: &'static [i32],
    flows: &'static [i32],
    factors: &'static [u32],
    last: u32,
}

/// Computed apart from the code that is compared.
const CASES: [Case; 8] = [
    Case {
        size: (1, 0),
        seed: 0,
        prices: &[13_470],
        flows: &[-753],
        factors: &[11_708],
        last: 3_519_870_697,
    },
    // Its last s as a seed.
    Case {
        size: (1, 0),
        seed: 3_519_870_697,
        prices: &[1_769],
        flows: &[158],
        factors: &[10_750],
        last: 2_670_642_822,
    },
    // Flow and factor by turns.
    Case {
        size: (2, 0),
        seed: 0,
        prices: &[13_470, 16_256],
        flows: &[682, 158],
        factors: &[11_769, 10_750],
        last: 2_670_642_822,
    },
    Case {
        size: (2, 1),
        seed: 0,
        prices: &[13_470, 256, 11_708, 1_769],
        flows: &[158, -485],
        factors: &[10_750, 11_945],
        last: 2_748_932_008,
    },
    // s becomes 0.
    Case {
        size: (1, 0),
        seed: 634_785_765,
        prices: &[1_500_000],
        flows: &[463],
        factors: &[10_256],
        last: 1_196_435_762,
    },
    // The first d is 63, then 64.
    Case {
        size: (1, 0),
        seed: 1_479_915_296,
        prices: &[1_500_000],
        flows: &[21],
        factors: &[11_127],
        last: 1_515_703_433,
    },
    Case {
        size: (1, 0),
        seed: 1_461_063_653,
        prices: &[-1_936],
        flows: &[46],
        factors: &[11_072],
        last: 1_905_273_138,
    },
    Case {
        size: (5, 10),
        seed: 2_026,
        prices: &[-608, 2_909, 2_522],
        flows: &[10, 128, -218, 984, 590],
        factors: &[10_066, 11_321, 10_679, 11_080, 11_468],
        last: 489_427_073,
    },
];

#[test]
fn computed_cases() {
    for case in CASES {
        let (regions, services) = case.size;
        let book = books::chained(regions, services);
        for (number, kind) in [(0, 0), (9, 250), (u32::MAX, 255)] {
            let drawn = draw(&Drawing {
                lent: lent(&book, number, kind),
                ..drawing(&book, case.seed)
            });
            let Drawn { seed, interval } = drawn.expect("an accepted draw");
            assert_eq!(seed, case.last, "from {}", case.seed);
            assert_eq!((interval.number, interval.kind), (number, kind));
            assert_eq!(&interval.prices[..case.prices.len()], case.prices);
            assert_eq!(interval.marks, vec![0; regions as usize]);
            assert_eq!(interval.flows, case.flows);
            assert_eq!(interval.factors, case.factors);
        }
    }
}

/// The refusal's number, or 0.
fn number(answer: Result<Drawn, Refusal>) -> u32 {
    answer.map_or_else(|refusal| refusal.number, |_| 0)
}

#[test]
fn refused_cases() {
    let book = books::chained(1, 0);
    let mut longer = drawing(&book, 0);
    longer.lent.factors.push(7);
    assert_eq!(number(draw(&longer)), 11);
    for lent in [longer.lent, lent(&book, 9, 250), lent(&closed(), 0, 0)] {
        let (book, seed) = (closed(), 0);
        assert_eq!(number(draw(&Drawing { book, seed, lent })), 10);
    }
}

/// What a draw of an interval left in its place, and what it leaves there if it gives d.
fn left_and_due(book: &Book, interval: &Interval, at: usize, d: u16) -> (i64, i64) {
    let (markets, d) = (usize::from(book.services) + 1, i64::from(d));
    let prices = usize::from(book.regions) * markets;
    match at.checked_sub(prices) {
        None if !at.is_multiple_of(markets) => (interval.prices[at].into(), d % 3_000),
        None if d < 64 => (interval.prices[at].into(), 1_500_000),
        None => (interval.prices[at].into(), d % 20_000 - 2_000),
        Some(after) if after % 2 == 0 => (interval.flows[after / 2].into(), d % 2_001 - 1_000),
        Some(after) => (interval.factors[after / 2].into(), 10_000 + d % 2_000),
    }
}

/// Every size, in a chain and in a ring; every draw of an interval gives every number about which a rule turns, from seeds found by going
/// backwards.
#[test]
fn every_size_and_draw() {
    let mut met = Met::default();
    let books =
        sizes().flat_map(|(regions, services)| books::chained_and_ringed(regions, services));
    for book in books {
        for (at, (d, lower)) in (0..draws(&book)).flat_map(|at| turns().map(move |turn| (at, turn)))
        {
            let seed = seed_of(at, d, lower);
            let drawn = met.draw(&drawing(&book, seed)).expect("an accepted draw");
            let (left, due) = left_and_due(&book, &drawn.interval, at, d);
            assert_eq!(left, due, "{book:?}, draw {at}, d {d}");
        }
    }
    met.say("every size and draw");
    assert!(met.all() >= 200_000 && met.high >= 5_000);
}

/// Every size from any seeds, those at the ends too, and the two after each: the last s is the next seed.
#[test]
fn every_size_and_any_seed() {
    let mut met = Met::default();
    let mut random = Random::new(0x90_0000);
    for (regions, services) in sizes() {
        let book = books::chained(regions, services);
        let some: Vec<u32> = (0..200).map(|_| random.word() as u32).collect();
        let ends = [0, 1, 65_535, 65_536, 1 << 31, u32::MAX - 1, u32::MAX];
        for mut seed in some.into_iter().chain(ends) {
            for _ in 0..3 {
                let drawn = met.draw(&drawing(&book, seed));
                seed = drawn.expect("an accepted draw").seed;
            }
        }
    }
    met.say("every size and any seed");
    assert!(met.all() >= 50_000 && met.high >= 200);
}

/// Books just opened and in the middle of their windows, damaged ones, slices of other lengths, any number and day kind.
#[test]
fn generated() {
    let mut met = Met::default();
    for round in 0..rounds() {
        let mut random = Random::new(0x91_0000 + round);
        for _ in 0..7_000 {
            let book = intervals::book(&mut random);
            for _ in 0..16 {
                let drawing = draws::drawing(&mut random, &book);
                let sound = drawing.book.fault().is_none();
                let right = fits(&drawing);
                met.both += u64::from(!sound && !right);
                let number = number(met.draw(&drawing));
                assert_eq!(number == 10, !sound, "{drawing:?}");
                assert_eq!(number == 11, sound && !right, "{drawing:?}");
            }
        }
    }
    met.say("generated");
    for (number, least) in [(0, 80_000), (10, 5_000), (11, 5_000)] {
        assert!(met.answers[&number] >= least, "{number} met too seldom");
    }
    assert!(met.both >= 1_000 && met.high >= 1_000);
}

/// Whether the lent slices have a book's lengths.
fn fits(drawing: &Drawing) -> bool {
    let (right, lent) = (lent(&drawing.book, 0, 0), &drawing.lent);
    let lengths = |of: &Interval| {
        let links = [of.flows.len(), of.factors.len()];
        (of.prices.len(), of.marks.len(), links)
    };
    lengths(lent) == lengths(&right)
}

/// The sizes on which every set of misfits and every length are tried: the least, the real market's, the most, and two between.
const SIZES: [(u32, u32); 5] = [(1, 0), (2, 0), (3, 2), (5, 10), (8, 10)];

/// "10, then 11 over the filled slices": every set of the four slices empty, one shorter, one longer or twice as long, lent to a sound
/// book, to the closed one and to one damaged in what no draw looks at.
#[test]
fn every_set_of_misfits() {
    let mut met = Met::default();
    let lengths: [fn(usize) -> usize; 4] = [
        |_| 0,
        |right| right - 1,
        |right| right + 1,
        |right| 2 * right,
    ];
    let books = SIZES
        .into_iter()
        .flat_map(|(regions, services)| books::chained_and_ringed(regions, services));
    for book in books {
        let whole = drawing(&book, seed_of(0, 63, 0));
        for (set, length) in (0..16).flat_map(|set| lengths.map(|length| (set, length))) {
            let mut lent = whole.lent.clone();
            for slice in (0..4).filter(|slice| set >> slice & 1 == 1) {
                intervals::resize(&mut lent, slice, length(right(&whole, slice)));
            }
            let sound = if set == 0 { 0 } else { 11 };
            for (book, expected) in [(book.clone(), sound), (closed(), 10), (spoilt(&book), 10)] {
                let (lent, seed) = (lent.clone(), whole.seed);
                let answer = met.draw(&Drawing { book, seed, lent });
                assert_eq!(number(answer), expected, "set {set:04b}");
            }
        }
    }
    met.say("every set of misfits");
}

/// The length of a slice, by number, of a draw whose slices are right.
fn right(whole: &Drawing, slice: usize) -> usize {
    match slice {
        0 => whole.lent.prices.len(),
        1 => whole.lent.marks.len(),
        _ => whole.lent.flows.len(),
    }
}

/// Every length of each slice up to twice the longest.
#[test]
fn every_length() {
    let mut met = Met::default();
    for (regions, services) in SIZES {
        let whole = drawing(&books::chained(regions, services), 0);
        for (slice, length) in (0..4).flat_map(|slice| (0..=176).map(move |length| (slice, length)))
        {
            let mut misfit = whole.clone();
            intervals::resize(&mut misfit.lent, slice, length);
            let expected = if length == right(&whole, slice) {
                0
            } else {
                11
            };
            assert_eq!(
                number(met.draw(&misfit)),
                expected,
                "slice {slice}, {length}"
            );
        }
    }
    met.say("every length");
}

fn closed() -> Book {
    paper(&raw::Book::CLOSED)
}

/// A book with a field outside its limits that has nothing to do with a draw.
fn spoilt(book: &Book) -> Book {
    let mut book = book.clone();
    book.marks[0] = 2;
    book
}

/// Number and day kind of any value are handed back, whatever the book has taken.
#[test]
fn every_day_kind() {
    let mut met = Met::default();
    let mut book = books::chained(2, 1);
    for entries in [0, 9, 10_000_000] {
        book.entries = entries;
        for number in [0, 1, 9, 10, 9_999_999, 10_000_000, 1 << 31, u32::MAX] {
            for kind in 0..=255 {
                let lent = lent(&book, number, kind);
                let drawn = met.draw(&Drawing {
                    lent,
                    ..drawing(&book, 0)
                });
                let interval = drawn.expect("an accepted draw").interval;
                assert_eq!((interval.number, interval.kind), (number, kind));
                assert_eq!(interval.prices, [13_470, 256, 11_708, 1_769]);
            }
        }
    }
    met.say("every day kind");
}

/// Periods of all markets that began and that ended.
#[derive(Debug, Default)]
struct Periods {
    begun: u64,
    ended: u64,
}

/// A list whose entries are drawn one after the other, each from the last s of the one before.
struct Load {
    playing: Playing,
    seed: u32,
    /// Each accepted interval, and what its entry was answered.
    intervals: Vec<Interval>,
    answers: Vec<Answer>,
}

impl Load {
    fn open(opening: &Opening, seed: u32) -> Load {
        let start = Start::Opening(*opening, calls::ring_length(opening));
        Load {
            playing: Playing::start(start, true).expect("a valid opening"),
            seed,
            intervals: Vec::new(),
            answers: Vec::new(),
        }
    }

    /// Draws by the book as it is, and enters what was drawn, which must be accepted: by the compiled book, the independent one and the
    /// ledger.
    fn enter(&mut self, kind: u8) {
        let book = paper(self.playing.pair.kept().0);
        let drawn = draw(&Drawing {
            lent: lent(&book, book.entries, kind),
            book,
            seed: self.seed,
        });
        let Drawn { seed, interval } = drawn.expect("an accepted draw");
        let call = entry_call(&self.playing.ledger, &interval);
        let answer = self.playing.call(call);
        assert_eq!(answer.number, 0, "{interval:?}");
        self.seed = seed;
        self.intervals.push(interval);
        self.answers.push(answer);
    }

    /// Every market's report, by all three: the marks, region by region.
    fn marks(&mut self) -> Vec<u32> {
        let shape = *self.playing.ledger.shape();
        let mut marks = Vec::new();
        for place in 0..shape.prices() {
            let (region, market) = (place / shape.markets(), place % shape.markets());
            let (_, _, mark, _) = books::reported(&mut self.playing, region as u32, market as u32);
            marks.push(mark);
        }
        marks
    }
}

/// The entry of what was drawn, over the book's ring and a table.
fn entry_call(ledger: &Ledger, interval: &Interval) -> Call {
    let shape = ledger.shape();
    let table = vec![0; shape.prices()];
    Call::Entry(entry(shape, interval), shape.ring(), table)
}

/// Books of any size with short windows, and thresholds about what a window of drawn energy or services sums to: periods begin and end.
#[test]
fn short_windows() {
    let mut periods = Periods::default();
    let (mut entries, mut random) = (0, Random::new(0x92_0000));
    for turn in 0..400 {
        let mut opening = calls::opening(&mut random);
        opening.window = random.between(1, 24) as u32;
        (opening.halves, opening.first) = (1, opening.first % 6);
        let share = random.pick(&[1_500, 9_000, 9_000]);
        opening.threshold = 10_000 * (share * i64::from(opening.window) / 10_000).max(1);
        let mut load = Load::open(&opening, turn);
        let mut before = load.marks();
        for _ in 0..random.between(1, 60) {
            load.enter(random.below(2) as u8);
            let marks = load.marks();
            let changes = || before.iter().zip(&marks);
            periods.begun += changes().filter(|(was, is)| was < is).count() as u64;
            periods.ended += changes().filter(|(was, is)| was > is).count() as u64;
            (before, entries) = (marks, entries + 1);
        }
        load.playing.finish();
    }
    say(&format!(
        "test load, short windows: {entries} entries, {periods:?}"
    ));
    assert!(entries >= 10_000 && periods.begun >= 1_500 && periods.ended >= 500);
}

/// "The real market has R 5, S 10, W 2,016, H 48", its regions linked; cap and floor are within what is drawn, so that they bind and travel
/// by flows and factors.
fn real_market(threshold: i64) -> Opening {
    Opening {
        parents: books::parents(&[255, 0, 0, 2, 2]),
        threshold,
        cap: 10_000,
        floor: -1_000,
        ..books::opening(5, 10, 2_016, 48)
    }
}

/// A week of drawn intervals from the seed 2,026, two days of it a weekend: the load, and after which entry each market's period began.
fn week(threshold: i64) -> (Load, Vec<(usize, usize)>) {
    let mut load = Load::open(&real_market(threshold), 2_026);
    let mut begun = Vec::new();
    let mut before = load.marks();
    for number in 0..2_016 {
        load.enter(u8::from(number / 288 >= 5));
        let marks = load.marks();
        for place in (0..marks.len()).filter(|&place| before[place] < marks[place]) {
            begun.push((number, place));
        }
        before = marks;
    }
    (load, begun)
}

/// The last s of that week and the energy of its regions in cents, computed apart from all of this.
const LAST: u32 = 1_646_278_218;
const ENERGY: [i64; 5] = [16_533_145, 14_564_501, 16_137_452, 19_296_551, 19_056_927];

/// At 150,000 dollars the periods of all regions' energy but region 1's begin within the week. What was drawn, written as interval records,
/// reads back as it was; and the same entries in one list are replayed to the same answers and the same image.
#[test]
fn a_week() {
    let opening = real_market(15_000_000);
    let (mut load, begun) = week(15_000_000);
    assert_eq!(begun, [(1_429, 33), (1_430, 44), (1_803, 0), (1_868, 22)]);
    assert_eq!(load.seed, LAST);
    for (region, sum) in (0..).zip(ENERGY) {
        let mark = u32::from(region != 1);
        let report = books::reported(&mut load.playing, region, 0);
        assert_eq!(report, (sum, 2_016, mark, 2_016));
    }
    reads_back(&load);
    replays(&opening, &load);
    let changed: u32 = load.answers.iter().map(count).sum();
    say(&format!("test load, a week: 2016 entries, {changed} prices published otherwise, periods begun after {begun:?}"));
    assert!(changed >= 500);
    load.playing.finish();
}

/// An entry's count.
fn count(answer: &Answer) -> u32 {
    match answer.values {
        Values::Entry(count, _) => count,
        _ => panic!("an entry's answer: {answer:?}"),
    }
}

/// The intervals, each written by the compiled and the independent writer, then read end to end.
fn reads_back(load: &Load) {
    let book = paper(load.playing.pair.kept().0);
    let mut bytes = Vec::new();
    for interval in &load.intervals {
        let written = write(&Writing {
            book: book.clone(),
            interval: interval.clone(),
            buffer: intervals::length(&book),
        });
        bytes.extend(written.expect("an accepted writing"));
    }
    let (compiled, mut at) = (guxhamole::Book::from_raw(compiled(&book)), 0);
    for interval in &load.intervals {
        let mut read = lent(&book, 0, 0);
        let slices = IntervalMut {
            prices: &mut read.prices,
            marks: &mut read.marks,
            flows: &mut read.flows,
            factors: &mut read.factors,
        };
        let found = compiled.read_interval(&bytes, at, slices);
        let found = found.expect("an accepted reading");
        (read.number, read.kind, at) = (found.number, found.day_kind, found.next);
        assert_eq!(read, *interval);
    }
    assert_eq!((at, bytes.len()), (bytes.len(), 2_016 * 312));
}

/// An opening, the entries and a restart in one list.
fn replays(opening: &Opening, load: &Load) {
    let (mut calls, mut room) = (Vec::new(), 0);
    let mut put = |record: Record| {
        calls.extend(record.bytes());
        room += lists::answer_length(&record);
    };
    put(Record::Opening(lists::opening_record(opening)));
    for interval in &load.intervals {
        let call = entry_call(&load.playing.ledger, interval);
        put(lists::call_record(call));
    }
    put(Record::Restart);
    let lengths = Lent {
        answers: room,
        ..lists::ample(opening)
    };
    let (answers, image) = answered(&calls, &lengths);
    let (answers, rest) = records::split(&answers);
    assert!(rest.is_empty() && answers.len() == 2_018);
    assert!(answers.iter().all(|answer| answer.number == 0));
    for (answer, told) in answers[1..].iter().zip(&load.answers) {
        assert_eq!(values(answer), told.values);
    }
    assert!(image == load.playing.ledger.image());
}

/// What an entry was answered in a list.
fn values(answer: &records::Answer) -> Values {
    match &answer.values {
        records::Values::Entry { count, table } => Values::Entry(*count, table.clone()),
        other => panic!("an entry's answer: {other:?}"),
    }
}

/// At the real threshold no period begins in such a week; at 30,200 dollars that of every region's energy, and in the week's last hours
/// those of 19 services.
#[test]
fn weeks_at_other_thresholds() {
    let (load, begun) = week(182_360_000);
    assert!(begun.is_empty() && load.seed == LAST);
    let (load, begun) = week(3_020_000);
    let services = begun.iter().filter(|(_, place)| place % 11 > 0);
    assert_eq!((begun.len(), services.count(), load.seed), (24, 19, LAST));
    load.playing.finish();
}
