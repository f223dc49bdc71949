//! Bills (request 2026-09 of document 02): the compiled check against the independent ledger and book, on generated days and lines, whole
//! and damaged, on every length of every slice, on every cut and byte of a day's records, and on a day of the real market.

use compare::bills::{check, check_listed, first_refusals, Answer};
use compare::typed::paper;
use compare::{books, rounds, say};
use generator::bills::{self, right_length, set_length, Change, Checking, Day, Kept, CHANGES};
use generator::weeks::Weeks;
use generator::{calls, intervals, Random};
use guxhamole::raw;
use independent::bill::{Judgement, Lines};
use independent::book::Book;
use independent::interval::Interval;
use independent::{Call, Ledger, Opening, Refusal};
use std::collections::BTreeMap;

/// What was met: the kinds of answers, and of each change of the lines how often it was made and how often it made the bill wrong.
#[derive(Default)]
struct Met {
    kinds: BTreeMap<&'static str, u64>,
    changes: BTreeMap<Change, (u64, u64)>,
}

/// An answer's kind: of a wrong line where it stands, and whether it is a missing or a surplus one.
fn kind(answer: &Answer, checking: &Checking) -> &'static str {
    let lines = checking.bill.lines.numbers.len();
    let intervals = checking.bill.records.len() / intervals::length(&checking.book).max(1);
    match answer {
        Ok(Judgement::Right) => "yes",
        Ok(Judgement::Wrong(line)) if *line >= lines => "missing",
        Ok(Judgement::Wrong(line)) if *line >= intervals => "surplus",
        Ok(Judgement::Wrong(0)) => "wrong at 0",
        Ok(Judgement::Wrong(_)) => "wrong in the middle",
        Err(Refusal { number: 10, .. }) if !first_refusals(answer, checking) => "10 mid-way",
        Err(refusal) => {
            REFUSALS
                .iter()
                .find(|(number, _)| *number == refusal.number)
                .unwrap_or_else(|| panic!("refused {}", refusal.number))
                .1
        }
    }
}

/// The refusals by number.
const REFUSALS: [(u32, &str); 13] = [
    (10, "10"),
    (11, "11"),
    (12, "12"),
    (13, "13"),
    (14, "14"),
    (15, "15"),
    (16, "16"),
    (17, "17"),
    (21, "21"),
    (40, "40"),
    (41, "41"),
    (45, "45"),
    (46, "46"),
];

/// How often each kind must be met in generated checks.
const LEAST: [(&str, u64); 19] = [
    ("yes", 10_000),
    ("wrong at 0", 4_000),
    ("wrong in the middle", 4_000),
    ("missing", 500),
    ("surplus", 1_500),
    ("10", 500),
    ("10 mid-way", 500),
    ("11", 1_000),
    ("12", 500),
    ("13", 1_000),
    ("14", 500),
    ("15", 1_000),
    ("16", 1_000),
    ("17", 400),
    ("21", 500),
    ("40", 1_000),
    ("41", 500),
    ("45", 500),
    ("46", 1_000),
];

impl Met {
    fn note(&mut self, answer: &Answer, checking: &Checking) -> Answer {
        *self.kinds.entry(kind(answer, checking)).or_default() += 1;
        *answer
    }

    /// One check of any book and ring.
    fn check(&mut self, checking: &Checking) -> Answer {
        self.note(&check(checking), checking)
    }

    /// One check of a list's book.
    fn check_listed(&mut self, ledger: &Ledger, checking: &Checking) -> Answer {
        self.note(&check_listed(ledger, checking), checking)
    }

    /// One generated check of a day's bill.
    fn generated(&mut self, random: &mut Random, day: &Day) {
        let (checking, change) = bills::checking(random, day);
        let answer = match checking.listed {
            true => self.check_listed(&day.kept.ledger, &checking),
            false => self.check(&checking),
        };
        let (made, wrong) = self.changes.entry(change).or_default();
        *made += 1;
        *wrong += u64::from(matches!(answer, Ok(Judgement::Wrong(_))));
    }

    fn all(&self) -> u64 {
        self.kinds.values().sum()
    }

    fn say(&self, name: &str) {
        let (all, kinds) = (self.all(), &self.kinds);
        say(&format!("bills, {name}: {all} checks, {kinds:?}"));
        if !self.changes.is_empty() {
            let changes = &self.changes;
            say(&format!(
                "bills, {name}: lines changed, and then wrong: {changes:?}"
            ));
        }
    }

    fn at_least(&self, least: &[(&str, u64)]) {
        for &(kind, least) in least {
            let met = self.kinds.get(kind).copied().unwrap_or(0);
            assert!(met >= least, "{kind}: met {met} times");
        }
    }
}

/// Days of no interval to thirty, after lists, with links, marks and periods; lines right and wrong, records whole and damaged.
#[test]
fn generated() {
    let mut met = Met::default();
    for round in 0..rounds() {
        let mut random = Random::new(0xA0_0000 + round);
        for _ in 0..5_000 {
            let day = Day::any(&mut random);
            for _ in 0..10 {
                met.generated(&mut random, &day);
            }
        }
    }
    met.say("generated");
    met.at_least(&LEAST);
    for change in CHANGES {
        let (made, wrong) = met.changes[&change];
        assert!(made >= 1_500, "{change:?}: made {made} times");
        let right = [Change::Nothing, Change::MostEnergy, Change::TooMuchEnergy];
        let told = right.contains(&change) || wrong >= 400;
        assert!(told, "{change:?}: wrong {wrong} times");
    }
}

/// A day of so many intervals after the opening of a book of a size, W 1 and H 1, its regions in a chain.
fn chained(random: &mut Random, regions: u32, services: u32, length: usize) -> Day {
    let mut opening = books::opening(regions, services, 1, 1);
    for region in 1..regions as usize {
        opening.parents[region] = region as u8 - 1;
    }
    Day::of(random, opened(&opening), length)
}

fn opened(opening: &Opening) -> Kept {
    let mut ring = vec![0; calls::ring_length(opening)];
    Kept {
        ledger: books::open(opening),
        book: Book::open(opening, &mut ring).expect("a valid opening"),
        ring,
    }
}

/// The sizes on which every set of misfits, every length and every cut are tried.
const SIZES: [(u32, u32); 4] = [(1, 0), (2, 0), (3, 2), (5, 10)];

/// "once 10, 11 and 21 pass": every set of the seven slices with a length that are empty, one shorter, one longer or twice as long, for a
/// region of the book and for none, lent to a sound book, to the closed one and to one damaged in what no bill looks at.
#[test]
fn every_set_of_misfits() {
    let (mut met, mut random) = (Met::default(), Random::new(0xA1_0000));
    let lengths: [fn(usize) -> usize; 4] = [
        |_| 0,
        |right| right - 1,
        |right| right + 1,
        |right| 2 * right,
    ];
    for (regions, services) in SIZES {
        let whole = chained(&mut random, regions, services, 2).right(&mut random, 0);
        for (set, length) in (0..128).flat_map(|set| lengths.map(|length| (set, length))) {
            let mut misfit = whole.clone();
            for slice in (0..7).filter(|slice| set >> slice & 1 == 1) {
                set_length(&mut misfit, slice, length(right_length(&whole, slice)));
            }
            // The four slices of the lines may have another length together.
            let fits = [0, 0b1111000].contains(&set);
            misfits(&mut met, &misfit, fits);
        }
    }
    met.say("every set of misfits");
}

/// By each book and for either region.
fn misfits(met: &mut Met, misfit: &Checking, fits: bool) {
    let regions = misfit.book.regions.into();
    let closed = paper(&raw::Book::CLOSED);
    for (region, other) in [(0, 0), (regions, 21)] {
        let sound = if fits { other } else { 11 };
        let books = [
            (misfit.book.clone(), sound),
            (closed.clone(), 10),
            (spoilt(&misfit.book), 10),
        ];
        for (book, due) in books {
            let mut checking = misfit.clone();
            (checking.book, checking.bill.region) = (book, region);
            assert_eq!(number(&met.check(&checking)), due, "{checking:?}");
        }
    }
}

/// The number of a refusal, or 0.
fn number(answer: &Answer) -> u32 {
    answer.err().map_or(0, |refusal| refusal.number)
}

/// A book with a field outside its limits that has nothing to do with a bill.
fn spoilt(book: &Book) -> Book {
    let mut book = book.clone();
    book.marks[87] = 1;
    book.sums[87] = 1;
    book
}

/// Every length of each slice up to twice what it must be, and some beyond.
#[test]
fn every_length() {
    let (mut met, mut random) = (Met::default(), Random::new(0xA2_0000));
    for (regions, services) in SIZES {
        let whole = chained(&mut random, regions, services, 3).right(&mut random, 0);
        for slice in 0..7 {
            let right = right_length(&whole, slice);
            for length in 0..2 * right + 4 {
                let mut misfit = whole.clone();
                set_length(&mut misfit, slice, length);
                let due = if length == right { 0 } else { 11 };
                let number = number(&met.check(&misfit));
                assert_eq!(number, due, "slice {slice}, {length}");
            }
        }
    }
    met.say("every length");
}

/// Every cut of a day: 40 but between two intervals, where the bill for those before it is right, and wrong at the next with more or fewer
/// lines.
#[test]
fn every_cut() {
    let (mut met, mut random) = (Met::default(), Random::new(0xA3_0000));
    for (regions, services) in SIZES {
        let day = chained(&mut random, regions, services, 3);
        let (whole, length) = (day.right(&mut random, 0), intervals::length(&day.kept.book));
        for cut in 0..=3 * length {
            for lines in 0..=3 {
                let mut checking = whole.clone();
                checking.bill.records.truncate(cut);
                (3..7).for_each(|slice| set_length(&mut checking, slice, lines));
                let answer = met.check_listed(&day.kept.ledger, &checking);
                let read = cut / length;
                let due = match cut % length {
                    0 if lines == read => Ok(Judgement::Right),
                    0 => Ok(Judgement::Wrong(lines.min(read))),
                    _ => Err(Refusal {
                        number: 40,
                        place: 0,
                    }),
                };
                assert_eq!(answer, due, "cut at {cut}, {lines} lines");
            }
        }
    }
    met.say("every cut");
}

/// Every value of every byte of a day's records, with the lines that were right before: what is accepted, refused and then wrong.
#[test]
fn every_byte() {
    let (mut met, mut random) = (Met::default(), Random::new(0xA4_0000));
    for (regions, services) in [(1, 0), (2, 1)] {
        let day = chained(&mut random, regions, services, 2);
        let whole = day.right(&mut random, regions as usize - 1);
        for place in 0..whole.bill.records.len() {
            for value in 0..=255 {
                let mut checking = whole.clone();
                checking.bill.records[place] = value;
                let _ = met.check(&checking);
            }
        }
    }
    met.say("every byte");
    let kinds = ["yes", "13", "14", "15", "16", "17", "40", "41", "45"];
    met.at_least(&kinds.map(|kind| (kind, 100)));
    met.at_least(&[("wrong at 0", 10), ("wrong in the middle", 10)]);
}

/// One thing of one line, and of any two lines, off by one: the first of them is answered.
#[test]
fn every_line() {
    let (mut met, mut random) = (Met::default(), Random::new(0xA5_0000));
    for _ in 0..6 {
        let kept = Kept::any(&mut random);
        let day = Day::of(&mut random, kept, 8);
        let region = random.below(day.kept.book.regions.into());
        let whole = day.right(&mut random, region);
        let count = whole.bill.lines.numbers.len();
        if number(&met.check(&whole)) != 0 {
            continue;
        }
        for (one, two) in (0..count).flat_map(|one| (0..count).map(move |two| (one, two))) {
            for (first, second) in (0..6).flat_map(|one| (0..6).map(move |two| (one, two))) {
                let mut checking = whole.clone();
                off_by_one(&mut checking.bill.lines, one, first);
                if one != two {
                    off_by_one(&mut checking.bill.lines, two, second);
                }
                let answer = met.check(&checking);
                assert_eq!(answer, Ok(Judgement::Wrong(one.min(two))));
            }
        }
    }
    met.say("every line");
    assert!(met.all() >= 5_000);
}

/// A number, price or amount one more or one less.
fn off_by_one(lines: &mut Lines, line: usize, which: usize) {
    let by = if which.is_multiple_of(2) { 1 } else { -1 };
    match which / 2 {
        0 => lines.numbers[line] = lines.numbers[line].wrapping_add(by as u32),
        1 => lines.prices[line] += by,
        _ => lines.amounts[line] += i64::from(by),
    }
}

/// Amounts at the ends of prices and kilowatt-hours, at halves and beside them: that one is right, and those beside it aren't.
#[test]
fn every_amount() {
    let (mut met, most) = (Met::default(), 10_000_000);
    let kept = opened(&Opening {
        threshold: 100_000_000_000,
        ..books::opening(1, 0, 1, 1)
    });
    let near = [0, 1, 2, 3, 7, 100, 125, 249, 250, 499, 500, 501, 999, 1_000];
    let prices = near.into_iter().chain([60_000, 123_457, most - 1, most]);
    for price in prices.flat_map(|price: i32| [price, -price]) {
        let day = Day {
            kept: kept.clone(),
            schedule: vec![0; 2],
            intervals: vec![Interval {
                prices: vec![price],
                ..intervals::fitting(kept.ledger.shape())
            }],
        };
        for energy in (0..6).chain([499, 500, 501, 1_500, 2_500]) {
            amounts_beside(&mut met, &day, energy);
            amounts_beside(&mut met, &day, 1_000_000_000 - energy);
        }
    }
    met.say("every amount");
}

/// The right amount of a day of one interval, and those beside it.
fn amounts_beside(met: &mut Met, day: &Day, energy: u32) {
    let exact = i64::from(energy) * i64::from(day.intervals[0].prices[0]);
    let magnitude = (exact.abs() + 500) / 1_000;
    let mut checking = day.right(&mut Random::new(1), 0);
    checking.bill.lines.energy = vec![energy];
    for (by, due) in [
        (-1, Judgement::Wrong(0)),
        (0, Judgement::Right),
        (1, Judgement::Wrong(0)),
    ] {
        checking.bill.lines.amounts = vec![exact.signum() * magnitude + by];
        let answer = met.check_listed(&day.kept.ledger, &checking);
        assert_eq!(answer, Ok(due), "{checking:?}");
    }
}

/// "The real market has R 5, S 10, W 2,016, H 48": a day of 288 intervals after windows that have turned round, with periods that begin and
/// end; every region's bill is right, and with one line off wrong there.
#[test]
fn a_day_of_the_real_market() {
    let (mut met, mut random) = (Met::default(), Random::new(0xA6_0000));
    let day = real_day(&mut random);
    let mut capped = 0;
    for region in 0..5 {
        let mut whole = day.right(&mut random, region);
        let answer = met.check_listed(&day.kept.ledger, &whole);
        assert_eq!(answer, Ok(Judgement::Right));
        let prices = &whole.bill.lines.prices;
        let lines = day.intervals.iter().zip(prices);
        capped += lines
            .filter(|(interval, price)| interval.prices[11 * region] != **price)
            .count();
        let line = random.below(288);
        off_by_one(&mut whole.bill.lines, line, 2 + region % 4);
        assert_eq!(met.check(&whole), Ok(Judgement::Wrong(line)));
        (3..7).for_each(|slice| set_length(&mut whole, slice, line));
        assert_eq!(met.check(&whole), Ok(Judgement::Wrong(line)));
    }
    met.say(&format!(
        "a day of the real market, {capped} prices published otherwise"
    ));
    assert!(capped >= 50);
}

/// The day after 2,300 intervals of some weeks.
fn real_day(random: &mut Random) -> Day {
    let mut kept = opened(&Opening {
        parents: books::parents(&[255, 0, 0, 2, 2]),
        threshold: 60_000_000,
        first: 200,
        ..books::opening(5, 10, 2_016, 48)
    });
    kept.ledger = kept.ledger.cached();
    let mut weeks = Weeks::new(random, &kept.ledger);
    let shape = *kept.ledger.shape();
    for _ in 0..2_300 {
        let entry = weeks.entry(random, &kept.ledger);
        kept.call(&Call::Entry(entry, shape.ring(), vec![0; shape.prices()]));
    }
    week_day(random, &mut weeks, kept)
}

/// The next 288 intervals of some weeks.
fn week_day(random: &mut Random, weeks: &mut Weeks, kept: Kept) -> Day {
    let (mut after, mut intervals) = (kept.ledger.clone(), Vec::new());
    let shape = *after.shape();
    let mut schedule = Vec::new();
    for _ in 0..288 {
        let entry = weeks.entry(random, &after);
        intervals.push(Interval {
            number: entry.number,
            kind: entry.kind,
            prices: entry.prices.clone(),
            marks: entry.marks.clone(),
            flows: entry.flows.clone(),
            factors: entry.factors.clone(),
        });
        schedule.clone_from(&entry.schedule);
        let taken = after.enter(shape.ring(), entry, &mut vec![0; shape.prices()]);
        taken.expect("a valid entry");
    }
    Day {
        kept,
        schedule,
        intervals,
    }
}
