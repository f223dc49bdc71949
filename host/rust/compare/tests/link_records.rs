//! Interval records with an additional link (kind 18, request 2026-10 of document 02), its test load and its bills, by the independent
//! code and the compiled functions: readers against those of the same book without the link and a record behind, round trips of writer,
//! reader and rewriter, and wrong readers, each told apart many times.

use compare::links::opening;
use compare::{bills as billing, intervals as recorded, rewriting as rewritten, say, synthetic};
use generator::bills::{self, Day, Kept};
use generator::{calls, draws, intervals, Random};
use independent::bill::Judgement;
use independent::book::Book;
use independent::interval::Interval;
use independent::{Ledger, Opening, Refusal};
use std::collections::BTreeMap;

/// A book as it is opened; of any eight regions.
fn book(random: &mut Random) -> Book {
    opened(&opening(random, 8)).book
}

fn opened(opening: &Opening) -> Kept {
    let mut ring = vec![0; calls::ring_length(opening)];
    Kept {
        ledger: Ledger::open(opening, ring.len()).expect("a valid opening"),
        book: Book::open(opening, &mut ring).expect("a valid opening"),
        ring,
    }
}

/// The same book without the link.
fn without(book: &Book) -> Book {
    Book {
        from: 255,
        to: 255,
        ..book.clone()
    }
}

/// What a reading gives.
type Read = Result<(Interval, usize), u32>;

fn number(refusal: Refusal) -> u32 {
    refusal.number
}

/// The link's record at a place: `wrong` is what a wrong reader does with it.
fn link_at(bytes: &[u8], at: usize, markets: usize, wrong: &str) -> Result<(i32, u32), u32> {
    let rest = &bytes[at..];
    if rest.len() < 6 {
        return Err(if wrong == "none left is 41" { 41 } else { 40 });
    }
    let four = |place: usize| u32::from_le_bytes(rest[place..place + 4].try_into().expect("four"));
    let (length, kind) = (four(0) as usize, u16::from_le_bytes([rest[4], rest[5]]));
    let known = match kind {
        16 => 12,
        17 => 16 + 4 * markets,
        18 if wrong != "18 has any length" => 14,
        _ => length,
    };
    if length < 6 || length > rest.len() || length != known {
        return Err(40);
    }
    if kind != 18 {
        return Err(if wrong == "another kind is 40" {
            40
        } else {
            41
        });
    }
    if length != 14 {
        return Err(41);
    }
    Ok(match wrong {
        "factor first" => (four(10) as i32, four(6)),
        _ => (four(6) as i32, four(10)),
    })
}

/// A reading by the book without the link and of the record behind it.
fn read(book: &Book, earlier: bool, bytes: &[u8], at: usize, wrong: &str) -> Read {
    let plain = without(book);
    let mut interval = intervals::fitting(&plain.shape());
    let read = match earlier {
        true => plain.read_earlier(bytes, at, &mut interval),
        false => plain.read_interval(bytes, at, &mut interval),
    };
    let next = read.map_err(number)?;
    if book.from == 255 || wrong == "no link's record" {
        return Ok((interval, next));
    }
    let (flow, factor) = link_at(bytes, next, book.shape().markets(), wrong)?;
    interval.flows.push(flow);
    interval.factors.push(factor);
    Ok((interval, next + 14))
}

const WRONG: [&str; 5] = [
    "none left is 41",
    "18 has any length",
    "another kind is 40",
    "factor first",
    "no link's record",
];

#[derive(Default)]
struct Met {
    answers: BTreeMap<(&'static str, u32), usize>,
    told: BTreeMap<&'static str, usize>,
}

impl Met {
    fn note<T>(&mut self, call: &'static str, answer: &Result<T, u32>) {
        let number = answer.as_ref().err().copied().unwrap_or(0);
        *self.answers.entry((call, number)).or_default() += 1;
    }

    /// Both readers and the rewriter about the same bytes, and the compiled reader and rewriter.
    fn reading(&mut self, random: &mut Random, reading: &intervals::Reading) {
        let (book, at) = (&reading.book, reading.at);
        let _ = recorded::read(reading);
        for earlier in [false, true] {
            let mut lent = reading.lent.clone();
            let answer = match earlier {
                true => book.read_earlier(&reading.records, at, &mut lent),
                false => book.read_interval(&reading.records, at, &mut lent),
            };
            let answer = answer.map(|next| (lent.clone(), next)).map_err(number);
            self.note(if earlier { "earlier" } else { "read" }, &answer);
            assert!(answer.is_ok() || lent == reading.lent);
            if [Err(10), Err(11)].contains(&answer) {
                continue;
            }
            let bytes = &reading.records;
            assert_eq!(
                read(book, earlier, bytes, at.min(bytes.len()), ""),
                answer,
                "{reading:?}"
            );
            for wrong in WRONG {
                let other = read(book, earlier, bytes, at.min(bytes.len()), wrong) != answer;
                *self.told.entry(wrong).or_default() += usize::from(other);
            }
        }
        self.rewriting(&intervals::rewriting(random, reading));
    }

    /// What is rewritten is what the writer makes of the earlier reader's entry.
    fn rewriting(&mut self, rewriting: &intervals::Rewriting) {
        let intervals::Rewriting {
            book, records, at, ..
        } = rewriting;
        let _ = rewritten::rewrite(rewriting);
        let mut buffer = vec![77; rewriting.buffer];
        let answer = book.rewrite_interval(records, *at, &mut buffer);
        let answer = answer.map_err(number);
        self.note("rewrite", &answer);
        let mut expected = vec![77; rewriting.buffer];
        let right = if book.fault().is_some() {
            Err(10)
        } else if rewriting.buffer < intervals::length(book) {
            Err(23)
        } else {
            read(book, true, records, (*at).min(records.len()), "").map(|(interval, next)| {
                let written = book.write_interval(&interval, &mut expected);
                assert_eq!(written, Ok(intervals::length(book)));
                next
            })
        };
        assert_eq!((answer, buffer), (right, expected));
    }
}

#[test]
fn damaged_records() {
    let (mut random, mut met) = (Random::new(18), Met::default());
    for _ in 0..30_000 {
        let book = book(&mut random);
        let reading = intervals::reading(&mut random, &book);
        met.reading(&mut random, &reading);
    }
    say(&format!(
        "links, records: {:?}; told apart {:?}",
        met.answers, met.told
    ));
    for call in ["read", "earlier", "rewrite"] {
        let refused: &[u32] = match call {
            "read" => &[0, 10, 11, 40, 41, 45],
            "earlier" => &[0, 10, 11, 40, 41, 42],
            _ => &[0, 10, 23, 40, 41, 42],
        };
        assert!(refused
            .iter()
            .all(|&number| met.answers[&(call, number)] > 50));
    }
    assert!(
        met.told.values().all(|&times| times > 100),
        "{:?}",
        met.told
    );
}

/// What is written reads and is rewritten to itself, from any order of its regions, and is what records are made of.
#[test]
fn round_trips() {
    let mut random = Random::new(14);
    let mut linked = 0;
    for _ in 0..5_000 {
        let book = book(&mut random);
        let (regions, markets) = (usize::from(book.regions), book.shape().markets());
        let interval = intervals::interval(&mut random, &book);
        let upward: Vec<usize> = (0..regions).collect();
        let records = intervals::records(&interval, markets, &upward);
        let mut buffer = vec![0; records.len()];
        assert_eq!(
            book.write_interval(&interval, &mut buffer),
            Ok(records.len())
        );
        assert_eq!(buffer, records);
        let short = book.write_interval(&interval, &mut buffer[1..]);
        assert_eq!(short.map_err(number), Err(23));
        let writing = intervals::Writing {
            book: book.clone(),
            interval: interval.clone(),
            buffer: records.len(),
        };
        assert_eq!(recorded::write(&writing).as_ref(), Ok(&records));
        let order = intervals::any_order(&mut random, regions);
        let other = intervals::records(&interval, markets, &order);
        let mut rewritten = vec![0; records.len()];
        let next = book.rewrite_interval(&other, 0, &mut rewritten);
        assert_eq!((next, &rewritten), (Ok(records.len()), &records));
        assert_eq!(
            read(&book, false, &records, 0, ""),
            Ok((interval, records.len()))
        );
        linked += usize::from(book.from != 255);
    }
    say(&format!(
        "links, records: 5000 round trips, {linked} with the link"
    ));
    assert!(linked > 3_000);
}

/// 18 is a known kind in every book: another length than 14 is 40, before 41.
#[test]
fn met_elsewhere() {
    let mut random = Random::new(41);
    let linked = loop {
        let book = book(&mut random);
        if book.from != 255 {
            break book;
        }
    };
    let markets = linked.shape().markets();
    for book in [linked.clone(), without(&linked)] {
        let interval = intervals::interval(&mut random, &book);
        let upward: Vec<usize> = (0..book.regions.into()).collect();
        let records = intervals::records(&interval, markets, &upward);
        for place in [0, 12] {
            for (length, refused) in [(14, 41), (13, 40), (15, 40), (20, 40)] {
                let mut link = vec![length, 0, 0, 0, 18, 0];
                link.resize(length.into(), 0);
                let bytes = [&records[..place], &link, &records[place..]].concat();
                let reading = intervals::Reading {
                    lent: intervals::fitting(&book.shape()),
                    book: book.clone(),
                    records: bytes,
                    at: 0,
                };
                let read = recorded::read(&reading).map_err(number);
                assert_eq!(read.map(|read| read.next), Err(refused));
                let room = intervals::rewriting_into(&reading, intervals::length(&book));
                let rewritten = rewritten::rewrite(&room).map_err(number);
                assert_eq!(rewritten.map(|done| done.next), Err(refused));
            }
        }
    }
}

/// "A test load draws one more pair for it": the draws of the book without the link, and two more.
#[test]
fn test_loads() {
    let mut random = Random::new(7);
    let mut linked = 0;
    for _ in 0..20_000 {
        let book = book(&mut random);
        let (plain, seed) = (without(&book), draws::seed(&mut random, &book));
        let mut expected = intervals::fitting(&plain.shape());
        let drawing = draws::Drawing {
            lent: intervals::fitting(&book.shape()),
            book,
            seed,
        };
        let by_both = synthetic::draw(&drawing).expect("slices that fit");
        let (last, drawn, book) = (by_both.seed, by_both.interval, drawing.book);
        let mut s = plain
            .synthetic(seed, &mut expected)
            .expect("slices that fit");
        if book.from != 255 {
            let mut d = || {
                s = s.wrapping_mul(1_664_525).wrapping_add(1_013_904_223);
                s >> 16
            };
            expected.flows.push((d() % 2_001) as i32 - 1_000);
            expected.factors.push(10_000 + d() % 2_000);
            assert_eq!(
                plain.synthetic(seed, &mut drawn.clone()).map_err(number),
                Err(11)
            );
            linked += 1;
        }
        assert_eq!((last, &drawn), (s, &expected));
    }
    say(&format!(
        "links, test load: 20000 draws, {linked} with the link"
    ));
    assert!(linked > 12_000);
}

/// Bills by the ledger and by the book: right lines are right, and changed ones are judged alike.
#[test]
fn judged_bills() {
    let (mut random, mut met) = (Random::new(9), BTreeMap::new());
    for _ in 0..4_000 {
        let mut kept = opened(&opening(&mut random, 4));
        for _ in 0..random.below(8) {
            let call = calls::call(&mut random, &kept.ledger);
            kept.call(&call);
        }
        let length = random.below(6);
        let day = Day::of(&mut random, kept, length);
        let right = day.right(&mut random, 0);
        assert_eq!(judged(&day, &right), Ok(Judgement::Right));
        let (checking, _) = bills::checking(&mut random, &day);
        let answer = judged(&day, &checking);
        let kind = match answer {
            Ok(Judgement::Right) => "right".to_string(),
            Ok(Judgement::Wrong(_)) => "wrong".to_string(),
            Err(refusal) => refusal.number.to_string(),
        };
        *met.entry(kind).or_insert(0) += 1;
    }
    say(&format!("links, bills: 4000 right ones, then {met:?}"));
    assert!(["right", "wrong", "17", "40", "41", "45", "46"]
        .iter()
        .all(|&kind| met[kind] > 5));
}

/// What the books answer, the compiled one too, and the ledger where it led there.
fn judged(day: &Day, checking: &bills::Checking) -> Result<Judgement, Refusal> {
    match checking.listed {
        true => billing::check_listed(&day.kept.ledger, checking),
        false => billing::check(checking),
    }
}
