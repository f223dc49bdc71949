//! Interval records, read, written and rewritten by the fast book, against `independent`: every answer, the slices and the buffer.

mod fields;

use fast::interval::{Interval, IntervalMut};
use fields::book_of;
use generator::intervals::{self, any_order, two, Reading, Rewriting, Writing};
use generator::Random;
use std::collections::BTreeMap;

/// Reads by both: the number that both answer.
fn read(reading: &Reading) -> u32 {
    let (mut found, mut expected) = (reading.lent.clone(), reading.lent.clone());
    let slices = IntervalMut {
        prices: &mut found.prices,
        marks: &mut found.marks,
        flows: &mut found.flows,
        factors: &mut found.factors,
    };
    let answer = book_of(&reading.book).read_interval(&reading.records, reading.at, slices);
    let answer = answer.map(|at| {
        (found.number, found.kind) = (at.number, at.kind);
        at.next
    });
    let next = reading
        .book
        .read_interval(&reading.records, reading.at, &mut expected);
    let number = next.err().map_or(0, |refusal| refusal.number);
    let answer = answer.map_err(|refusal| (refusal.number, refusal.place));
    assert_eq!(answer, next.map_err(|_| (number, 0)), "{reading:?}");
    assert_eq!(found, expected, "{reading:?}");
    number
}

/// Writes by both: the number that both answer.
fn write(writing: &Writing) -> u32 {
    let (mut buffer, mut expected) = (vec![0xA5; writing.buffer], vec![0xA5; writing.buffer]);
    let lent = Interval {
        number: writing.interval.number,
        kind: writing.interval.kind,
        prices: &writing.interval.prices,
        marks: &writing.interval.marks,
        flows: &writing.interval.flows,
        factors: &writing.interval.factors,
    };
    let answer = book_of(&writing.book).write_interval(&lent, &mut buffer);
    let length = writing
        .book
        .write_interval(&writing.interval, &mut expected);
    let number = length.err().map_or(0, |refusal| refusal.number);
    let answer = answer.map_err(|refusal| (refusal.number, refusal.place));
    assert_eq!(answer, length.map_err(|_| (number, 0)), "{writing:?}");
    assert_eq!(buffer, expected, "{writing:?}");
    number
}

/// Rewrites by both: the number that both answer.
fn rewrite(rewriting: &Rewriting) -> u32 {
    let filled = vec![0xA5; rewriting.buffer];
    let (mut buffer, mut expected) = (filled.clone(), filled);
    let (records, at) = (&rewriting.records, rewriting.at);
    let answer = book_of(&rewriting.book).rewrite_interval(records, at, &mut buffer);
    let next = rewriting.book.rewrite_interval(records, at, &mut expected);
    let number = next.err().map_or(0, |refusal| refusal.number);
    let answer = answer.map_err(|refusal| (refusal.number, refusal.place));
    assert_eq!(answer, next.map_err(|_| (number, 0)), "{rewriting:?}");
    assert_eq!(buffer, expected, "{rewriting:?}");
    number
}

#[test]
fn generated() {
    let (mut reads, mut writes) = (BTreeMap::new(), BTreeMap::new());
    let mut rewrites = BTreeMap::new();
    for seed in 0..6_000 {
        let mut random = Random::new(0x4000_0000 + seed);
        let book = intervals::book(&mut random);
        for _ in 0..12 {
            let reading = intervals::reading(&mut random, &book);
            *reads.entry(read(&reading)).or_insert(0) += 1;
            let number = rewrite(&intervals::rewriting(&mut random, &reading));
            *rewrites.entry(number).or_insert(0) += 1;
            let number = write(&intervals::writing(&mut random, &book));
            *writes.entry(number).or_insert(0) += 1;
        }
    }
    for number in [0, 10, 11, 40, 41, 45] {
        assert!(reads[&number] >= 1_000, "reader's {number} too seldom");
    }
    for number in [0, 10, 23, 40, 41, 42] {
        assert!(rewrites[&number] >= 1_000, "rewriter's {number} too seldom");
    }
    for number in [0, 10, 11, 23] {
        assert!(writes[&number] >= 1_000, "writer's {number} too seldom");
    }
}

/// Every value of every byte of intervals in some order and in number order, of one to five regions.
#[test]
fn every_byte() {
    let mut random = Random::new(0x4100_0000);
    let mut regions = 0;
    while regions < 5 {
        let book = intervals::book(&mut random);
        if book.regions != regions + 1 || book.services > 1 {
            continue;
        }
        regions += 1;
        let order = any_order(&mut random, regions.into());
        for whole in [two(&mut random, &book, &order), upward(&mut random, &book)] {
            for place in 0..intervals::length(&book) {
                for value in 0..=255 {
                    let mut reading = whole.clone();
                    reading.records[place] = value;
                    read(&reading);
                    rewrite(&intervals::rewriting(&mut random, &reading));
                }
            }
        }
    }
}

/// Two intervals in number order.
fn upward(random: &mut Random, book: &independent::book::Book) -> Reading {
    let [order, _] = intervals::up_and_down(book);
    two(random, book, &order)
}
