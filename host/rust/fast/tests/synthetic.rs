//! Draws of a test load by the fast book, against `independent`: every answer and the slices, at every draw of every size.

mod fields;

use fast::interval::IntervalMut;
use fields::book_of;
use generator::draws::{self, Drawing};
use generator::{intervals, Random};
use std::collections::{BTreeMap, BTreeSet};

/// Draws by both: the number that both answer.
fn draw(drawing: &Drawing) -> u32 {
    let (mut found, mut expected) = (drawing.lent.clone(), drawing.lent.clone());
    let slices = IntervalMut {
        prices: &mut found.prices,
        marks: &mut found.marks,
        flows: &mut found.flows,
        factors: &mut found.factors,
    };
    let answer = book_of(&drawing.book).synthetic(drawing.seed, slices);
    let last = drawing.book.synthetic(drawing.seed, &mut expected);
    let number = last.err().map_or(0, |refusal| refusal.number);
    let answer = answer.map_err(|refusal| (refusal.number, refusal.place));
    assert_eq!(answer, last.map_err(|_| (number, 0)), "{drawing:?}");
    assert_eq!(found, expected, "{drawing:?}");
    number
}

#[test]
fn generated() {
    let mut met = BTreeMap::new();
    for seed in 0..4_000 {
        let mut random = Random::new(0x6000_0000 + seed);
        let book = intervals::book(&mut random);
        for _ in 0..12 {
            let number = draw(&draws::drawing(&mut random, &book));
            *met.entry(number).or_insert(0) += 1;
        }
    }
    for number in [0, 10, 11] {
        assert!(met[&number] >= 1_000, "{number} too seldom");
    }
}

/// Every draw of an interval gives every number about which a rule turns.
#[test]
fn every_draw() {
    let mut random = Random::new(0x6100_0000);
    let mut sizes = BTreeSet::new();
    while sizes.len() < 88 {
        let book = intervals::book(&mut random);
        if !sizes.insert((book.regions, book.services)) {
            continue;
        }
        for at in 0..draws::draws(&book) {
            for (d, lower) in draws::turns() {
                let drawing = Drawing {
                    seed: draws::seed_of(at, d, lower),
                    lent: intervals::interval(&mut random, &book),
                    book: book.clone(),
                };
                assert_eq!(draw(&drawing), 0);
            }
        }
    }
}
