//! Bills by the fast book, against the ledger and the book of `independent`: every answer, and the second ring whole.

mod fields;

use fast::bill::{Judgement, Lines};
use fields::book_of;
use generator::bills::{self, Checking, Day};
use generator::Random;
use independent::bill::Judgement as Judged;
use independent::Ledger;
use std::collections::BTreeMap;

/// Checks by both, and by the ledger where a list led to the book: the number that they answer, or 0 for yes and 1 for a wrong line.
fn check(ledger: &Ledger, checking: &Checking) -> u32 {
    let Checking {
        book, ring, bill, ..
    } = checking;
    let (mut work, mut expected_work) = (checking.work.clone(), checking.work.clone());
    let expected = book.check_bill(ring, &mut expected_work, bill);
    let lines = Lines {
        numbers: &bill.lines.numbers,
        energy: &bill.lines.energy,
        prices: &bill.lines.prices,
        amounts: &bill.lines.amounts,
    };
    let (records, schedule) = (&bill.records, &bill.schedule);
    let checked = book_of(book).check_bill(ring, &mut work, records, schedule, bill.region, lines);
    let told = checked.map(|judgement| match judgement {
        Judgement::Right => Judged::Right,
        Judgement::Wrong(line) => Judged::Wrong(line),
    });
    let told = told.map_err(|refusal| (refusal.number, refusal.place));
    let wanted = expected.map_err(|refusal| (refusal.number, refusal.place));
    assert_eq!(told, wanted, "{checking:?}");
    assert_eq!(work, expected_work, "{checking:?}");
    if checking.listed {
        let (answer, _) = ledger.check_bill(ring.len(), work.len(), bill);
        assert_eq!(answer, expected, "{checking:?}");
    }
    match expected {
        Ok(Judged::Right) => 0,
        Ok(Judged::Wrong(_)) => 1,
        Err(refusal) => refusal.number,
    }
}

#[test]
fn generated() {
    let mut met: BTreeMap<u32, u64> = BTreeMap::new();
    for seed in 0..1_500 {
        let mut random = Random::new(0x7000_0000 + seed);
        let day = Day::any(&mut random);
        for _ in 0..10 {
            let (checking, _) = bills::checking(&mut random, &day);
            let number = check(&day.kept.ledger, &checking);
            *met.entry(number).or_default() += 1;
        }
    }
    for number in [0, 1] {
        assert!(met[&number] >= 3_000, "{number} too seldom: {met:?}");
    }
    for number in [10, 11, 12, 13, 14, 15, 16, 17, 21, 40, 41, 45, 46] {
        let times = met.get(&number).copied().unwrap_or(0);
        assert!(times >= 100, "{number}: met {times} times");
    }
}
