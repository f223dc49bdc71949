//! The compiled, proved functions against the independent ones.

use compare::{cutting, rounds, say};
use generator::{images, indexes, Random};
use independent::image::{self, HEAD_FAULTS};
use independent::index::index_for_c;
use std::collections::BTreeMap;

/// 0, or the number that the image check answers.
fn checked(image: &[u8]) -> u32 {
    guxhamole::check(image).map_or_else(|refusal| refusal.number(), |()| 0)
}

/// Compares one image; a difference prints the shortest image that shows one.
fn same_check(image: &[u8]) -> u32 {
    let expected = image::check(image);
    if checked(image) != expected {
        let short = cutting::shortest(image, |cut| checked(cut) != image::check(cut));
        let (proved, independent) = (checked(&short), image::check(&short));
        panic!("image check: compiled {proved}, independent {independent}, image {short:02x?}");
    }
    expected
}

/// The dollars, or minus the number that the index answers.
fn indexed(amount: u64, c: [u32; 4], b: [u32; 4], last: u64) -> i64 {
    match guxhamole::index(amount, c, b, last) {
        Ok(dollars) => dollars as i64,
        Err(refusal) => -i64::from(refusal.number()),
    }
}

/// What was met: each refusal, and each rule of 26.
#[derive(Default)]
struct Met {
    answers: BTreeMap<u32, u64>,
    faults: BTreeMap<&'static str, u64>,
}

impl Met {
    fn image(&mut self, image: &[u8]) {
        let answer = same_check(image);
        *self.answers.entry(answer).or_default() += 1;
        if answer == 26 {
            let fault = image::head_fault(image).unwrap_or("none");
            *self.faults.entry(fault).or_default() += 1;
        }
    }

    fn all(&self) -> u64 {
        self.answers.values().sum()
    }
}

#[test]
fn generated_images() {
    let mut met = Met::default();
    for round in 0..rounds() {
        let mut random = Random::new(0x1_0000 + round);
        for family in 0..10_000 {
            let valid = if family % 3 == 0 {
                images::listed(&mut random)
            } else {
                images::composed(&mut random)
            };
            assert_eq!(image::check(&valid), 0);
            met.image(&valid);
            for _ in 0..50 {
                met.image(&images::damaged(&mut random, &valid));
            }
            met.image(&images::scrambled(&mut random));
        }
    }
    say(&format!(
        "image check, generated: {} images, answers {:?}",
        met.all(),
        met.answers
    ));
    say(&format!("image check, refusals by 26: {:?}", met.faults));
    assert!(met.all() >= 200_000);
    for answer in [0, 16, 24, 25, 26, 27] {
        assert!(met.answers[&answer] >= 2_000, "{answer} met too seldom");
    }
    for fault in HEAD_FAULTS {
        let times = met.faults.get(fault).copied().unwrap_or(0);
        assert!(times >= 300, "{fault} met too seldom");
    }
}

/// Every value of every byte of the head, of images of several shapes.
#[test]
fn every_byte_of_the_head() {
    let mut met = Met::default();
    for round in 0..rounds() {
        let mut random = Random::new(0x2_0000 + round);
        for _ in 0..16 {
            let valid = images::composed(&mut random);
            for place in 0..valid.len().min(200) {
                let mut image = valid.clone();
                for value in 0..=255 {
                    image[place] = value;
                    met.image(&image);
                }
            }
        }
    }
    say(&format!(
        "image check, every byte: {} images, answers {:?}",
        met.all(),
        met.answers
    ));
}

/// Every length of an image up to past its end, with its length field as it was and mended.
#[test]
fn every_length() {
    let mut met = Met::default();
    let mut random = Random::new(0x3_0000);
    for _ in 0..40 {
        let valid = images::composed(&mut random);
        for length in 0..valid.len() + 9 {
            let mut image = valid.clone();
            image.resize(length, 0);
            met.image(&image);
            images::mend_length(&mut image);
            met.image(&image);
        }
    }
    say(&format!(
        "image check, every length: {} images, answers {:?}",
        met.all(),
        met.answers
    ));
}

/// The largest image: R 8, S 10, W 2,016, all full, 709,580 bytes.
#[test]
fn largest_image() {
    let mut fields = image::Fields {
        regions: 8,
        services: 10,
        window: 2_016,
        halves: 48,
        parents: [255, 0, 0, 1, 3, 4, 5, 6],
        from: 255,
        to: 255,
        entries: 10_000_000,
        position: 287,
        threshold: 100_000_000_000,
        cap: 10_000_000,
        floor: -10_000_000,
        counts: [2_016; 8],
        periods: [1; 88],
        prices: vec![10_000_000; 88 * 2_016],
    };
    assert_eq!(same_check(&fields.bytes()), 0);
    fields.prices[88 * 2_016 - 1] = -1;
    assert_eq!(same_check(&fields.bytes()), 16);
    fields.prices.pop();
    assert_eq!(same_check(&fields.bytes()), 27);
    fields.counts[7] = 2_017;
    assert_eq!(same_check(&fields.bytes()), 26);
}

#[test]
fn generated_indexes() {
    let (mut refused, mut last_kept, mut ties) = (0u64, 0u64, 0u64);
    let sets = 1_000_000 * rounds();
    let mut random = Random::new(0x4_0000);
    for _ in 0..sets {
        let indexes::Arguments { amount, c, b, last } = indexes::arguments(&mut random);
        let expected = index_for_c(amount, c, b, last);
        let proved = indexed(amount, c, b, last);
        assert_eq!(proved, expected, "index({amount}, {c:?}, {b:?}, {last})");
        if expected == -30 {
            refused += 1;
        } else {
            let total =
                |quarters: [u32; 4]| -> u64 { quarters.iter().map(|&q| u64::from(q)).sum() };
            last_kept += u64::from(expected as u64 == last);
            ties += u64::from(amount * total(c) % (100 * total(b)) * 2 == 100 * total(b));
        }
    }
    say(&format!(
        "index: {sets} argument sets, {refused} refused, {ties} ties, {last_kept} answered last year's"
    ));
    assert!(refused >= 20_000 && last_kept >= 20_000 && ties >= 2_000);
}

/// Each argument in turn at each bound and one past it, the others at each end of their ranges.
#[test]
fn index_bounds() {
    let (amounts, quarters) = ([1u64, 100_000_000], [1u32, 100_000]);
    let mut sets = 0;
    let mut same = |amount, c, b, last| {
        sets += 1;
        let proved = indexed(amount, c, b, last);
        assert_eq!(
            proved,
            index_for_c(amount, c, b, last),
            "index({amount}, {c:?}, {b:?}, {last})"
        );
    };
    for amount in amounts {
        for of_c in quarters {
            for of_b in quarters {
                for last in [0, 10_000_000_000_000] {
                    let (c, b) = ([of_c; 4], [of_b; 4]);
                    for amount in [0, 1, 2, 99_999_999, 100_000_000, 100_000_001, u64::MAX] {
                        same(amount, c, b, last);
                    }
                    for last in [
                        0,
                        1,
                        9_999_999_999_999,
                        10_000_000_000_000,
                        10_000_000_000_001,
                        u64::MAX,
                    ] {
                        same(amount, c, b, last);
                    }
                    for place in 0..4 {
                        for quarter in [0, 1, 2, 99_999, 100_000, 100_001, u32::MAX] {
                            let (mut changed_c, mut changed_b) = (c, b);
                            changed_c[place] = quarter;
                            changed_b[place] = quarter;
                            same(amount, changed_c, b, last);
                            same(amount, c, changed_b, last);
                        }
                    }
                }
            }
        }
    }
    say(&format!("index, bounds: {sets} argument sets"));
}

/// The comparison can fail: a check that forgets one rule is noticed, and cutting finds a short image.
#[test]
fn a_wrong_check_is_noticed() {
    let mut random = Random::new(0x5_0000);
    for forgotten in HEAD_FAULTS {
        let wrong = |image: &[u8]| match image::check(image) {
            26 if image::head_fault(image) == Some(forgotten) => 0,
            answer => answer,
        };
        let differs = |image: &[u8]| wrong(image) != image::check(image);
        let noticed = (0..20_000).find_map(|_| {
            let valid = images::composed(&mut random);
            let image = images::damaged(&mut random, &valid);
            differs(&image).then_some(image)
        });
        let short = noticed.map(|image| cutting::shortest(&image, differs));
        let short = short.expect("an image of this fault");
        let head = if short[4] == 2 { 156 } else { 148 };
        assert_eq!(short.len(), head, "{forgotten}");
    }
}
