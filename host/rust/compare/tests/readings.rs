//! The tests that the project's readings of document 01 name, by their numbers (A2 and so on).

use compare::books::*;
use independent::amount::{amount_text, write_amount};
use independent::image::{self, Fields};
use independent::index::index_for_c;
use independent::maker::{make, Making};
use independent::publishing::{passed_on, Bounds, CENT};
use independent::rounding::half_away;
use independent::rules::Refusal;
use independent::{Kind, Ledger, Opening};

const MOST: i32 = 10_000_000;

fn number(result: Result<Ledger, Refusal>) -> (u32, u32) {
    result.map_or_else(|refusal| (refusal.number, refusal.place), |_| (0, 0))
}

/// A ledger with some energy administered: one entry at the trigger's price.
fn triggered(settings: &Opening, regions: &[usize]) -> Ledger {
    let mut ledger = begin(settings);
    let mut prices = vec![0; ledger.shape().prices()];
    for &region in regions {
        prices[ledger.shape().place(region, 0)] = 100_000;
    }
    take_plain(&mut ledger, &prices);
    for region in 0..settings.regions {
        let mark = u32::from(regions.contains(&(region as usize)));
        assert_eq!(report(&ledger, region, 0).2, mark);
    }
    ledger
}

fn linked(first: &[u8]) -> Opening {
    Opening {
        parents: parents(first),
        ..worked(first.len() as u32, 0, 1, 1)
    }
}

/// Two regions, B's parent A, entry 1 after A was triggered.
fn two(prices: [i32; 2], flow: i32, factor: u32) -> (Vec<i32>, u32) {
    let mut ledger = triggered(&linked(&[255, 0]), &[0]);
    let mut entry = plain(&ledger, &prices);
    entry.flows[1] = flow;
    entry.factors[1] = factor;
    take(&mut ledger, entry)
}

#[test]
fn a2_to_a5_opening() {
    let good = Opening {
        parents: parents(&[255, 0]),
        ..opening(2, 0, 1, 1)
    };
    let with = |first: &[u8]| Opening {
        parents: parents(first),
        ..good
    };
    assert_eq!(number(Ledger::open(&with(&[255, 1]), 2)), (20, 0));
    assert_eq!(number(Ledger::open(&with(&[255, 255, 0]), 2)), (20, 0));
    assert_eq!(number(Ledger::open(&with(&[0]), 2)), (20, 0));
    let bad = Opening {
        threshold: 0,
        cap: 0,
        ..opening(1, 0, 1, 1)
    };
    assert_eq!(number(Ledger::open(&bad, 2)), (11, 0));
    assert_eq!(number(Ledger::open(&bad, 1)), (18, 0));
    let late = Opening {
        first: 6,
        ..opening(1, 0, 1, 1)
    };
    assert_eq!(number(Ledger::open(&late, 9)), (20, 0));
    let ok = opening(1, 0, 1, 1);
    assert_eq!(
        number(Ledger::open(&Opening { floor: 0, ..ok }, 1)),
        (19, 0)
    );
    assert_eq!(
        number(Ledger::open(&Opening { cap: MOST, ..ok }, 1)),
        (0, 0)
    );
}

#[test]
fn a17_to_a19_order() {
    let mut ledger = begin(&worked(2, 0, 1, 1));
    let mut entry = plain(&ledger, &[MOST + 1, 0]);
    entry.marks[1] = 2;
    assert_eq!(refused(&mut ledger, entry.clone()), (15, 1));
    entry.kind = 2;
    assert_eq!(refused(&mut ledger, entry.clone()), (14, 0));
    entry.number = 3;
    assert_eq!(refused(&mut ledger, entry.clone()), (13, 0));
    entry.schedule.pop();
    assert_eq!(refused(&mut ledger, entry), (11, 0));
}

#[test]
fn a20_the_last_entry() {
    let mut bytes = begin(&worked(1, 0, 1, 1)).image();
    bytes[20..24].copy_from_slice(&9_999_999u32.to_le_bytes());
    let mut ledger = Ledger::load(&bytes, 1).expect("an image");
    take_plain(&mut ledger, &[5]);
    assert_eq!(report(&ledger, 0, 0), (5, 1, 0, 10_000_000));
    let mut entry = plain(&ledger, &[5]);
    assert_eq!(refused(&mut ledger, entry.clone()), (12, 0));
    (entry.number, entry.kind) = (3, 9);
    assert_eq!(refused(&mut ledger, entry.clone()), (12, 0));
    entry.flows.push(0);
    assert_eq!(refused(&mut ledger, entry), (11, 0));
    assert_eq!(image::check(&ledger.image()), 0);
}

#[test]
fn a22_to_a26_places() {
    let mut ledger = begin(&worked(2, 1, 1, 1));
    let entry = plain(&ledger, &[0, -1, MOST + 1, 0]);
    assert_eq!(refused(&mut ledger, entry), (16, 1));
    for (energy, service, number) in [
        (MOST, MOST, 0),
        (-MOST, 0, 0),
        (MOST + 1, 0, 16),
        (-MOST - 1, 0, 16),
        (0, MOST + 1, 16),
    ] {
        let mut ledger = begin(&worked(1, 1, 1, 1));
        let entry = plain(&ledger, &[energy, service]);
        let result = ledger.enter(2, entry, &mut [0, 0]);
        assert_eq!(result.map_or_else(|refusal| refusal.number, |_| 0), number);
    }
    let mut entry = plain(&ledger, &[i32::MAX, -5, 0, 0]);
    entry.marks[0] = 1;
    entry.schedule.fill(i32::MIN);
    entry.flows[0] = i32::MIN;
    assert_eq!(take(&mut ledger, entry).0, [-60_000, 0, 0, 0]);
    let mut ledger = begin(&guide());
    let mut entry = plain(&ledger, &[0, 0, 0]);
    entry.factors = vec![0, 9_999, 0];
    assert_eq!(refused(&mut ledger, entry.clone()), (17, 1));
    entry.factors = vec![0, 20_001, 10_000];
    assert_eq!(refused(&mut ledger, entry.clone()), (17, 1));
    entry.factors = vec![4_000_000_000, 20_000, 10_000];
    take(&mut ledger, entry);
}

#[test]
fn a27_a28_settings_and_reports() {
    let mut ledger = begin(&worked(1, 0, 1, 1));
    for (threshold, number) in [
        (0, 18),
        (-1, 18),
        (100_000_000_001, 18),
        (1, 44),
        (10_000, 0),
    ] {
        let result = ledger.set_threshold(threshold);
        assert_eq!(result.map_or_else(|refusal| refusal.number, |()| 0), number);
    }
    let refusal = ledger.set_limits(5, 0).expect_err("a floor of 0");
    assert_eq!((refusal.number, ledger.settings().cap), (19, 60_000));
    for (region, market) in [(0, 1), (1, 0), (9, 0)] {
        let refusal = ledger.report(region, market).expect_err("an unused market");
        assert_eq!(refusal.number, 21);
    }
}

#[test]
fn a32_schedule_index() {
    let mut ledger = begin(&Opening {
        first: 5,
        ..worked(1, 0, 1, 2)
    });
    for expected in [3, 4] {
        let mut entry = plain(&ledger, &[0]);
        entry.kind = 1;
        entry.marks[0] = 1;
        entry.schedule = vec![1, 2, 3, 4];
        assert_eq!(take(&mut ledger, entry), (vec![expected], 0));
    }
}

#[test]
fn a33_scheduled_service_held_at_zero() {
    let mut ledger = begin(&worked(1, 1, 1, 1));
    assert_eq!(take_marked(&mut ledger, -70_000), (vec![-60_000, 0], 0));
}

#[test]
fn a34_services_capped() {
    let mut ledger = begin(&worked(1, 2, 1, 1));
    take_plain(&mut ledger, &[0, 100_000, 0]);
    let second = take_plain(&mut ledger, &[90_000, 10, 70_000]);
    assert_eq!(second, (vec![90_000, 10, 60_000], 1));
    let mut ledger = triggered(&worked(1, 2, 1, 1), &[0]);
    let second = take_plain(&mut ledger, &[-70_000, 70_000, 70_000]);
    assert_eq!(second, (vec![-60_000, 60_000, 60_000], 3));
}

#[test]
fn a35_at_the_cap() {
    assert_eq!(two([60_000, 90_000], 1, 11_000), (vec![60_000, 54_545], 1));
    assert_eq!(two([59_999, 90_000], 1, 11_000), (vec![59_999, 90_000], 0));
}

#[test]
fn a36_marked_source() {
    for (sources, expected) in [(&[0][..], (54_545, 1)), (&[], (90_000, 0))] {
        let mut ledger = triggered(&linked(&[255, 0]), sources);
        let mut entry = plain(&ledger, &[0, 90_000]);
        entry.marks[0] = 1;
        entry.schedule.fill(70_000);
        entry.flows[1] = 1;
        entry.factors[1] = 11_000;
        let (b, count) = expected;
        assert_eq!(take(&mut ledger, entry), (vec![60_000, b], count));
    }
}

#[test]
fn a37_limits_bind_marked_regions() {
    let mut ledger = triggered(&linked(&[255, 0]), &[0]);
    let mut entry = plain(&ledger, &[100_000, 0]);
    entry.marks[1] = 1;
    entry.schedule.fill(70_000);
    entry.flows[1] = 1;
    entry.factors[1] = 11_000;
    assert_eq!(take(&mut ledger, entry), (vec![60_000, 54_545], 2));
}

#[test]
fn a38_services_are_no_source() {
    let mut ledger = begin(&Opening {
        parents: parents(&[255, 0]),
        ..worked(2, 1, 1, 1)
    });
    take_plain(&mut ledger, &[0, 100_000, 0, 0]);
    let mut entry = plain(&ledger, &[90_000, 70_000, 90_000, 70_000]);
    entry.flows[1] = 1;
    let published = (vec![90_000, 60_000, 90_000, 70_000], 1);
    assert_eq!(take(&mut ledger, entry), published);
}

#[test]
fn a39_limits_travel_through() {
    let mut ledger = triggered(&guide(), &[0]);
    let mut entry = plain(&ledger, &[100_000, 10, 85_000]);
    entry.flows = vec![0, 1, 1];
    entry.factors = vec![0, 11_000, 10_800];
    assert_eq!(take(&mut ledger, entry), (vec![60_000, 10, 50_505], 2));
}

#[test]
fn a40_up_and_down() {
    let mut ledger = triggered(&linked(&[255, 0, 0, 2]), &[3]);
    let mut entry = plain(&ledger, &[90_000, 90_000, 90_000, 100_000]);
    entry.flows = vec![0, 1, -1, -1];
    entry.factors = vec![0, 11_000, 10_500, 10_800];
    let published = vec![52_910, 48_100, 55_556, 60_000];
    assert_eq!(take(&mut ledger, entry), (published, 4));
}

#[test]
fn a41_the_smallest_binds() {
    let mut ledger = triggered(&guide(), &[0, 1]);
    let mut entry = plain(&ledger, &[100_000, 90_000, 85_000]);
    entry.flows = vec![0, 1, 1];
    entry.factors = vec![0, 11_000, 10_800];
    assert_eq!(take(&mut ledger, entry).0, [60_000, 54_545, 50_505]);
}

/// B between A, the cap's source, and C, the floor's.
#[test]
fn a43_cap_and_floor() {
    for (b, expected) in [(90_000, 54_545), (-90_000, -64_800)] {
        let mut ledger = triggered(&guide(), &[0, 2]);
        let mut entry = plain(&ledger, &[100_000, b, -90_000]);
        entry.flows = vec![0, 1, 1];
        entry.factors = vec![0, 11_000, 10_800];
        assert_eq!(take(&mut ledger, entry).0, [60_000, expected, -60_000]);
    }
}

#[test]
fn a44_eight_regions_in_a_row() {
    let ledger = begin(&Opening {
        floor: -MOST,
        ..linked(&[255, 0, 1, 2, 3, 4, 5, 6])
    });
    let mut own = [Bounds::default(); 8];
    own[0].floor = Some(CENT * i128::from(-MOST));
    let bounds = passed_on(ledger.shape(), &[-1; 8], &[20_000; 8], &own);
    assert_eq!(bounds[7].floor, Some(CENT * -1_280_000_000));
    let mut ledger = ledger;
    take_plain(&mut ledger, &[100_000, 0, 0, 0, 0, 0, 0, 0]);
    let mut entry = plain(&ledger, &[-MOST; 8]);
    entry.flows = vec![-1; 8];
    entry.factors = vec![20_000; 8];
    assert_eq!(take(&mut ledger, entry), (vec![-MOST; 8], 0));
}

#[test]
fn a45_rounding() {
    assert_eq!(half_away(-60_001 * 15_000, 10_000), -90_002);
    assert_eq!(half_away(60_001 * 10_000, 20_000), 30_001);
    assert_eq!(half_away(-15_000, 10_000), -2);
    for (floor, price, expected) in [(-60_001, -95_000, -90_002), (-1, -95_000, -2)] {
        let mut ledger = triggered(&linked(&[255, 0]), &[0]);
        ledger.set_limits(60_001, floor).expect("limits");
        let mut entry = plain(&ledger, &[-70_000, price]);
        entry.flows[1] = -1;
        entry.factors[1] = 15_000;
        assert_eq!(take(&mut ledger, entry).0, [floor, expected]);
    }
    let mut ledger = triggered(&linked(&[255, 0]), &[0]);
    ledger.set_limits(60_001, -1).expect("limits");
    let mut entry = plain(&ledger, &[70_000, 95_000]);
    entry.flows[1] = 1;
    entry.factors[1] = 20_000;
    assert_eq!(take(&mut ledger, entry).0, [60_001, 30_001]);
}

#[test]
fn a46_floor_does_not_travel_upstream() {
    let mut ledger = triggered(&guide(), &[0]);
    let mut entry = plain(&ledger, &[-70_000, -90_000, -85_000]);
    entry.flows = vec![1, 1, 1];
    entry.factors = vec![0, 11_000, 10_800];
    assert_eq!(take(&mut ledger, entry).0, [-60_000, -90_000, -85_000]);
}

#[test]
fn a47_count() {
    let mut ledger = begin(&worked(1, 0, 1, 1));
    assert_eq!(take_marked(&mut ledger, 1_000_000), (vec![60_000], 0));
}

#[test]
fn a48_marks_before_the_entry() {
    let mut ledger = begin(&guide());
    let prices = [100_000, 90_000, 85_000];
    assert_eq!(take_plain(&mut ledger, &prices), (prices.to_vec(), 0));
}

#[test]
fn a49_marked_regions_too() {
    let mut ledger = begin(&worked(1, 0, 1, 1));
    ledger.set_threshold(70_000).expect("a threshold");
    take_plain(&mut ledger, &[60_000]);
    ledger.set_threshold(50_000).expect("a threshold");
    assert_eq!(report(&ledger, 0, 0).2, 0);
    take_marked(&mut ledger, 0);
    assert_eq!(report(&ledger, 0, 0).2, 1);

    let mut ledger = begin(&worked(1, 0, 1, 1));
    ledger.set_threshold(50_000).expect("a threshold");
    take_plain(&mut ledger, &[60_000]);
    ledger.set_threshold(70_000).expect("a threshold");
    for mark in [1, 1, 1, 1, 0] {
        take_marked(&mut ledger, 0);
        assert_eq!(report(&ledger, 0, 0).2, mark);
    }
}

#[test]
fn a50_at_the_end_of_the_day() {
    let mut ledger = begin(&Opening {
        first: 5,
        ..worked(1, 0, 1, 1)
    });
    take_plain(&mut ledger, &[100_000]);
    assert_eq!(report(&ledger, 0, 0).2, 1);
}

/// A51 and A52 are about a ring, of which the ledger knows the length alone; A52's number is held here.
#[test]
fn a52_number() {
    let after = 20_160_000_000i64 + 10_000_000 - i64::from(i32::MIN);
    assert_eq!(after, 22_317_483_648);
}

#[test]
fn a53_to_a57_images() {
    let mut ledger = begin(&worked(1, 1, 2, 1));
    take_plain(&mut ledger, &[1, 3]);
    take_plain(&mut ledger, &[2, 4]);
    let image = ledger.image();
    assert_eq!(image[40..44], [0xA0, 0x15, 0xFF, 0xFF]);
    let prices: Vec<u8> = [1, 2, 3, 4].map(|price: i32| price.to_le_bytes()).concat();
    assert_eq!(image[148..], prices);
    let changed = |offset: usize, bytes: &[u8]| {
        let mut image = image.clone();
        image[offset..offset + bytes.len()].copy_from_slice(bytes);
        image
    };
    let load = |bytes: &[u8], ring| number(Ledger::load(bytes, ring));
    assert_eq!(load(&image, 4), (0, 0));
    assert_eq!(load(&changed(28, &[0xFF; 8]), 4), (26, 0));
    assert_eq!(load(&image[..147], 4), (24, 0));
    assert_eq!(load(&[], 4), (24, 0));
    assert_eq!(load(&[&image[..], &[0]].concat(), 4), (24, 0));
    assert_eq!(load(&changed(4, &[3, 0, 0]), 4), (25, 0));
    assert_eq!(load(&changed(44, &[3, 0]), 4), (26, 0));
    assert_eq!(load(&changed(44, &[1, 0]), 9), (27, 0));
    let bad = changed(160, &[0xFF; 4]);
    assert_eq!(load(&bad, 5), (11, 0));
    assert_eq!(load(&bad, 4), (16, 3));
    assert_eq!(image::check(&bad), 16);
}

/// "Loading puts the oldest at the window's first place": a full window goes on as it would have.
#[test]
fn a58_full_window() {
    let mut ledger = begin(&worked(1, 0, 3, 1));
    for price in [1, 10, 100, 1_000, 10_000] {
        take_plain(&mut ledger, &[price]);
    }
    let image = ledger.image();
    assert_eq!(Fields::read(&image).prices, [100, 1_000, 10_000]);
    let mut loaded = Ledger::load(&image, 3).expect("an image");
    take_plain(&mut loaded, &[20_000]);
    assert_eq!(report(&loaded, 0, 0), (31_000, 3, 0, 6));
}

#[test]
fn a64_restart() {
    let mut ledger = begin(&worked(1, 0, 1, 1));
    take_plain(&mut ledger, &[1]);
    let number = |result: Result<(), Refusal>| result.map_or_else(|r| r.number, |()| 0);
    assert_eq!(number(ledger.restart(Kind::One, 152, 1)), 0);
    assert_eq!(number(ledger.restart(Kind::One, 151, 2)), 23);
    assert_eq!(number(ledger.restart(Kind::One, 200, 2)), 11);
    let mut buffer = [7; 155];
    assert_eq!(ledger.store(Kind::One, &mut buffer), Ok(152));
    assert_eq!(buffer[152..], [7, 7, 7]);
    assert!(ledger.store(Kind::One, &mut buffer[..151]).is_err());
}

#[test]
fn a72_index() {
    let ones = [1; 4];
    let index = |amount, last| index_for_c(amount, ones, ones, last);
    assert_eq!(index(50, 0), 100);
    assert_eq!(index(49, 0), 0);
    assert_eq!(index(150, 205), 205);
    let highest = 10_000_000_000_000;
    let most = index_for_c(100_000_000, [100_000; 4], ones, highest);
    assert_eq!(most, highest as i64);
    assert_eq!(index(1, highest + 1), -30);
    assert_eq!(index(1, u64::MAX), -30);
    assert_eq!(index(0, 0), -30);
}

#[test]
fn a74_a75_maker() {
    let mut kinds = [0; 28];
    let mut prices = vec![100; 28 * 12];
    let make = |halves, floor, energy, prices: &[i32], kinds: &[u8]| {
        let (cap, energy) = (60_000, energy);
        make(&Making {
            halves,
            cap,
            floor,
            energy,
            prices,
            kinds,
        })
    };
    let refusal = |number, place| Err(Refusal { number, place });
    prices[100] = MOST + 1;
    assert_eq!(make(2, 0, true, &prices, &kinds), refusal(32, 0));
    kinds[5] = 1;
    assert_eq!(make(2, 0, false, &prices, &kinds), refusal(19, 0));
    assert_eq!(make(2, -1, false, &prices, &kinds), refusal(16, 100));
    assert_eq!(make(0, -1, true, &[], &kinds), refusal(31, 0));
    assert_eq!(make(1, -1, true, &prices, &kinds), refusal(31, 0));
    assert_eq!(make(2, -1, true, &prices, &kinds[1..]), refusal(31, 0));
    prices[100] = 100;
    prices[60..72].copy_from_slice(&[6, 6, 6, 6, 6, 9, 90_000, 90_000, 90_000, 0, 90_000, 90_000]);
    let rows = make(2, -1, true, &prices, &kinds).expect("rows");
    let mut expected = [[0; 48]; 2];
    expected[0][..2].copy_from_slice(&[100, 100]);
    expected[1][..2].copy_from_slice(&[7, 60_000]);
    assert_eq!(rows, expected);
    prices[60] = -MOST;
    let rows = make(2, -1, true, &prices, &kinds).expect("rows");
    assert_eq!(rows[1][0], -1);
}

#[test]
fn a77_text() {
    for (cents, text) in [
        (-5, "-0.05"),
        (0, "0.00"),
        (95_000, "950.00"),
        (i64::MIN, "-92233720368547758.08"),
        (i64::MAX, "92233720368547758.07"),
    ] {
        assert_eq!(amount_text(cents), text);
        let mut buffer = vec![b'?'; text.len()];
        assert_eq!(write_amount(cents, &mut buffer), text.as_bytes());
        let mut short = vec![b'?'; text.len() - 1];
        assert!(write_amount(cents, &mut short).is_empty());
        assert!(short.iter().all(|&byte| byte == b'?'));
    }
}

/// The guide's threshold may be beyond every sum.
#[test]
fn a84_threshold_beyond_every_sum() {
    let mut ledger = open(&Opening {
        threshold: 100_000_000_000,
        ..opening(1, 0, 2_016, 48)
    });
    for _ in 0..30 {
        take_plain(&mut ledger, &[MOST]);
    }
    assert_eq!(report(&ledger, 0, 0), (300_000_000, 30, 0, 30));
}
