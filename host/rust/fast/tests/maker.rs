//! The fast schedule maker: cases worked by hand, each with its answer, calls from a seed against `independent`, and what its pass
//! keeps after each day.

use fast::maker::{Rows, Running};
use generator::{makings, Random};
use independent::maker::make;
use std::array::from_fn;
use std::collections::BTreeMap;

/// The limits of the worked cases.
const CAP: i32 = 60_000;
const FLOOR: i32 = -60_000;

/// Energy within these limits: the rows, or a refusal's number and place.
fn energy(halves: u8, prices: &[i32], kinds: &[u8]) -> Result<Rows, (u32, u32)> {
    made(halves, (CAP, FLOOR), true, prices, kinds)
}

fn made(
    halves: u8,
    (cap, floor): (i32, i32),
    energy: bool,
    prices: &[i32],
    kinds: &[u8],
) -> Result<Rows, (u32, u32)> {
    let made = fast::schedule(halves, cap, floor, energy, prices, kinds);
    made.map_err(|refusal| (refusal.number, refusal.place))
}

/// Two rows that begin like this, zero behind it.
fn rows(weekday: &[i32], weekend: &[i32]) -> Rows {
    [weekday, weekend].map(|begin| {
        let mut row = [0; 48];
        row[..begin.len()].copy_from_slice(begin);
        row
    })
}

/// All days of kind 0 but one.
fn one_weekend(day: usize) -> [u8; 28] {
    let mut kinds = [0; 28];
    kinds[day] = 1;
    kinds
}

/// Means of 1,015.5 and 2,016.5, and a hundred more in the second half-hour.
#[test]
fn means() {
    let kinds: [u8; 28] = from_fn(|day| (day % 2) as u8);
    let price = |place: usize| {
        let (day, half, interval) = (place / 12, place / 6 % 2, place % 6);
        (1_000 * (day % 2 + 1) + 100 * half + interval + day) as i32
    };
    let prices: Vec<i32> = (0..336).map(price).collect();
    let expected = rows(&[1_016, 1_116], &[2_017, 2_117]);
    assert_eq!(energy(2, &prices, &kinds), Ok(expected));
}

/// Means of 2.5 and −2.5 cents; the weekdays' 15 / 162 is nearest to 0.
#[test]
fn half_cents() {
    let six = [2, 3, 2, 3, 2, 3];
    let mut prices = [0; 168];
    prices[..6].copy_from_slice(&six);
    prices[162..].copy_from_slice(&six);
    assert_eq!(energy(1, &prices, &one_weekend(27)), Ok(rows(&[0], &[3])));
    let mut prices = [0; 168];
    prices[..6].copy_from_slice(&six.map(|price| -price));
    assert_eq!(energy(1, &prices, &one_weekend(0)), Ok(rows(&[0], &[-3])));
}

/// The highest prices, held by the highest cap.
#[test]
fn highest() {
    let (limits, kinds) = ((10_000_000, -1), one_weekend(27));
    let prices = [10_000_000; 168 * 48];
    let full = [[10_000_000; 48]; 2];
    assert_eq!(made(48, limits, true, &prices, &kinds), Ok(full));
    let one = rows(&[10_000_000], &[10_000_000]);
    assert_eq!(made(1, limits, true, &prices[..168], &kinds), Ok(one));
}

/// 16 at the first place of the slice, whatever the kind of its day.
#[test]
fn bad_prices() {
    let kinds = one_weekend(1);
    let with = |bad: &[(usize, i32)]| {
        let mut prices = [0; 168];
        bad.iter().for_each(|&(place, price)| prices[place] = price);
        prices
    };
    let beyond = 10_000_001;
    for (bad, place) in [
        (&[(7, beyond), (3, -beyond)][..], 3),
        (&[(167, beyond)], 167),
        (&[(5, beyond), (6, beyond)], 5),
        (&[(6, beyond), (12, beyond)], 6),
    ] {
        for kinds in [kinds, kinds.map(|kind| 1 - kind)] {
            assert_eq!(energy(1, &with(bad), &kinds), Err((16, place)));
        }
    }
    assert_eq!(energy(1, &[i32::MIN; 168], &kinds), Err((16, 0)));
    let below = with(&[(100, -1)]);
    let service = made(1, (CAP, FLOOR), false, &below, &kinds);
    assert_eq!(service, Err((16, 100)));
    assert_eq!(energy(1, &below, &kinds), Ok(rows(&[0], &[0])));
}

/// 31, 32 and 19 come before 16.
#[test]
fn order_of_refusals() {
    let (bad, kinds) = ([10_000_001; 168 * 49], one_weekend(1));
    assert_eq!(energy(1, &bad[..168], &[0; 28]), Err((32, 0)));
    let no_cap = made(1, (0, FLOOR), true, &bad[..168], &kinds);
    assert_eq!(no_cap, Err((19, 0)));
    assert_eq!(energy(49, &bad, &kinds), Err((31, 0)));
}

#[test]
fn generated() {
    let mut met = BTreeMap::new();
    for seed in 0..4_800 {
        let mut random = Random::new(0x6000_0000 + seed);
        let making = makings::making(&mut random, (seed % 48 + 1) as u8);
        let limits = (making.cap, making.floor);
        let (prices, kinds) = (&making.prices, &making.kinds);
        let made = made(making.halves, limits, making.energy, prices, kinds);
        let expected = make(&making.lent()).map_err(|refusal| (refusal.number, refusal.place));
        assert_eq!(made, expected, "{making:?}");
        let number = expected.err().map_or(0, |(number, _)| number);
        *met.entry(number).or_insert(0) += 1;
    }
    for number in [0, 16, 19, 31, 32] {
        assert!(met[&number] >= 50, "{number} met too seldom");
    }
}

/// What the pass has to keep after these whole days: for each kind and half-hour its prices are looked up anew.
fn so_far(halves: usize, energy: bool, prices: &[i32], kinds: &[u8]) -> Running {
    let of_cell = |kind: usize, half: usize| -> Vec<i64> {
        let within = |place: usize| usize::from(kinds[place / 6 / halves]) == kind;
        let places = (0..prices.len()).filter(|place| place / 6 % halves == half);
        let places = places.filter(|&place| within(place));
        places.map(|place| prices[place].into()).collect()
    };
    let cells: [[Vec<i64>; 48]; 2] = from_fn(|kind| from_fn(|half| of_cell(kind, half)));
    let lowest = if energy { -10_000_000 } else { 0 };
    let bad = |&price: &i32| price < lowest || price > 10_000_000;
    Running {
        totals: from_fn(|kind| from_fn(|half| cells[kind][half].iter().sum())),
        counts: from_fn(|kind| from_fn(|half| cells[kind][half].len() as u32)),
        bad: prices.iter().position(bad).map(|place| place as u32),
    }
}

/// Prices, so many of a hundred out of some market's range.
fn any_prices(random: &mut Random, length: usize, percent: usize) -> Vec<i32> {
    let price = |_| {
        let (within, any) = (random.between(0, 10_000_000) as i32, random.word() as i32);
        let beyond = random.pick(&[any, i32::MIN, i32::MAX, 10_000_001, -10_000_001, -1]);
        if random.chance(percent) {
            beyond
        } else {
            within
        }
    };
    (0..length).map(price).collect()
}

/// After each day totals and counts are those of the days so far, whatever the prices: a bad one neither ends the pass nor spoils it.
#[test]
fn days_so_far() {
    let mut random = Random::new(0x6100_0000);
    for halves in [1, 2, 7, 48] {
        let length = 168 * halves;
        let mut weeks = vec![vec![i32::MIN; length], vec![i32::MAX; length]];
        weeks.extend([0, 1, 50, 100].map(|percent| any_prices(&mut random, length, percent)));
        for (number, prices) in weeks.iter().enumerate() {
            let kinds: [u8; 28] = from_fn(|_| random.chance(30).into());
            for days in 0..=28 {
                let (prices, kinds) = (&prices[..6 * halves * days], &kinds[..days]);
                let energy = (days + number) % 2 == 0;
                let mut kept = Running::NONE;
                kept.pass(halves, energy, prices, kinds);
                assert_eq!(kept, so_far(halves, energy, prices, kinds));
            }
        }
    }
}
