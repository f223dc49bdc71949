//! The schedule maker and the amount text through the crate `guxhamole`, against the independent ones, and schedules worked by hand.
//! The image check and the index stand in `compiled`.

use compare::lent::Lent;
use compare::{rounds, say};
use generator::makings::{self, Making};
use generator::Random;
use guxhamole::raw;
use independent::amount::amount_text;
use independent::maker::{make, Rows};
use std::collections::BTreeMap;

/// The rows, or a refusal's number and place.
type Made = Result<Rows, (u32, usize)>;

/// The maker both ways: what both answer. The rows of a refused answer are zeros.
fn same_schedule(making: &Making) -> Made {
    let &Making {
        halves,
        cap,
        floor,
        energy,
        ..
    } = making;
    let (prices, kinds) = (Lent::of(&making.prices), Lent::of(&making.kinds));
    let made = guxhamole::schedule(halves, cap, floor, energy, prices.slice(), kinds.slice());
    let made = made.map(|schedule| [schedule.weekday, schedule.weekend]);
    let made = made.map_err(|refusal| (refusal.number(), refusal.place().unwrap_or(0)));
    let expected = make(&making.lent()).map_err(|refusal| (refusal.number, refusal.place as usize));
    assert_eq!(made, expected, "{making:?}");
    let (number, place) = expected.err().unwrap_or_default();
    let [weekday, weekend]: Rows = expected.unwrap_or([[0; 48]; 2]);
    let rows = raw::Rows {
        number,
        place: place as u64,
        weekday,
        weekend,
    };
    // "0 is a service, anything else energy"
    let energies: &[u8] = if energy { &[1, 2, 128, 255] } else { &[0] };
    for &energy in energies {
        let again = raw::schedule(halves, (cap, floor), energy, prices.slice(), kinds.slice());
        assert_eq!(again, rows, "energy {energy}: {making:?}");
    }
    assert!(prices.holds(&making.prices) && kinds.holds(&making.kinds));
    made
}

/// How often calls were met, by what they are.
type Met = BTreeMap<String, u64>;

/// Counts a call under its H, under its number, and where a price is out of range, under where the first one stands.
fn count(met: &mut Met, halves: u8, making: &Making, number: u32) {
    let mut names = vec![format!("H {halves}: {number}"), number.to_string()];
    let bad = |&price: &i32| making.bad(price);
    if let Some(first) = making.prices.iter().position(bad) {
        names.push(format!("{number}, a price out of range"));
        if number == 16 {
            names.extend(of_first(making, first));
        }
    }
    for name in names {
        *met.entry(name).or_default() += 1;
    }
}

/// What the first price out of range is and where it stands.
fn of_first(making: &Making, first: usize) -> Vec<String> {
    let day = 6 * usize::from(making.halves);
    let mut names = vec![format!("16, kind {}", making.kinds[first / day])];
    let price = making.prices[first];
    let mut later = making.prices[first + 1..].iter();
    let alike = making.prices.iter().all(|&other| other == price);
    for (name, holds) in [
        ("16, a half-hour's first", first.is_multiple_of(6)),
        ("16, a half-hour's last", first % 6 == 5),
        ("16, a day's first", first.is_multiple_of(day)),
        ("16, a day's last", first % day == day - 1),
        (
            "16, others behind it",
            later.any(|&price| making.bad(price)),
        ),
        ("16, all the lowest", alike && price == i32::MIN),
        ("16, all the highest", alike && price == i32::MAX),
    ] {
        if holds {
            names.push(name.to_string());
        }
    }
    names
}

/// Every H in turn, and as many calls of small ones, for which the independent maker takes less time.
#[test]
fn schedules() {
    let (mut met, mut calls) = (Met::new(), 0);
    for round in 0..rounds() {
        let mut random = Random::new(0x2B_0000 + round);
        for turn in 0..12_000 {
            let halves = match turn % 2 {
                0 => (turn / 2 % 48 + 1) as u8,
                _ => random.between(1, 8) as u8,
            };
            let making = makings::making(&mut random, halves);
            let refused = same_schedule(&making).err();
            let number = refused.map_or(0, |(number, _)| number);
            count(&mut met, halves, &making, number);
            calls += 1;
        }
    }
    let often = |name: &str| met.get(name).copied().unwrap_or(0);
    for halves in 1..=48 {
        for (number, least) in [(0, 40), (16, 5), (31, 5), (32, 5), (19, 1)] {
            let name = format!("H {halves}: {number}");
            assert!(often(&name) >= least, "{name} met too seldom");
        }
    }
    let others: Vec<_> = met
        .iter()
        .filter(|(name, _)| !name.starts_with('H'))
        .collect();
    say(&format!(
        "schedule maker: {calls} calls, every H; answers {others:?}"
    ));
    assert!(calls >= 10_000);
    for name in NAMES {
        assert!(often(name) >= 50, "{name} met too seldom");
    }
}

/// What must be met often, beside every H.
const NAMES: [&str; 17] = [
    "0",
    "16",
    "19",
    "31",
    "32",
    "19, a price out of range",
    "31, a price out of range",
    "32, a price out of range",
    "16, kind 0",
    "16, kind 1",
    "16, a half-hour's first",
    "16, a half-hour's last",
    "16, a day's first",
    "16, a day's last",
    "16, others behind it",
    "16, all the lowest",
    "16, all the highest",
];

/// "Means of 2.5 and −2.5 cents: 3, −3."
#[test]
fn worked_schedule() {
    let mut prices = [2; 168];
    (3..168)
        .step_by(6)
        .for_each(|place| prices[place..place + 3].fill(3));
    let mut kinds = [0; 28];
    kinds[27] = 1;
    let made = guxhamole::schedule(1, 60_000, -60_000, true, &prices, &kinds).expect("a schedule");
    assert_eq!((made.weekday[0], made.weekend[0]), (3, 3));
    let below = prices.map(|price| -price);
    let made = guxhamole::schedule(1, 60_000, -60_000, true, &below, &kinds).expect("a schedule");
    assert_eq!((made.weekday[0], made.weekend[0]), (-3, -3));
    let refused = guxhamole::schedule(1, 60_000, -60_000, false, &below, &kinds);
    assert_eq!(refused, Err(guxhamole::Refusal::Price(0)));
}

/// A worked case: energy, within 60,000 cents.
fn energy(halves: u8, prices: &[i32], kinds: &[u8]) -> Making {
    Making {
        halves,
        cap: 60_000,
        floor: -60_000,
        energy: true,
        prices: prices.to_vec(),
        kinds: kinds.to_vec(),
    }
}

/// All days of kind 0 but one.
fn one_weekend(day: usize) -> [u8; 28] {
    let mut kinds = [0; 28];
    kinds[day] = 1;
    kinds
}

/// No prices but these, at their places, in days of one half-hour.
fn only(prices: &[(usize, i32)]) -> [i32; 168] {
    let mut all = [0; 168];
    prices.iter().for_each(|&(place, price)| all[place] = price);
    all
}

/// The rows of a maker's answer, as far as this H, and that zeros stand behind them.
fn begins(made: Made, halves: usize) -> [Vec<i32>; 2] {
    made.expect("a schedule").map(|row| {
        let (begin, rest) = row.split_at(halves);
        assert!(rest.iter().all(|&price| price == 0));
        begin.to_vec()
    })
}

/// Means of 1,015.5 and 2,016.5 and, in the second half-hour, a hundred more; 2.5, −2.5, and 15 / 162, which is nearest to 0; and the
/// highest prices, within the highest cap.
#[test]
fn worked_means() {
    let kinds: [u8; 28] = std::array::from_fn(|day| (day % 2) as u8);
    let price = |place: usize| {
        let (day, half, interval) = (place / 12, place / 6 % 2, place % 6);
        (1_000 * (day % 2 + 1) + 100 * half + interval + day) as i32
    };
    let prices: Vec<i32> = (0..336).map(price).collect();
    let made = begins(same_schedule(&energy(2, &prices, &kinds)), 2);
    assert_eq!(made, [[1_016, 1_116], [2_017, 2_117]]);
    let six = [2, 3, 2, 3, 2, 3];
    let mut prices = [0; 168];
    prices[..6].copy_from_slice(&six);
    prices[162..].copy_from_slice(&six);
    let made = begins(same_schedule(&energy(1, &prices, &one_weekend(27))), 1);
    assert_eq!(made, [[0], [3]]);
    let mut prices = [0; 168];
    prices[..6].copy_from_slice(&six.map(|price| -price));
    let made = begins(same_schedule(&energy(1, &prices, &one_weekend(0))), 1);
    assert_eq!(made, [[0], [-3]]);
    for halves in [1, 48] {
        let prices = vec![10_000_000; 168 * halves];
        let making = Making {
            cap: 10_000_000,
            floor: -1,
            ..energy(halves as u8, &prices, &one_weekend(27))
        };
        let made = begins(same_schedule(&making), halves);
        let full = vec![10_000_000; halves];
        assert_eq!(made, [full.clone(), full]);
    }
}

/// 16 at the first place of the slice, whatever the kind of its day; a price below 0 is a service's alone.
#[test]
fn worked_bad_prices() {
    let (kinds, beyond) = (one_weekend(1), 10_000_001);
    for (bad, place) in [
        (&[(7, beyond), (3, -beyond)][..], 3),
        (&[(167, beyond)], 167),
        (&[(5, beyond), (6, beyond)], 5),
        (&[(6, beyond), (12, beyond)], 6),
    ] {
        for kinds in [kinds, kinds.map(|kind| 1 - kind)] {
            let made = same_schedule(&energy(1, &only(bad), &kinds));
            assert_eq!(made, Err((16, place)));
        }
    }
    let lowest = energy(1, &[-2_147_483_648; 168], &kinds);
    assert_eq!(same_schedule(&lowest), Err((16, 0)));
    let mut below = energy(1, &only(&[(100, -1)]), &kinds);
    assert_eq!(begins(same_schedule(&below), 1), [[0], [0]]);
    below.energy = false;
    assert_eq!(same_schedule(&below), Err((16, 100)));
}

/// 31, 32 and 19 come before 16.
#[test]
fn worked_order() {
    let (bad, kinds) = ([10_000_001; 168 * 49], one_weekend(1));
    let one_kind = energy(1, &bad[..168], &[0; 28]);
    assert_eq!(same_schedule(&one_kind), Err((32, 0)));
    let mut no_cap = energy(1, &bad[..168], &kinds);
    no_cap.cap = 0;
    assert_eq!(same_schedule(&no_cap), Err((19, 0)));
    assert_eq!(same_schedule(&energy(49, &bad, &kinds)), Err((31, 0)));
}

/// An amount into a buffer of every length: the text, or 33; the rest of the buffer stays.
fn same_text(cents: i64) {
    let expected = amount_text(cents);
    for length in 0..guxhamole::TEXT_LENGTH + 3 {
        let mut buffer = Lent::filled(length);
        let text = guxhamole::amount_text(cents, buffer.slice_mut()).map(str::to_string);
        if length < expected.len() {
            assert_eq!(
                text,
                Err(guxhamole::Refusal::Text),
                "{cents}, room {length}"
            );
            assert!(buffer.holds(&[]), "{cents}, room {length}");
        } else {
            assert_eq!(text.as_deref(), Ok(&expected[..]), "{cents}, room {length}");
            assert!(buffer.holds(expected.as_bytes()), "{cents}, room {length}");
        }
    }
}

#[test]
fn amount_texts() {
    let mut amounts = vec![i64::MIN, i64::MIN + 1, i64::MAX];
    amounts.extend(-1_100..=1_100);
    for power in 0..19 {
        let ten = 10i64.pow(power);
        for near in [ten - 1, ten, ten + 1] {
            amounts.extend([near, -near]);
        }
    }
    let mut random = Random::new(0x2C_0000);
    for _ in 0..5_000 * rounds() {
        let shift = random.below(63);
        amounts.push((random.word() as i64) >> shift);
    }
    amounts.iter().for_each(|&cents| same_text(cents));
    say(&format!(
        "amount text: {} amounts, each into every room",
        amounts.len()
    ));
}
