//! Arguments of the index, around every bound and every tie.

use crate::random::Random;

#[derive(Clone, Copy, Debug, PartialEq, Eq)]
pub struct Arguments {
    pub amount: u64,
    pub c: [u32; 4],
    pub b: [u32; 4],
    pub last: u64,
}

const MOST_AMOUNT: u64 = 100_000_000;
const MOST_QUARTER: u32 = 100_000;
const MOST_LAST: u64 = 10_000_000_000_000;

fn amount(random: &mut Random) -> u64 {
    match random.below(6) {
        0 => random.pick(&[1, 2, 49, 50, 51, 99, 100, 149, 150, 151]),
        1 => MOST_AMOUNT - random.below(3) as u64,
        2 => 50 * random.between(1, 2_000_000) as u64,
        3 => random.between(1, 10_000) as u64,
        _ => random.between(1, MOST_AMOUNT as i64) as u64,
    }
}

fn quarter(random: &mut Random, typical: u32) -> u32 {
    match random.below(6) {
        0 => random.pick(&[1, 2, MOST_QUARTER - 1, MOST_QUARTER]),
        1 => random.between(1, MOST_QUARTER.into()) as u32,
        _ => typical,
    }
}

/// What the index would be without last year's, roughly and without regard to rounding.
fn about(amount: u64, c: [u32; 4], b: [u32; 4]) -> u64 {
    let total = |quarters: [u32; 4]| -> u128 { quarters.iter().map(|&q| u128::from(q)).sum() };
    (u128::from(amount) * total(c) / total(b).max(1)).min(u128::from(MOST_LAST)) as u64
}

/// Arguments that are accepted, or a few of them past a bound.
pub fn arguments(random: &mut Random) -> Arguments {
    let typical = [
        random.pick(&[1, 961, 1_194]),
        random.pick(&[1, 2, 961, 1_111]),
    ];
    let (mut c, mut b) = ([typical[0]; 4], [typical[1]; 4]);
    if random.chance(75) {
        for place in 0..4 {
            c[place] = quarter(random, typical[0]);
            b[place] = quarter(random, typical[1]);
        }
    }
    let amount = amount(random);
    let near = about(amount, c, b);
    let last = match random.below(6) {
        0 => 0,
        1 => random.pick(&[1, MOST_LAST - 1, MOST_LAST]),
        2 => random.between(0, MOST_LAST as i64) as u64,
        3 => near,
        4 => near.saturating_sub(random.below(200) as u64),
        _ => (near + random.below(200) as u64).min(MOST_LAST),
    };
    let mut arguments = Arguments { amount, c, b, last };
    if random.chance(40) {
        for _ in 0..random.pick(&[1, 1, 1, 2]) {
            spoil(random, &mut arguments);
        }
    }
    arguments
}

/// One argument at a bound or past it.
fn spoil(random: &mut Random, arguments: &mut Arguments) {
    let past_amounts = [0, MOST_AMOUNT, MOST_AMOUNT + 1, 1 << 32, 1 << 63, u64::MAX];
    let past_lasts = [
        MOST_LAST,
        MOST_LAST + 1,
        1 << 63,
        (1 << 63) - 1,
        u64::MAX,
        u64::MAX - 29,
    ];
    let past_quarters = [0, MOST_QUARTER, MOST_QUARTER + 1, 1 << 31, u32::MAX];
    match random.below(10) {
        0 => arguments.amount = random.pick(&past_amounts),
        1 => arguments.last = random.pick(&past_lasts),
        place @ 2..=5 => arguments.c[place - 2] = random.pick(&past_quarters),
        place => arguments.b[place - 6] = random.pick(&past_quarters),
    }
}
