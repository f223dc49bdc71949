//! Calls of the schedule maker: days of any H, prices up to every bound, and things wrong, one or two at a time, so that the order of
//! refusals shows.

use crate::Random;
use independent::maker;

const MOST: i32 = 10_000_000;

/// A call with what it lends.
#[derive(Clone, Debug)]
pub struct Making {
    pub halves: u8,
    pub cap: i32,
    pub floor: i32,
    pub energy: bool,
    pub prices: Vec<i32>,
    pub kinds: Vec<u8>,
}

impl Making {
    /// The call as the independent maker is made it.
    pub fn lent(&self) -> maker::Making<'_> {
        maker::Making {
            halves: self.halves.into(),
            cap: self.cap,
            floor: self.floor,
            energy: self.energy,
            prices: &self.prices,
            kinds: &self.kinds,
        }
    }

    /// Whether a price is out of range.
    pub fn bad(&self, price: i32) -> bool {
        let lowest = if self.energy { -MOST } else { 0 };
        !(lowest..=MOST).contains(&price)
    }
}

/// A call of this H, two in five with things wrong.
pub fn making(random: &mut Random, halves: u8) -> Making {
    let energy = random.chance(50);
    let mut making = Making {
        halves,
        cap: random.pick(&[60_000, 1, 7, MOST]),
        floor: random.pick(&[-60_000, -1, -7, -MOST]),
        energy,
        prices: prices(random, 168 * usize::from(halves), energy),
        kinds: kinds(random),
    };
    if random.chance(40) {
        for _ in 0..random.between(1, 2) {
            spoil(random, &mut making);
        }
    }
    making
}

/// Prices of a market: close together, so that means end in halves of a cent, at the bounds, or anywhere between them.
fn prices(random: &mut Random, length: usize, energy: bool) -> Vec<i32> {
    let about = random.between(-70_000, 70_000) as i32;
    let about = random.pick(&[about, about, 0, -1, MOST - 2, 2 - MOST]);
    let width = random.pick(&[0, 1, 1, 2, 60_000]);
    let bounds = if energy { [-MOST, MOST] } else { [0, MOST] };
    let way = random.below(10);
    let price = |_| match way {
        0 => random.pick(&bounds),
        1 | 2 => random.between(bounds[0].into(), bounds[1].into()) as i32,
        _ => {
            let near = i64::from(about) + random.between(0, width);
            near.clamp(bounds[0].into(), bounds[1].into()) as i32
        }
    };
    (0..length).map(price).collect()
}

/// Kinds of the 28 days: weeks, any days, or one day apart from all others, often the first or the last.
fn kinds(random: &mut Random) -> Vec<u8> {
    let share = random.pick(&[28, 50, 72]);
    let (alone, kind) = (random.below(28), random.pick(&[0, 1]));
    let alone = random.pick(&[0, alone, 27]);
    let way = random.below(3);
    let kind = |day: usize| match way {
        0 => (day % 7 >= 5).into(),
        1 => random.chance(share).into(),
        _ => kind ^ u8::from(day == alone),
    };
    (0..28).map(kind).collect()
}

/// One thing wrong.
fn spoil(random: &mut Random, making: &mut Making) {
    match random.below(9) {
        0 => {
            making.halves = random.pick(&[0, 49, 50, 255]);
            if random.chance(50) {
                let fitting = 168 * usize::from(making.halves);
                making.prices.resize(fitting, 0);
            }
        }
        1 => lengths(random, making),
        2 if !making.kinds.is_empty() => {
            let day = random.below(making.kinds.len());
            making.kinds[day] = random.pick(&[2, 255]);
        }
        3 => {
            let kind = random.pick(&[0, 1]);
            making.kinds.fill(kind);
        }
        4 => {
            let limits = [(0, -1), (1, 0), (MOST + 1, -1), (1, -MOST - 1)];
            (making.cap, making.floor) = random.pick(&limits);
        }
        _ => bad_prices(random, making),
    }
}

/// Prices or kinds of another number than 28 days have.
fn lengths(random: &mut Random, making: &mut Making) {
    let day = 6 * i64::from(making.halves);
    let other = |random: &mut Random, length: usize, by: &[i64]| {
        let by = random.pick(by);
        (length as i64 + by).max(0) as usize
    };
    if random.chance(50) {
        let length = other(
            random,
            making.prices.len(),
            &[-1, 1, -day, day, i64::MIN / 2],
        );
        making.prices.resize(length, 0);
    } else {
        let length = other(random, making.kinds.len(), &[-1, 1, i64::MIN / 2]);
        making.kinds.resize(length, 1);
    }
}

/// Prices out of range: one to three about the ends of half-hours and days, or at any places, or all of them.
fn bad_prices(random: &mut Random, making: &mut Making) {
    let beyond = [MOST + 1, -MOST - 1, i32::MIN, i32::MAX];
    if random.chance(15) {
        let price = random.pick(&beyond);
        return making.prices.fill(price);
    }
    let ends = random.chance(70);
    for _ in 0..random.between(1, 3) {
        let any = random.below(making.prices.len().max(1));
        let place = if ends {
            end(random, making.halves)
        } else {
            any
        };
        let price = match making.energy {
            true => random.pick(&beyond),
            false => random.pick(&[-1, -1, beyond[0], beyond[1], beyond[2], beyond[3]]),
        };
        if let Some(cell) = making.prices.get_mut(place) {
            *cell = price;
        }
    }
}

/// A place whose day, half-hour and interval of it are each often the first or the last.
fn end(random: &mut Random, halves: u8) -> usize {
    let mut one_of = |number: usize| {
        let any = random.below(number);
        random.pick(&[0, any, number - 1])
    };
    let halves = usize::from(halves.max(1));
    let (day, half, interval) = (one_of(28), one_of(halves), one_of(6));
    6 * (halves * day + half) + interval
}
