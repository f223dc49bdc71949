//! Questions for the intervals left: prices about which the answer turns, and refused ones.

use crate::random::Random;
use independent::rules::{price_allowed, threshold_allowed};
use independent::Ledger;

/// What is asked; of the lent ring its length alone is told.
#[derive(Clone, Copy, Debug, PartialEq, Eq)]
pub struct Question {
    pub ring: usize,
    pub region: u32,
    pub market: u32,
    pub price: i32,
}

/// The highest price, and of energy the lowest in the other direction.
const MOST: i64 = 10_000_000;

/// A market of the ledger.
fn market(random: &mut Random, ledger: &Ledger) -> (usize, usize) {
    let shape = ledger.shape();
    (random.below(shape.regions), random.below(shape.markets()))
}

/// A number of intervals, 1 to W, often one of the two.
fn intervals(random: &mut Random, window: usize) -> usize {
    match random.below(4) {
        0 => 1,
        1 => window,
        _ => 1 + random.below(window),
    }
}

/// The total of the counted prices that are left after so many further intervals.
pub(crate) fn staying(ledger: &Ledger, region: usize, market: usize, intervals: usize) -> i64 {
    let counted = ledger.counted(region, market);
    let left = (counted.len() + intervals).saturating_sub(ledger.shape().window);
    let staying = &counted[left.min(counted.len())..];
    staying.iter().map(|&price| i64::from(price)).sum()
}

fn within(market: usize, price: i64) -> i32 {
    let lowest = if market == 0 { -MOST } else { 0 };
    price.clamp(lowest, MOST) as i32
}

/// A valid price: mostly one at which the sum after some number of intervals about meets the threshold; else a bound, a small
/// one, the opposite of a counted one, or any.
fn price(random: &mut Random, ledger: &Ledger, region: usize, market: usize) -> i32 {
    let threshold = ledger.settings().threshold;
    let wanted = match random.below(20) {
        0 => random.pick(&[-MOST, -MOST + 1, MOST - 1, MOST]),
        1 => random.between(-2, 2),
        2 => random.between(-MOST, MOST),
        3 => random.between(-threshold.min(MOST), threshold.min(MOST)),
        4 => {
            let counted = ledger.counted(region, market);
            let old = counted.get(random.below(counted.len().max(1)));
            -old.map_or(0, |&price| i64::from(price))
        }
        _ => {
            let number = intervals(random, ledger.shape().window);
            let missing = threshold - staying(ledger, region, market, number);
            missing.div_euclid(number as i64) + random.between(0, 1)
        }
    };
    within(market, wanted)
}

/// A question that is accepted.
pub fn accepted(random: &mut Random, ledger: &Ledger) -> Question {
    let (region, market) = market(random, ledger);
    Question {
        ring: ledger.shape().ring(),
        region: region as u32,
        market: market as u32,
        price: price(random, ledger, region, market),
    }
}

/// A question, accepted in nine of ten; else refused by 11, 21 or 43, by one of them or several at once.
pub fn question(random: &mut Random, ledger: &Ledger) -> Question {
    let mut question = accepted(random, ledger);
    let times = if random.chance(10) { 3 } else { 0 };
    for _ in 0..random.below(times + 1) {
        match random.below(3) {
            0 => question.ring = wrong_length(random, ledger.shape().ring()),
            1 => (question.region, question.market) = no_market(random, ledger, &question),
            _ => question.price = wrong_price(random, question.market),
        }
    }
    question
}

/// A ring's length that is not this one.
pub fn wrong_length(random: &mut Random, ring: usize) -> usize {
    random.pick(&[0, ring - 1, ring + 1, 2 * ring])
}

/// A region from R up, a market from M up, or both.
pub fn no_market(random: &mut Random, ledger: &Ledger, question: &Question) -> (u32, u32) {
    let shape = ledger.shape();
    let region = random.pick(&[shape.regions as u32, 8, 1 << 31, u32::MAX]);
    let market = random.pick(&[shape.markets() as u32, 11, 1 << 31, u32::MAX]);
    match random.below(3) {
        0 => (region, question.market),
        1 => (question.region, market),
        _ => (region, market),
    }
}

/// A price out of a market's range.
pub fn wrong_price(random: &mut Random, market: u32) -> i32 {
    let prices = [10_000_001, i32::MAX, -10_000_001, i32::MIN, -1, -10_000_000];
    let wrong = prices.len() - if market == 0 { 2 } else { 0 };
    let price = random.pick(&prices[..wrong]);
    assert!(!price_allowed(market == 0, price));
    price
}

/// A question, and a threshold that its sum meets exactly after some number of intervals, or exceeds by one.
pub fn met(random: &mut Random, ledger: &Ledger) -> Option<(i64, Question)> {
    let question = accepted(random, ledger);
    let (region, market) = (question.region as usize, question.market as usize);
    let number = intervals(random, ledger.shape().window);
    let copies = number as i64 * i64::from(question.price);
    let sum = staying(ledger, region, market, number) + copies;
    let threshold = sum - random.between(0, 1);
    threshold_allowed(threshold.into()).then_some((threshold, question))
}
