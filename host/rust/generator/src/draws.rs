//! Draws of a test load (request 2026-07 of document 02): seeds about which its rules turn, at any draw of an interval, with books
//! of every kind and slices that hold anything before.

use crate::intervals;
use crate::random::Random;
use independent::book::Book;
use independent::interval::Interval;

/// A draw: number and day kind of the interval are those given, its slices hold what they hold before.
#[derive(Clone, Debug, PartialEq, Eq)]
pub struct Drawing {
    pub book: Book,
    pub seed: u32,
    pub lent: Interval,
}

/// Numbers d about which a rule turns: the bound of the high price, and the ends of the remainders of energy, services, flows and
/// factors, the first ones and the last ones of 16 bits.
const TURNS: [u16; 25] = [
    0, 1, 62, 63, 64, 65, 1_999, 2_000, 2_001, 2_002, 2_999, 3_000, 3_001, 19_999, 20_000, 20_001,
    59_999, 60_000, 62_999, 63_000, 63_999, 64_000, 64_031, 64_032, 65_535,
];

/// Lower halves of s, which no number shows: at their ends and in the middle.
const LOWER: [u16; 3] = [0, 32_767, 65_535];

/// Each of these numbers d, with each of these lower halves.
pub fn turns() -> impl Iterator<Item = (u16, u16)> {
    let with_lower = |d: u16| LOWER.map(|lower| (d, lower));
    TURNS.into_iter().flat_map(with_lower)
}

/// How many draws an interval of a book takes: "its R × M prices, then flow and factor for each region", and "one more pair" for the
/// additional link (request 2026-10).
pub fn draws(book: &Book) -> usize {
    book.shape().prices() + 2 * book.shape().flows()
}

/// The s that a draw replaces by this one: 1,664,525 × 4,276,115,653 is 1 mod 2³², which undoes the product.
pub fn before(s: u32) -> u32 {
    s.wrapping_sub(1_013_904_223).wrapping_mul(4_276_115_653)
}

/// The seed from which the draw of a number, from 0 on, gives d with a lower half of s.
pub fn seed_of(draw: usize, d: u16, lower: u16) -> u32 {
    let s = u32::from(d) << 16 | u32::from(lower);
    (0..=draw).fold(s, |s, _| before(s))
}

/// Any seed, one at an end, or one with which a draw of the interval meets a number about which a rule turns.
pub fn seed(random: &mut Random, book: &Book) -> u32 {
    match random.below(8) {
        0 => random.pick(&[0, 1, 1 << 31, u32::MAX - 1, u32::MAX]),
        1..=3 => {
            let draw = random.below(draws(book));
            let lower = random.word() as u16;
            seed_of(draw, random.pick(&TURNS), lower)
        }
        _ => random.word() as u32,
    }
}

/// A draw by a book or, seldom, by a damaged one, into slices of which one is of another length now and then.
pub fn drawing(random: &mut Random, book: &Book) -> Drawing {
    let mut lent = intervals::interval(random, book);
    if random.chance(8) {
        intervals::misfit(random, &mut lent);
    }
    let seed = seed(random, book);
    let book = match random.chance(8) {
        true => intervals::damaged_book(random, book),
        false => book.clone(),
    };
    Drawing { book, seed, lent }
}
