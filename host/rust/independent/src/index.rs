//! "Index, in whole dollars".

use crate::rounding::half_up;
use crate::rules::{unless, Refusal};

/// "amount × (four quarters of year c) / (four of year b), quarters in tenths, to the nearest 100 dollars, half up, and
/// never below last year's". "Index: 30, a quarter outside 1..100,000, amount outside 1..100,000,000, last year's above
/// 10,000,000,000,000."
pub fn index(amount: u64, c: [u32; 4], b: [u32; 4], last: u64) -> Result<u64, Refusal> {
    let mut quarters = c.iter().chain(&b);
    unless(quarters.all(|quarter| (1..=100_000).contains(quarter)), 30)?;
    unless((1..=100_000_000).contains(&amount), 30)?;
    unless(last <= 10_000_000_000_000, 30)?;
    let total = |quarters: [u32; 4]| -> i128 { quarters.iter().map(|&q| i128::from(q)).sum() };
    let hundreds = half_up(i128::from(amount) * total(c), total(b) * 100);
    let indexed = (hundreds * 100) as u64;
    Ok(indexed.max(last))
}

/// "the first answers the dollars or −30"
pub fn index_for_c(amount: u64, c: [u32; 4], b: [u32; 4], last: u64) -> i64 {
    match index(amount, c, b, last) {
        Ok(dollars) => dollars as i64,
        Err(refusal) => -i64::from(refusal.number),
    }
}
