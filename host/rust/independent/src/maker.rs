//! "Schedule maker, one market".

use crate::rounding::half_away;
use crate::rules::*;

/// "two rows of 48 prices, a row a kind, places from H up zero"
pub type Rows = [[i32; 48]; 2];

/// What the maker is told and lent: "told H, cap, floor and whether it is energy: 28 days × D prices, day by day, and 28
/// day kinds".
#[derive(Clone, Debug)]
pub struct Making<'a> {
    pub halves: u32,
    pub cap: i32,
    pub floor: i32,
    pub energy: bool,
    pub prices: &'a [i32],
    pub kinds: &'a [u8],
}

/// "Maker: 31 H or lengths; 32 kind not 0 or 1, or one kind missing; 19; 16 with place." "each is the mean of all prices
/// of that half-hour and kind, rounded half away from zero, then held as in step 1".
pub fn make(making: &Making) -> Result<Rows, Refusal> {
    let Making { prices, kinds, .. } = *making;
    unless(halves_allowed(making.halves), 31)?;
    let halves = making.halves as usize;
    let day = 6 * halves;
    unless(prices.len() == 28 * day && kinds.len() == 28, 31)?;
    unless(kinds.iter().all(|&kind| kind <= 1), 32)?;
    unless(kinds.contains(&0) && kinds.contains(&1), 32)?;
    unless(limits_allowed(making.cap, making.floor), 19)?;
    let bad = |&price: &i32| !price_allowed(making.energy, price);
    if let Some(place) = prices.iter().position(bad) {
        return Err(refusal_at(16, place));
    }
    let mut rows = [[0; 48]; 2];
    for (kind, row) in rows.iter_mut().enumerate() {
        for (half, cell) in row.iter_mut().enumerate().take(halves) {
            let mut all = Vec::new();
            for (place, &price) in prices.iter().enumerate() {
                let (of_day, in_day) = (place / day, place % day);
                if usize::from(kinds[of_day]) == kind && in_day / 6 == half {
                    all.push(i128::from(price));
                }
            }
            let mean = half_away(all.iter().sum(), all.len() as i128);
            *cell = held(making.energy, mean, making.cap, making.floor) as i32;
        }
    }
    Ok(rows)
}
