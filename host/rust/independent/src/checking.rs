//! The refusals of an entry and of a report that come after 10.

use crate::ledger::Entry;
use crate::rules::*;

/// "Entry: 10; 11 any slice's length (schedule R × M × 2 × H); 12, 10,000,000 entries taken; 13 number not the next;
/// 14 kind; 15 mark not 0 or 1; 16 an unmarked region's energy beyond ±10,000,000 or service outside 0..10,000,000;
/// 17 a factor out of range where the region has a parent. 15 to 17 give the first place in the lent slice".
pub(crate) fn entry_refusal(
    shape: &Shape,
    taken: u32,
    entry: &Entry,
    ring_length: usize,
    table_length: usize,
) -> Result<(), Refusal> {
    let lengths_right = ring_length == shape.ring()
        && entry.prices.len() == shape.prices()
        && entry.marks.len() == shape.regions
        && entry.flows.len() == shape.flows()
        && entry.factors.len() == shape.flows()
        && entry.schedule.len() == shape.schedule()
        && table_length == shape.prices();
    unless(lengths_right, 11)?;
    unless(taken < MOST_ENTRIES, 12)?;
    unless(entry.number == taken, 13)?;
    unless(entry.kind <= 1, 14)?;
    if let Some(region) = entry.marks.iter().position(|&mark| mark > 1) {
        return Err(refusal_at(15, region));
    }
    for region in 0..shape.regions {
        for market in 0..shape.markets() {
            let place = shape.place(region, market);
            if entry.marks[region] == 0 && !price_allowed(market == 0, entry.prices[place]) {
                return Err(refusal_at(16, place));
            }
        }
    }
    factor_refusal(shape, &entry.factors)
}

/// "17 a factor out of range where the region has a parent"; "17 now covers its factor" (request 2026-10 of document 02): the extra last
/// place is looked at whenever it is there.
fn factor_refusal(shape: &Shape, factors: &[u32]) -> Result<(), Refusal> {
    for (place, factor) in factors.iter().enumerate() {
        let looked_at = place == shape.regions || shape.parent(place).is_some();
        if looked_at && !(10_000..=20_000).contains(factor) {
            return Err(refusal_at(17, place));
        }
    }
    Ok(())
}

/// "Report: 10; 21 region or market."
pub(crate) fn market_of(
    shape: &Shape,
    region: u32,
    market: u32,
) -> Result<(usize, usize), Refusal> {
    let (region, market) = (region as usize, market as usize);
    unless(region < shape.regions && market < shape.markets(), 21)?;
    Ok((region, market))
}
