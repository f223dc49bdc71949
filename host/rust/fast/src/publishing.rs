//! "One interval", steps 1 to 4: effective prices, caps, and limits over links, which are carried "in ten-thousandths of a cent"
//! (request 2026-04 of document 02).

use crate::book::{Book, MARKETS, NO_PARENT, REGIONS};
use crate::entry::Entry;
use crate::routes::{Limits, Links, NO_CAP, NO_FLOOR};

/// Ten-thousandths of a cent in a cent, and in half of one.
const CENT: i64 = 10_000;
const HALF: i64 = CENT / 2;

impl Book {
    /// Steps 1 to 4 into the table. Answers how many published prices differ from the effective ones.
    pub(crate) fn publish(&self, entry: &Entry, table: &mut [i32]) -> u32 {
        let markets = self.markets();
        let mut limits = Limits {
            caps: [NO_CAP; REGIONS],
            floors: [NO_FLOOR; REGIONS],
        };
        let (mut limited, mut count) = (false, 0);
        for (region, row) in table.chunks_exact_mut(markets).enumerate() {
            self.put_effective(entry, region, row);
            let marks = &self.marks[MARKETS * region..][..markets];
            if marks[0] == 1 {
                limited |= self.own_limits(row[0], region, &mut limits);
            }
            if marks.iter().fold(0, |any, &mark| any | mark) != 0 {
                count += self.cap_services(&mut row[1..]);
            }
        }
        if limited {
            match self.has_link() {
                false => self.pass_on(entry, &mut limits),
                true => limits = self.links_of(entry).passed_on(&limits),
            }
            count += bind_energy(&limits, markets, table);
        }
        count
    }

    /// Step 1: "the entry price, or for a marked region the schedule's number .. held within floor and cap (energy) or 0 and
    /// cap (service)".
    #[inline]
    fn put_effective(&self, entry: &Entry, region: usize, row: &mut [i32]) {
        let first = region * row.len();
        if entry.marks[region] == 0 {
            row.copy_from_slice(&entry.prices[first..first + row.len()]);
            return;
        }
        let halves = usize::from(self.halves);
        let half = usize::from(self.position / 6) + usize::from(entry.kind) * halves;
        for (market, price) in row.iter_mut().enumerate() {
            let scheduled = entry.schedule[(first + market) * 2 * halves + half];
            let low = if market == 0 { self.floor } else { 0 };
            *price = scheduled.clamp(low, self.cap);
        }
    }

    /// Step 3 of a region with administered energy, which also does step 2's part for energy: energy beyond a limit has
    /// that limit as its own. Answers whether it has one.
    #[inline]
    fn own_limits(&self, energy: i32, region: usize, limits: &mut Limits) -> bool {
        if energy >= self.cap {
            limits.caps[region] = i64::from(self.cap) * CENT;
        } else if energy <= self.floor {
            limits.floors[region] = i64::from(self.floor) * CENT;
        } else {
            return false;
        }
        true
    }

    /// Step 2: "every service is at most the cap". Answers how many are changed.
    #[inline]
    fn cap_services(&self, services: &mut [i32]) -> u32 {
        let mut count = 0;
        for price in services {
            count += u32::from(*price > self.cap);
            *price = (*price).min(self.cap);
        }
        count
    }

    /// The links of a book with the additional one, which may close a ring: limits then go over routes.
    fn links_of(&self, entry: &Entry) -> Links {
        let parents = &self.parents[..usize::from(self.regions)];
        let ends = (self.from, self.to);
        Links::of(parents, Some(ends), entry.flows, entry.factors)
    }

    /// Step 4 without the additional link. Links make a forest whose parents are lower, each goes one way, and a link's rounding keeps
    /// order; so one pass towards the parents and one away from them bring every limit to every region that it reaches.
    fn pass_on(&self, entry: &Entry, limits: &mut Limits) {
        let Limits { caps, floors } = limits;
        let regions = usize::from(self.regions);
        for region in (1..regions).rev() {
            let parent = usize::from(self.parents[region]);
            if self.parents[region] == NO_PARENT {
                continue;
            }
            let (flow, factor) = (entry.flows[region], entry.factors[region]);
            if flow > 0 {
                floors[parent] = floors[parent].max(carried_floor(floors[region], factor));
            } else if flow < 0 {
                caps[parent] = caps[parent].min(carried_cap(caps[region], factor));
            }
        }
        for region in 1..regions {
            let parent = usize::from(self.parents[region]);
            if self.parents[region] == NO_PARENT {
                continue;
            }
            let (flow, factor) = (entry.flows[region], entry.factors[region]);
            if flow > 0 {
                caps[region] = caps[region].min(carried_cap(caps[parent], factor));
            } else if flow < 0 {
                floors[region] = floors[region].max(carried_floor(floors[parent], factor));
            }
        }
    }
}

/// "c × 10,000 / factor", to the nearest ten-thousandth of a cent. A cap limit is above 0.
pub(crate) fn carried_cap(cap: i64, factor: u32) -> i64 {
    if cap == NO_CAP {
        return NO_CAP;
    }
    let factor = u64::from(factor);
    ((cap as u64 * 10_000 + factor / 2) / factor) as i64
}

/// "f × factor / 10,000", to the nearest ten-thousandth of a cent, half away from zero. A floor limit is below 0: after seven links
/// −12,800,000,000,000 at the least, and the product −256,000,000,000,000,000.
pub(crate) fn carried_floor(floor: i64, factor: u32) -> i64 {
    if floor == NO_FLOOR {
        return NO_FLOOR;
    }
    let magnitude = floor.unsigned_abs() * u64::from(factor);
    -(((magnitude + 5_000) / 10_000) as i64)
}

/// "The smallest cap limit and highest floor limit bind energy", and "the last step alone rounds to the cent": where energy is
/// beyond the rounded limit, which a comparison of ten-thousandths says before any is rounded. Answers how many are changed.
fn bind_energy(limits: &Limits, markets: usize, table: &mut [i32]) -> u32 {
    let mut count = 0;
    for (region, row) in table.chunks_exact_mut(markets).enumerate() {
        let energy = i64::from(row[0]) * CENT;
        let (cap, floor) = (limits.caps[region], limits.floors[region]);
        if cap < energy - HALF {
            row[0] = ((cap + HALF) / CENT) as i32;
            count += 1;
        } else if floor > energy + HALF {
            row[0] = ((floor - HALF) / CENT) as i32;
            count += 1;
        }
    }
    count
}
