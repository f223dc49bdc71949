//! Entries of eight regions in a row whose additional link closes a ring: the worst case of a search over routes, in which power goes all
//! the way round, every region is administered at the cap, and every region's limit reaches every other. Beside it the same row without
//! the link.

use crate::lists::{Interval, Market, Trading};
use crate::timing::Costs;
use crate::typed::measure_trading;
use guxhamole::{Settings, NONE};

/// Entries that are timed in a round.
const ENTRIES: usize = 2_000;

/// Power goes from each region to the one before it, and by the link from the first to the last.
const PARENTS: [u8; 8] = [255, 0, 1, 2, 3, 4, 5, 6];
const ENDS: (u8, u8) = (0, 7);
const FACTOR: u32 = 10_400;

/// Beyond the cap of 600 dollars, and beyond the threshold in a window of one.
const ENERGY: i32 = 100_000;

/// The cost of an entry, from the second on, with so many services.
pub fn measure(services: u8, linked: bool, rounds: usize) -> Costs {
    let market = market(services);
    let trading = trading(&market, linked);
    let [entry, ..] = measure_trading(&market, &trading, 1, rounds);
    entry
}

pub fn market(services: u8) -> Market {
    Market {
        regions: 8,
        services,
        window: 1,
        halves: 48,
    }
}

/// The entries, every region administered from the second on.
pub fn trading(market: &Market, linked: bool) -> Trading {
    let (from, to) = if linked { ENDS } else { (NONE, NONE) };
    let settings = Settings {
        regions: market.regions,
        services: market.services,
        window: market.window,
        halves: market.halves,
        parents: PARENTS,
        from,
        to,
        threshold: 90_000,
        ..Settings::default()
    };
    Trading {
        settings,
        schedule: vec![0; market.schedule()],
        intervals: (0..=ENTRIES as u32)
            .map(|number| interval(market, &settings, number))
            .collect(),
    }
}

fn interval(market: &Market, settings: &Settings, number: u32) -> Interval {
    let regions = usize::from(market.regions);
    let links = guxhamole::flows_length(regions, settings.from);
    let mut prices = vec![200; market.prices()];
    let energies = prices.iter_mut().step_by(usize::from(market.services) + 1);
    energies.for_each(|price| *price = ENERGY);
    Interval {
        number,
        day_kind: 0,
        prices,
        marks: vec![0; regions],
        flows: vec![1; links],
        factors: vec![FACTOR; links],
    }
}
