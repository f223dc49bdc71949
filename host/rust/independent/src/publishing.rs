//! "One interval", steps 1 to 4. Limits are carried and rounded by request 2026-04 of document 02, whose words say so where they are
//! quoted.

use crate::ledger::Entry;
use crate::rounding::half_away;
use crate::rules::{held, Settings, Shape};

/// A table of published prices and "the count of published prices that differ from the effective ones".
#[derive(Clone, Debug, PartialEq, Eq)]
pub struct Published {
    pub table: Vec<i32>,
    pub count: u32,
}

/// How many ten-thousandths of a cent are a cent: limits are on their way "in ten-thousandths of a cent" (request 2026-04).
pub const CENT: i128 = 10_000;

/// The limits that bind a region's energy, if any, in ten-thousandths of a cent.
#[derive(Clone, Copy, Debug, Default, PartialEq, Eq)]
pub struct Bounds {
    pub cap: Option<i128>,
    pub floor: Option<i128>,
}

/// Steps 1 to 4. `administered` has a place for each of R × M markets.
pub fn publish(
    shape: &Shape,
    settings: &Settings,
    position: usize,
    administered: &[bool],
    entry: &Entry,
) -> Published {
    let effective = effective_prices(shape, settings, position, entry);
    let mut table = capped_prices(shape, settings, administered, &effective);
    let own = own_limits(shape, settings, administered, &effective);
    let bounds = passed_on(shape, &entry.flows, &entry.factors, &own);
    for (region, bound) in bounds.iter().enumerate() {
        let energy = &mut table[shape.place(region, 0)];
        *energy = bound_energy(*energy, bound);
    }
    let differing = (0..shape.prices()).filter(|&place| table[place] != effective[place]);
    Published {
        count: differing.count() as u32,
        table: table.iter().map(|&price| price as i32).collect(),
    }
}

/// Step 1: "the entry price, or for a marked region the schedule's number at
/// ((region × M + market) × 2 + kind) × H + position div 6, held within floor and cap (energy) or 0 and cap (service)".
fn effective_prices(
    shape: &Shape,
    settings: &Settings,
    position: usize,
    entry: &Entry,
) -> Vec<i128> {
    let mut effective = Vec::new();
    for region in 0..shape.regions {
        for market in 0..shape.markets() {
            let place = region * shape.markets() + market;
            effective.push(if entry.marks[region] == 1 {
                let row = place * 2 + usize::from(entry.kind);
                let scheduled = entry.schedule[row * shape.halves + position / 6];
                held(market == 0, scheduled.into(), settings.cap, settings.floor)
            } else {
                i128::from(entry.prices[place])
            });
        }
    }
    effective
}

/// Step 2: "Energy administered in its region: energy is held within floor and cap. Energy or any service administered:
/// every service is at most the cap. Services have no floor."
fn capped_prices(
    shape: &Shape,
    settings: &Settings,
    administered: &[bool],
    effective: &[i128],
) -> Vec<i128> {
    let mut table = effective.to_vec();
    for region in 0..shape.regions {
        let energy = shape.place(region, 0);
        if administered[energy] {
            table[energy] = held(true, table[energy], settings.cap, settings.floor);
        }
        if (0..shape.markets()).any(|market| administered[shape.place(region, market)]) {
            for market in 1..shape.markets() {
                let service = &mut table[shape.place(region, market)];
                *service = (*service).min(settings.cap.into());
            }
        }
    }
    table
}

/// Step 3: "A region with administered energy and effective energy at or above the cap has cap limit = cap; at or below
/// the floor, floor limit = floor." Both in ten-thousandths of a cent, as they set out.
fn own_limits(
    shape: &Shape,
    settings: &Settings,
    administered: &[bool],
    effective: &[i128],
) -> Vec<Bounds> {
    (0..shape.regions)
        .map(|region| {
            let energy = shape.place(region, 0);
            let (cap, floor) = (i128::from(settings.cap), i128::from(settings.floor));
            let source = administered[energy];
            Bounds {
                cap: (source && effective[energy] >= cap).then_some(cap * CENT),
                floor: (source && effective[energy] <= floor).then_some(floor * CENT),
            }
        })
        .collect()
}

/// Where power goes over one link, and the link's factor.
#[derive(Clone, Copy, Debug)]
struct Link {
    from: usize,
    to: usize,
    factor: i128,
}

/// "Flow above 0 carries from a region to its parent, below 0 from the parent, 0 not at all." "A region without a parent
/// has no flow or factor looked at." The additional link's come "as an extra last place, positive from the first named to the second"
/// (request 2026-10 of document 02).
fn links(shape: &Shape, flows: &[i32], factors: &[u32]) -> Vec<Link> {
    let mut ends: Vec<(usize, usize, usize)> = Vec::new();
    for region in 0..shape.regions {
        ends.extend(shape.parent(region).map(|parent| (region, region, parent)));
    }
    ends.extend(
        shape
            .link
            .map(|(first, second)| (shape.regions, first, second)),
    );
    let mut links = Vec::new();
    for (place, first, second) in ends {
        let factor = i128::from(factors[place]);
        let (from, to) = match flows[place].signum() {
            1 => (first, second),
            -1 => (second, first),
            _ => continue,
        };
        links.push(Link { from, to, factor });
    }
    links
}

/// One kind of limit: which way it goes over a link and what the link makes of it. "Each link should carry its limit in
/// ten-thousandths of a cent, rounded there half away from zero" (request 2026-04): the last link of a route too.
trait Travel {
    /// The region that a limit of `here` is given to over a link, if it goes that way.
    fn beyond(link: &Link, here: usize) -> Option<usize>;
    /// The limit given, of these ten-thousandths and in them.
    fn given(limit: i128, link: &Link) -> i128;
}

/// "Where power goes from X to Y, a cap limit c of Y gives X the limit c × 10,000 / factor".
struct CapLimit;

impl Travel for CapLimit {
    fn beyond(link: &Link, here: usize) -> Option<usize> {
        (link.to == here).then_some(link.from)
    }
    fn given(limit: i128, link: &Link) -> i128 {
        half_away(limit * 10_000, link.factor)
    }
}

/// "and a floor limit f of X gives Y f × factor / 10,000".
struct FloorLimit;

impl Travel for FloorLimit {
    fn beyond(link: &Link, here: usize) -> Option<usize> {
        (link.from == here).then_some(link.to)
    }
    fn given(limit: i128, link: &Link) -> i128 {
        half_away(limit * link.factor, 10_000)
    }
}

/// Every limit that reaches a region by some route visiting no region twice: "Limits travel on over any number of
/// links". The route is the regions visited so far, the last one holding `limit`.
fn follow<T: Travel>(
    links: &[Link],
    route: &[usize],
    limit: i128,
    reached: &mut Vec<(usize, i128)>,
) {
    let here = route[route.len() - 1];
    reached.push((here, limit));
    for link in links {
        if let Some(next) = T::beyond(link, here) {
            if !route.contains(&next) {
                let longer = [route, &[next]].concat();
                follow::<T>(links, &longer, T::given(limit, link), reached);
            }
        }
    }
}

/// Step 4: the limits of each region once they have travelled. "The smallest cap limit and highest floor limit bind
/// energy."
pub fn passed_on(shape: &Shape, flows: &[i32], factors: &[u32], own: &[Bounds]) -> Vec<Bounds> {
    let links = links(shape, flows, factors);
    let (mut caps, mut floors) = (Vec::new(), Vec::new());
    for (region, bounds) in own.iter().enumerate() {
        if let Some(cap) = bounds.cap {
            follow::<CapLimit>(&links, &[region], cap, &mut caps);
        }
        if let Some(floor) = bounds.floor {
            follow::<FloorLimit>(&links, &[region], floor, &mut floors);
        }
    }
    (0..own.len())
        .map(|region| {
            let at = |limits: &[(usize, i128)]| -> Vec<i128> {
                let here = limits.iter().filter(|(place, _)| *place == region);
                here.map(|(_, limit)| *limit).collect()
            };
            Bounds {
                cap: at(&caps).into_iter().min(),
                floor: at(&floors).into_iter().max(),
            }
        })
        .collect()
}

/// "bind energy", and "the last step alone rounds to the cent" (request 2026-04), half away from zero as the links do. A cap limit
/// is then 0 or more and a floor limit below 0, so that their order does not matter.
fn bound_energy(energy: i128, bounds: &Bounds) -> i128 {
    let mut energy = energy;
    if let Some(units) = bounds.cap {
        let cap = half_away(units, CENT);
        assert!(cap >= 0);
        energy = energy.min(cap);
    }
    if let Some(units) = bounds.floor {
        let floor = half_away(units, CENT);
        assert!(floor < 0);
        energy = energy.max(floor);
    }
    energy
}
