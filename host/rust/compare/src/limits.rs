//! Passed-on limits route by route, and readings of request 2026-04 of document 02, one right and others wrong: what each makes of a
//! source's limit along the links of a route.

use guxhamole::raw;
use independent::ledger::Entry;
use independent::rounding::half_away;
use independent::rules::{NO_END, NO_PARENT};

/// What a link makes of a limit: times the first, divided by the second.
pub type Link = (i128, i128);

/// What a reading makes of a source's limit along the links of a route, both in cents.
pub type Reading = fn(i128, &[Link]) -> i128;

/// So many ten-thousandths of a cent.
const CENT: i128 = 10_000;

/// The right one: "Each link should carry its limit in ten-thousandths of a cent, rounded there half away from zero; the last step
/// alone rounds to the cent."
pub const RULE: Reading = |limit, links| half_away(carried(limit, links, half_away), CENT);

/// Wrong ones, by what is wrong with them.
pub const WRONG: [(&str, Reading); 11] = [
    ("every link rounds to the cent", |limit, links| {
        let over = |limit, &(times, by): &Link| half_away(limit * times, by);
        links.iter().fold(limit, over)
    }),
    ("cents are passed on", |limit, links| {
        let over = |limit, link: &Link| RULE(limit, &[*link]);
        links.iter().fold(limit, over)
    }),
    ("the first link rounds to the cent", |limit, links| {
        links.split_first().map_or(limit, |(&(times, by), others)| {
            RULE(half_away(limit * times, by), others)
        })
    }),
    ("the last link rounds to the cent", |limit, links| {
        links.split_last().map_or(limit, |(&(times, by), others)| {
            half_away(carried(limit, others, half_away) * times, by * CENT)
        })
    }),
    ("no link rounds", |limit, links| {
        let (times, by) = whole(links);
        half_away(limit * times, by)
    }),
    ("links cut", |limit, links| {
        half_away(carried(limit, links, |dividend, by| dividend / by), CENT)
    }),
    ("links round halves toward zero", |limit, links| {
        half_away(carried(limit, links, half_toward), CENT)
    }),
    ("links round halves up", |limit, links| {
        half_away(carried(limit, links, half_up), CENT)
    }),
    ("the last step cuts", |limit, links| {
        carried(limit, links, half_away) / CENT
    }),
    ("the last step rounds halves toward zero", |limit, links| {
        half_toward(carried(limit, links, half_away), CENT)
    }),
    ("the last step rounds halves up", |limit, links| {
        half_up(carried(limit, links, half_away), CENT)
    }),
];

/// A limit of cents in ten-thousandths, over links that round in a way of their own.
fn carried(limit: i128, links: &[Link], round: fn(i128, i128) -> i128) -> i128 {
    let over = |units, &(times, by): &Link| round(units * times, by);
    links.iter().fold(limit * CENT, over)
}

/// All links as one, exactly; of seven, with a limit in range, it fits.
pub fn whole(links: &[Link]) -> Link {
    links
        .iter()
        .fold((1, 1), |(times, by), link| (times * link.0, by * link.1))
}

/// To the nearest, of two the one nearer to zero.
fn half_toward(dividend: i128, by: i128) -> i128 {
    (2 * dividend.abs() + by - 1) / (2 * by) * dividend.signum()
}

/// To the nearest, of two the greater one.
fn half_up(dividend: i128, by: i128) -> i128 {
    (2 * dividend + by).div_euclid(2 * by)
}

/// A limit that reaches a region: its source's, and the links on its way.
#[derive(Clone, Debug)]
struct Arrival {
    region: usize,
    limit: i128,
    links: Vec<Link>,
}

/// What an entry does to energy: each region's effective price, and every limit that reaches a region.
#[derive(Clone, Debug)]
pub struct Passing {
    effective: Vec<i128>,
    arrivals: Vec<Arrival>,
}

impl Passing {
    /// An entry that a book accepts.
    pub fn of(book: &raw::Book, entry: &Entry) -> Passing {
        let regions = usize::from(book.regions);
        let effective: Vec<i128> = (0..regions)
            .map(|region| effective(book, entry, region).into())
            .collect();
        let mut arrivals = Vec::new();
        let (cap, floor) = (i128::from(book.cap), i128::from(book.floor));
        for (source, &energy) in effective.iter().enumerate() {
            let limit = match book.marks[11 * source] {
                1 if energy >= cap => cap,
                1 if energy <= floor => floor,
                _ => continue,
            };
            let ways = ways(book, entry, limit > 0);
            let arrival = Arrival {
                region: source,
                limit,
                links: Vec::new(),
            };
            spread(&ways, &[source], arrival, &mut arrivals);
        }
        Passing {
            effective,
            arrivals,
        }
    }

    /// The energy prices published by a reading. A cap limit is never below 0 and a floor limit always.
    pub fn energies(&self, reading: Reading) -> Vec<i128> {
        let mut energies = self.effective.clone();
        for Arrival {
            region,
            limit,
            links,
        } in &self.arrivals
        {
            let (energy, bound) = (&mut energies[*region], reading(*limit, links));
            *energy = if *limit > 0 {
                bound.min(*energy)
            } else {
                bound.max(*energy)
            };
        }
        energies
    }

    /// The most links that a limit goes over.
    pub fn links(&self) -> usize {
        let ways = self.arrivals.iter().map(|arrival| arrival.links.len());
        ways.max().unwrap_or(0)
    }
}

/// Step 1, of a region's energy.
fn effective(book: &raw::Book, entry: &Entry, region: usize) -> i32 {
    let place = region * (usize::from(book.services) + 1);
    if entry.marks[region] == 0 {
        return entry.prices[place];
    }
    let (halves, half) = (usize::from(book.halves), usize::from(book.position / 6));
    let row = 2 * place + usize::from(entry.kind);
    entry.schedule[row * halves + half].clamp(book.floor, book.cap)
}

/// The links that carry limits, each with the region that gives and the one that takes: a cap limit goes against the flow, a floor
/// limit with it.
fn ways(book: &raw::Book, entry: &Entry, caps: bool) -> Vec<(usize, usize, Link)> {
    let mut ways = Vec::new();
    for (place, first, second) in links(book) {
        let (flow, factor) = (entry.flows[place], i128::from(entry.factors[place]));
        let link = if caps {
            (10_000, factor)
        } else {
            (factor, 10_000)
        };
        match flow.signum() {
            0 => {}
            sign if (sign > 0) == caps => ways.push((second, first, link)),
            _ => ways.push((first, second, link)),
        }
    }
    ways
}

/// The links: the place of each one's flow and factor, and the regions from and to which a flow above 0 goes.
fn links(book: &raw::Book) -> Vec<(usize, usize, usize)> {
    let regions = usize::from(book.regions);
    let parents = book.parents.iter().enumerate().take(regions);
    let linked = parents.filter(|(_, &parent)| parent != NO_PARENT);
    let mut links: Vec<_> = linked
        .map(|(region, &parent)| (region, region, usize::from(parent)))
        .collect();
    if book.from != NO_END {
        links.push((regions, book.from.into(), book.to.into()));
    }
    links
}

/// A limit reaches a region, and from there every region beyond that it has not been at: an additional link may close a ring.
fn spread(
    ways: &[(usize, usize, Link)],
    seen: &[usize],
    arrival: Arrival,
    arrivals: &mut Vec<Arrival>,
) {
    for &(gives, takes, link) in ways {
        if gives == arrival.region && !seen.contains(&takes) {
            let next = Arrival {
                region: takes,
                limit: arrival.limit,
                links: [&arrival.links[..], &[link]].concat(),
            };
            spread(ways, &[seen, &[takes]].concat(), next, arrivals);
        }
    }
    arrivals.push(arrival);
}
