//! Limits over "every route that carries power and visits no region twice" (request 2026-10 of document 02), by hand: a search that calls
//! itself region by region, over neighbours in fixed arrays and a set of bits. With an additional link the two passes of `publishing` no
//! longer do.

use crate::book::{NO_PARENT, REGIONS};
use crate::publishing::{carried_cap, carried_floor};

/// The limits that bind each region's energy, in ten-thousandths of a cent; the extreme numbers stand for none.
#[derive(Clone, Copy, Debug, PartialEq, Eq)]
pub struct Limits {
    pub caps: [i64; REGIONS],
    pub floors: [i64; REGIONS],
}

pub const NO_CAP: i64 = i64::MAX;
pub const NO_FLOOR: i64 = i64::MIN;

/// The links that carry power, at the region that it comes from and at the one that it goes to.
#[derive(Clone, Copy, Debug)]
pub struct Links {
    out: [Ways; REGIONS],
    into: [Ways; REGIONS],
}

/// The other ends and the factors of a region's links, one way.
#[derive(Clone, Copy, Debug)]
struct Ways {
    count: usize,
    ends: [(u8, u32); REGIONS],
}

impl Ways {
    const NONE: Ways = Ways {
        count: 0,
        ends: [(0, 0); REGIONS],
    };

    fn add(&mut self, end: u8, factor: u32) {
        self.ends[self.count] = (end, factor);
        self.count += 1;
    }

    #[inline]
    fn each(&self) -> &[(u8, u32)] {
        &self.ends[..self.count]
    }
}

impl Links {
    /// Of regions with these parents and an additional link, if any; its flow and factor "come as an extra last place". All of them are
    /// what an entry takes.
    pub fn of(parents: &[u8], link: Option<(u8, u8)>, flows: &[i32], factors: &[u32]) -> Links {
        let mut links = Links {
            out: [Ways::NONE; REGIONS],
            into: [Ways::NONE; REGIONS],
        };
        for (region, &parent) in parents.iter().enumerate() {
            if parent != NO_PARENT {
                links.add((region as u8, parent), flows[region], factors[region]);
            }
        }
        if let Some(ends) = link {
            links.add(ends, flows[parents.len()], factors[parents.len()]);
        }
        links
    }

    /// "positive from the first named to the second"
    fn add(&mut self, (first, second): (u8, u8), flow: i32, factor: u32) {
        let (from, to) = match flow {
            0 => return,
            1.. => (first, second),
            _ => (second, first),
        };
        self.out[usize::from(from)].add(to, factor);
        self.into[usize::from(to)].add(from, factor);
    }

    /// The limits that bind each region, from those that are its own: "the smallest cap and highest floor binding".
    pub fn passed_on(&self, own: &Limits) -> Limits {
        let mut found = Found {
            links: self,
            limits: Limits {
                caps: [NO_CAP; REGIONS],
                floors: [NO_FLOOR; REGIONS],
            },
        };
        for region in 0..REGIONS {
            if own.caps[region] != NO_CAP {
                found.cap(region, own.caps[region], 0);
            }
            if own.floors[region] != NO_FLOOR {
                found.floor(region, own.floors[region], 0);
            }
        }
        found.limits
    }
}

/// What the search has found so far.
struct Found<'a> {
    links: &'a Links,
    limits: Limits,
}

impl Found<'_> {
    /// A cap limit comes to a region by a route through these, and goes on against the power.
    fn cap(&mut self, here: usize, limit: i64, visited: u8) {
        let cap = &mut self.limits.caps[here];
        *cap = limit.min(*cap);
        let visited = visited | 1 << here;
        let links = self.links;
        for &(next, factor) in links.into[here].each() {
            if visited >> next & 1 == 0 {
                self.cap(next.into(), carried_cap(limit, factor), visited);
            }
        }
    }

    /// A floor limit comes to a region by a route through these, and goes on with the power.
    fn floor(&mut self, here: usize, limit: i64, visited: u8) {
        let floor = &mut self.limits.floors[here];
        *floor = limit.max(*floor);
        let visited = visited | 1 << here;
        let links = self.links;
        for &(next, factor) in links.out[here].each() {
            if visited >> next & 1 == 0 {
                self.floor(next.into(), carried_floor(limit, factor), visited);
            }
        }
    }
}
