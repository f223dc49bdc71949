//! One additional link (request 2026-10 of document 02), a second time: limits over every order of every set of regions, the book that
//! a host keeps and restarts by images of either kind, and readings of the request, one right and others wrong. Nothing here asks the
//! compiled functions.

use generator::{calls, Random};
use independent::book::Book;
use independent::ledger::Entry;
use independent::rounding::half_away;
use independent::rules::{Shape, NO_END};
use independent::{Answer, Call, Kind, Ledger, Opening, Refusal, Report, Values};

/// How limits go over links.
#[derive(Clone, Copy, Debug, PartialEq, Eq)]
pub enum Reading {
    Right,
    /// Limits are passed on again and again, R times, back to their source too.
    Relaxing,
    /// Every link rounds to the cent.
    CentsPerLink,
    /// The additional link's flow is positive from the second named region.
    SignExchanged,
    /// The additional link's flow and factor are those of the last region.
    LastRegion,
    /// The additional link carries nothing.
    NoLink,
    /// The first route that reaches a region binds, by the lowest region at each turn.
    FirstRoute,
    /// The largest cap and the lowest floor bind.
    Loosest,
}

/// The wrong ones, by what is wrong with them.
pub const WRONG: [(&str, Reading); 7] = [
    ("limits are relaxed in a loop", Reading::Relaxing),
    ("every link rounds to the cent", Reading::CentsPerLink),
    ("the link's flow has the other sign", Reading::SignExchanged),
    ("the link's flow is the last region's", Reading::LastRegion),
    ("the link carries nothing", Reading::NoLink),
    ("the first route binds", Reading::FirstRoute),
    ("the loosest limit binds", Reading::Loosest),
];

/// An opening that mostly has a link, of up to so many regions: often in a row whose ends it joins, so that power may go round.
pub fn opening(random: &mut Random, regions: u32) -> Opening {
    let mut opening = calls::opening(random);
    opening.regions = random.between(2, regions.into()) as u32;
    opening.window = opening.window.min(40);
    opening.parents = calls::parents(random, opening.regions);
    let last = opening.regions as u8 - 1;
    if opening.regions > 2 && random.chance(30) {
        for region in 1..=last {
            opening.parents[usize::from(region)] = region - 1;
        }
        (opening.from, opening.to) = random.pick(&[(0, last), (last, 0)]);
        return opening;
    }
    (opening.from, opening.to) = (NO_END, NO_END);
    match random.chance(85) {
        true => calls::linked(random, opening),
        false => opening,
    }
}

/// Room for any image of these books.
pub const ROOM: usize = 1 << 14;

/// Ten-thousandths of a cent in one.
const CENT: i128 = 10_000;

/// Every list of different regions, shorter ones first: each of them may be a route.
pub fn routes(regions: usize) -> Vec<Vec<usize>> {
    let mut routes: Vec<Vec<usize>> = (0..regions).map(|region| vec![region]).collect();
    let mut place = 0;
    while place < routes.len() {
        let route = routes[place].clone();
        let others = (0..regions).filter(|region| !route.contains(region));
        let longer: Vec<Vec<usize>> = others.map(|next| [&route[..], &[next]].concat()).collect();
        routes.extend(longer);
        place += 1;
    }
    routes
}

/// The factor of the link that takes power from one region to another, if any does: two regions have one link at most.
struct Grid {
    factors: Vec<Vec<Option<i128>>>,
}

impl Grid {
    fn of(reading: Reading, shape: &Shape, entry: &Entry) -> Grid {
        let mut grid = Grid {
            factors: vec![vec![None; shape.regions]; shape.regions],
        };
        for region in 0..shape.regions {
            if let Some(parent) = shape.parent(region) {
                grid.put(region, parent, entry.flows[region], entry.factors[region]);
            }
        }
        if let (Some((first, second)), true) = (shape.link, reading != Reading::NoLink) {
            let place = match reading {
                Reading::LastRegion => shape.regions - 1,
                _ => shape.regions,
            };
            let (flow, factor) = (entry.flows[place], entry.factors[place]);
            match reading {
                Reading::SignExchanged => grid.put(second, first, flow, factor),
                _ => grid.put(first, second, flow, factor),
            }
        }
        grid
    }

    fn put(&mut self, first: usize, second: usize, flow: i32, factor: u32) {
        // A factor that no rule looks at may be anything; one of 0 carries nothing here.
        let factor = (factor > 0).then_some(i128::from(factor));
        match flow.signum() {
            1 => self.factors[first][second] = factor,
            -1 => self.factors[second][first] = factor,
            _ => {}
        }
    }

    /// What a limit of the first region is to the second, if power goes the right way between them.
    fn over(&self, caps: bool, limit: i128, from: usize, to: usize) -> Option<i128> {
        match caps {
            true => self.factors[to][from].map(|factor| half_away(limit * 10_000, factor)),
            false => self.factors[from][to].map(|factor| half_away(limit * factor, 10_000)),
        }
    }
}

/// What an entry does to energy: its effective prices, and where limits set out.
pub struct Energy {
    shape: Shape,
    effective: Vec<i128>,
    /// The cap or the floor, in cents, of each region that has it as its own limit.
    own: Vec<Option<i128>>,
}

impl Energy {
    /// An entry that a ledger accepts.
    pub fn of(ledger: &Ledger, entry: &Entry) -> Energy {
        let (shape, settings) = (*ledger.shape(), ledger.settings());
        let (cap, floor) = (i128::from(settings.cap), i128::from(settings.floor));
        let (mut effective, mut own) = (Vec::new(), Vec::new());
        for region in 0..shape.regions {
            let place = shape.place(region, 0);
            let energy = match entry.marks[region] {
                0 => i128::from(entry.prices[place]),
                _ => {
                    let row = (2 * place + usize::from(entry.kind)) * shape.halves;
                    i128::from(entry.schedule[row + ledger.position() / 6]).clamp(floor, cap)
                }
            };
            let report = ledger.report(region as u32, 0).expect("a region");
            effective.push(energy);
            own.push(match report.mark {
                1 if energy >= cap => Some(cap),
                1 if energy <= floor => Some(floor),
                _ => None,
            });
        }
        Energy {
            shape,
            effective,
            own,
        }
    }

    /// The energy prices that a reading publishes, of these candidate routes.
    pub fn published(&self, reading: Reading, entry: &Entry, routes: &[Vec<usize>]) -> Vec<i128> {
        let grid = Grid::of(reading, &self.shape, entry);
        let [caps, floors] = [true, false].map(|caps| match reading {
            Reading::Relaxing => self.relaxed(&grid, caps),
            _ => self.along(&grid, caps, reading, routes),
        });
        let bound = |region: usize| {
            let mut energy = self.effective[region];
            if let Some(cap) = caps[region] {
                energy = energy.min(half_away(cap, CENT));
            }
            if let Some(floor) = floors[region] {
                energy = energy.max(half_away(floor, CENT));
            }
            energy
        };
        (0..self.shape.regions).map(bound).collect()
    }

    /// The limit that a source sends out, in ten-thousandths of a cent.
    fn source(&self, caps: bool, region: usize) -> Option<i128> {
        let own = self.own[region].filter(|&limit| (limit > 0) == caps);
        own.map(|limit| limit * CENT)
    }

    /// The limit of each region over every candidate that carries power all the way.
    fn along(
        &self,
        grid: &Grid,
        caps: bool,
        reading: Reading,
        routes: &[Vec<usize>],
    ) -> Vec<Option<i128>> {
        let mut bounds = vec![None; self.shape.regions];
        for route in routes {
            let Some(limit) = self.arriving(grid, caps, reading, route) else {
                continue;
            };
            let bound = &mut bounds[route[route.len() - 1]];
            *bound = Some(match *bound {
                None => limit,
                Some(first) if reading == Reading::FirstRoute => first,
                Some(other) if caps == (reading != Reading::Loosest) => limit.min(other),
                Some(other) => limit.max(other),
            });
        }
        bounds
    }

    /// The limit that goes along a candidate route, if it has a source and power goes over every link.
    fn arriving(&self, grid: &Grid, caps: bool, reading: Reading, route: &[usize]) -> Option<i128> {
        let mut limit = self.source(caps, route[0])?;
        for pair in route.windows(2) {
            limit = grid.over(caps, limit, pair[0], pair[1])?;
            if reading == Reading::CentsPerLink {
                limit = half_away(limit, CENT) * CENT;
            }
        }
        Some(limit)
    }

    /// Each region takes what its neighbours have, R times over.
    fn relaxed(&self, grid: &Grid, caps: bool) -> Vec<Option<i128>> {
        let regions = 0..self.shape.regions;
        let mut bounds: Vec<Option<i128>> = regions
            .clone()
            .map(|region| self.source(caps, region))
            .collect();
        for _ in regions.clone() {
            let before = bounds.clone();
            for (from, to) in regions
                .clone()
                .flat_map(|from| (0..before.len()).map(move |to| (from, to)))
            {
                let reached = before[from].and_then(|limit| grid.over(caps, limit, from, to));
                let both = [bounds[to], reached].into_iter().flatten();
                bounds[to] = if caps { both.min() } else { both.max() };
            }
        }
        bounds
    }
}

/// A book and its ring, as a host keeps them, without the compiled functions.
#[derive(Clone, Debug, PartialEq, Eq)]
pub struct Host {
    pub book: Book,
    pub ring: Vec<i32>,
}

impl Host {
    pub fn open(opening: &Opening) -> Host {
        let mut ring = vec![77; calls::ring_length(opening)];
        let book = Book::open(opening, &mut ring).expect("a valid opening");
        Host { book, ring }
    }

    /// From an image of either kind, into a ring that held something else.
    pub fn load(image: &[u8], ring: usize) -> Result<Host, Refusal> {
        let mut ring = vec![77; ring];
        let book = Book::load(image, &mut ring)?;
        Ok(Host { book, ring })
    }

    /// The image of a kind, into a buffer of a length.
    pub fn store(&self, kind: Kind, buffer: usize) -> Result<Vec<u8>, Refusal> {
        let mut image = vec![77; buffer];
        let length = self.book.store(kind, &self.ring, &mut image)?;
        assert!(image[length..].iter().all(|&byte| byte == 77));
        image.truncate(length);
        Ok(image)
    }

    /// One call of a list. A restart stores and loads.
    pub fn call(&mut self, call: &Call) -> Answer {
        match call {
            Call::Entry(entry, ring, lent) => self.enter(entry, *ring, lent),
            Call::Threshold(threshold) => {
                answer(self.book.set_threshold(*threshold), |()| Values::Nothing)
            }
            Call::Limits(cap, floor) => {
                answer(self.book.set_limits(*cap, *floor), |()| Values::Nothing)
            }
            Call::Report(region, market) => {
                answer(self.book.report(*region, *market), Values::Report)
            }
            Call::Restart(kind, buffer, ring) => {
                answer(self.restart(*kind, *buffer, *ring), |()| Values::Nothing)
            }
        }
    }

    /// A ring of another length is another ring.
    fn enter(&mut self, entry: &Entry, ring: usize, lent: &[i32]) -> Answer {
        let mut table = lent.to_vec();
        let entered = match ring == self.ring.len() {
            true => self.book.enter(&mut self.ring, entry, &mut table),
            false => self.book.enter(&mut vec![0; ring], entry, &mut table),
        };
        answer(entered, |count| Values::Entry(count, table))
    }

    fn restart(&mut self, kind: Kind, buffer: usize, ring: usize) -> Result<(), Refusal> {
        let image = self.store(kind, buffer.min(ROOM))?;
        *self = Host::load(&image, ring)?;
        Ok(())
    }
}

/// An answer whose values are zeros where the call is refused.
fn answer<T: Zeros>(result: Result<T, Refusal>, values: impl FnOnce(T) -> Values) -> Answer {
    let (number, place, value) = match result {
        Ok(value) => (0, 0, value),
        Err(Refusal { number, place }) => (number, place, T::ZEROS),
    };
    Answer {
        number,
        place,
        values: values(value),
    }
}

/// What stands beside number and place of a refusal.
trait Zeros {
    const ZEROS: Self;
}

impl Zeros for () {
    const ZEROS: () = ();
}

impl Zeros for u32 {
    const ZEROS: u32 = 0;
}

impl Zeros for Report {
    const ZEROS: Report = Report {
        sum: 0,
        counted: 0,
        mark: 0,
        entries: 0,
    };
}
