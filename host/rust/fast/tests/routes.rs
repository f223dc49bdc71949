//! The search over routes against the independent ledger: what an entry of a ring of eight regions publishes, all of them carrying power
//! and all of them sources, the worst case of a search; and limits over generated links against the independent ones.

use fast::routes::{Limits, Links, NO_CAP, NO_FLOOR};
use generator::{calls, Random};
use independent::image::Fields;
use independent::ledger::Entry;
use independent::publishing::{passed_on, Bounds};
use independent::{Ledger, Opening};

const CENT: i64 = 10_000;

/// Eight regions in a row, the additional link from the first to the last or the other way; every one is administered from entry 1 on.
fn ring(from: u8, to: u8) -> Ledger {
    let settings = Opening {
        regions: 8,
        services: 0,
        window: 1,
        halves: 1,
        first: 0,
        parents: [255, 0, 1, 2, 3, 4, 5, 6],
        from,
        to,
        threshold: 95_000,
        cap: 60_000,
        floor: -60_000,
    };
    let image = Fields::blank(&settings).bytes();
    let begun = Ledger::begin(&image, 8).expect("a valid image");
    let mut ledger = begun.expect("no entries");
    let entry = entry(0, 100_000, &[0; 9], &[10_000; 9]);
    assert_eq!(ledger.enter(8, entry, &mut [0; 8]), Ok(0));
    ledger
}

/// An entry at one price everywhere.
fn entry(number: u32, price: i32, flows: &[i32], factors: &[u32]) -> Entry {
    Entry {
        number,
        kind: 0,
        prices: vec![price; 8],
        marks: vec![0; 8],
        flows: flows.to_vec(),
        factors: factors.to_vec(),
        schedule: vec![0; 16],
    }
}

/// To the cent, half away from zero.
fn cents(limit: i64) -> i32 {
    ((limit.abs() + CENT / 2) / CENT * limit.signum()) as i32
}

/// Power goes round the ring one way or the other, or both ways to one region: what the ledger publishes is the limit, all prices being
/// beyond it.
#[test]
fn ring_of_eight() {
    let mut random = Random::new(8);
    for trial in 0..500 {
        let (from, to) = random.pick(&[(0, 7), (7, 0)]);
        let round = if from == 0 { 1 } else { -1 };
        let sign = random.pick(&[1, -1]);
        let mut flows = [sign; 9];
        flows[8] = if random.chance(80) {
            sign * round
        } else {
            -sign * round
        };
        let factors: Vec<u32> = (0..9)
            .map(|_| random.between(10_000, 20_000) as u32)
            .collect();
        let caps = trial % 2 == 0;
        let price = if caps { 10_000_000 } else { -10_000_000 };
        let mut published = [0; 8];
        let entered = ring(from, to).enter(8, entry(1, price, &flows, &factors), &mut published);
        assert_eq!(entered, Ok(8));
        let parents = [255, 0, 1, 2, 3, 4, 5, 6];
        let links = Links::of(&parents, Some((from, to)), &flows, &factors);
        let found = match caps {
            true => {
                let caps = [60_000 * CENT; 8];
                links.passed_on(&Limits { caps, ..NO_LIMITS }).caps
            }
            false => {
                let floors = [-60_000 * CENT; 8];
                links
                    .passed_on(&Limits {
                        floors,
                        ..NO_LIMITS
                    })
                    .floors
            }
        };
        assert_eq!(found.map(cents), published);
    }
}

const NO_LIMITS: Limits = Limits {
    caps: [NO_CAP; 8],
    floors: [NO_FLOOR; 8],
};

/// Links, flows and factors of any book, and the limits that set out.
struct Trial {
    opening: Opening,
    flows: Vec<i32>,
    factors: Vec<u32>,
    own: Vec<Bounds>,
}

impl Trial {
    fn of(random: &mut Random) -> Trial {
        let opening = calls::opening(random);
        let opening = calls::linked(random, opening);
        let places = opening.shape().flows();
        let limit = |random: &mut Random, most: i128| random.chance(30).then_some(most);
        Trial {
            opening,
            flows: (0..places).map(|_| random.between(-1, 1) as i32).collect(),
            factors: (0..places)
                .map(|_| random.between(10_000, 20_000) as u32)
                .collect(),
            own: (0..opening.regions)
                .map(|_| Bounds {
                    cap: limit(random, 600_010_000),
                    floor: limit(random, -600_010_000),
                })
                .collect(),
        }
    }

    /// The limits that bind each region, by the search.
    fn found(&self) -> Vec<Bounds> {
        let mut own = NO_LIMITS;
        for (region, bounds) in self.own.iter().enumerate() {
            own.caps[region] = bounds.cap.map_or(NO_CAP, |cap| cap as i64);
            own.floors[region] = bounds.floor.map_or(NO_FLOOR, |floor| floor as i64);
        }
        let parents = &self.opening.parents[..self.own.len()];
        let ends = (self.opening.from != 255).then_some((self.opening.from, self.opening.to));
        let links = Links::of(parents, ends, &self.flows, &self.factors);
        let found = links.passed_on(&own);
        let bounds = |region: usize| {
            let (cap, floor) = (found.caps[region], found.floors[region]);
            Bounds {
                cap: (cap != NO_CAP).then_some(cap.into()),
                floor: (floor != NO_FLOOR).then_some(floor.into()),
            }
        };
        (0..self.own.len()).map(bounds).collect()
    }
}

/// The same limits over any links, from any sources.
#[test]
fn generated_links() {
    let mut random = Random::new(2_026);
    let (mut linked, mut limits) = (0, 0);
    for _ in 0..20_000 {
        let trial = Trial::of(&mut random);
        let shape = trial.opening.shape();
        let bounds = passed_on(&shape, &trial.flows, &trial.factors, &trial.own);
        assert_eq!(trial.found(), bounds, "{:?}", trial.opening);
        let reached = |bound: &&Bounds| bound.cap.is_some() || bound.floor.is_some();
        limits += bounds.iter().filter(reached).count();
        linked += usize::from(shape.link.is_some());
    }
    assert!(linked > 8_000 && limits > 20_000, "{linked}, {limits}");
}
