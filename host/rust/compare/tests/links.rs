//! One additional link (request 2026-10 of document 02) over lists of calls from a seed: what is published against every candidate route
//! one by one, the compiled book and the independent one against the ledger with restarts by either kind of image, and wrong readings,
//! each of which the lists tell apart many times.

use compare::links::{opening, routes, Energy, Reading, ROOM, WRONG};
use compare::typed::Pair;
use compare::{rounds, say};
use generator::{calls, Random};
use independent::ledger::Entry;
use independent::rules::Shape;
use independent::{Call, Kind, Ledger, Opening, Values};
use std::collections::BTreeMap;

/// What was compared.
#[derive(Debug, Default)]
struct Met {
    calls: usize,
    entries: usize,
    /// Entries of books with the link, and those that would publish otherwise without it.
    linked: usize,
    by_link: usize,
    restarts: [usize; 2],
    refused: BTreeMap<u32, usize>,
    wrong: BTreeMap<&'static str, usize>,
    /// What accepted entries of books with the link have about them, and how many entries there are by regions.
    about: BTreeMap<&'static str, usize>,
    regions: BTreeMap<usize, usize>,
}

/// The regions above one in its tree, itself first.
fn ancestors(shape: &Shape, region: usize) -> Vec<usize> {
    std::iter::successors(Some(region), |&region| shape.parent(region)).collect()
}

/// The regions on the ring that the link closes; none where it joins two trees.
fn ring(shape: &Shape, (from, to): (usize, usize)) -> usize {
    let (one, other) = (ancestors(shape, from), ancestors(shape, to));
    let met = one.iter().position(|region| other.contains(region));
    met.map_or(0, |up| {
        let down = other.iter().position(|region| *region == one[up]);
        up + down.unwrap_or(0) + 1
    })
}

/// What there is about the link of an accepted entry.
fn about(shape: &Shape, ends: (usize, usize), entry: &Entry) -> Vec<&'static str> {
    let (flow, factor) = (entry.flows[shape.regions], entry.factors[shape.regions]);
    let closes = match ring(shape, ends) {
        0 => "joins two trees",
        length if length == shape.regions => "a ring of all regions",
        _ => "a ring of some regions",
    };
    let order = if ends.0 < ends.1 {
        "upward"
    } else {
        "downward"
    };
    let carries = ["backward", "without power", "forward"][(flow.signum() + 1) as usize];
    let loses = match factor {
        10_000..=10_001 => "factor about 10,000",
        19_999..=20_000 => "factor about 20,000",
        _ => "factor between",
    };
    vec![closes, order, carries, loses]
}

impl Met {
    /// An accepted entry: its energy prices by every candidate route, and by the wrong readings.
    fn limits(&mut self, ledger: &Ledger, call: &Call, table: &[i32], routes: &[Vec<usize>]) {
        let Call::Entry(entry, ..) = call else {
            return;
        };
        let shape = ledger.shape();
        let places = (0..shape.regions).map(|region| shape.place(region, 0));
        let energies: Vec<i128> = places.map(|place| table[place].into()).collect();
        let energy = Energy::of(ledger, entry);
        let right = energy.published(Reading::Right, entry, routes);
        assert_eq!(energies, right, "{shape:?}\n{call:?}");
        self.entries += 1;
        self.linked += usize::from(shape.link.is_some());
        *self.regions.entry(shape.regions).or_default() += 1;
        let about = shape.link.map(|ends| about(shape, ends, entry));
        for about in about.into_iter().flatten() {
            *self.about.entry(about).or_default() += 1;
        }
        for (name, reading) in WRONG {
            let other = energy.published(reading, entry, routes) != right;
            *self.wrong.entry(name).or_default() += usize::from(other);
            self.by_link += usize::from(other && reading == Reading::NoLink);
        }
    }

    /// A call by the ledger, a cached one and both books; then, now and then, a restart that none of them notices.
    fn call(&mut self, random: &mut Random, three: &mut Three, routes: &[Vec<usize>]) {
        let call = calls::call(random, &three.ledger);
        let before = three.ledger.clone();
        let answer = three.ledger.call(&call);
        assert_eq!(three.cached.call(&call), answer, "cached: {call:?}");
        let by_books = three.pair.call(&call);
        assert_eq!(by_books.as_ref(), Ok(&answer), "the books: {call:?}");
        self.calls += 1;
        if let (0, Values::Entry(_, table)) = (answer.number, &answer.values) {
            self.limits(&before, &call, table, routes);
        }
        *self.refused.entry(answer.number).or_default() += 1;
        if random.chance(30) {
            self.restart(random.pick(&Kind::ALL), three);
        }
    }

    /// A restart by a kind: refused by 47 exactly where kind 1 is asked of a book with the link.
    fn restart(&mut self, kind: Kind, three: &mut Three) {
        let shape = *three.ledger.shape();
        let restart = Call::Restart(kind, ROOM, shape.ring());
        let answer = three.ledger.call(&restart);
        assert_eq!(three.pair.call(&restart).as_ref(), Ok(&answer));
        let refused = kind == Kind::One && shape.link.is_some();
        assert_eq!(answer.number, if refused { 47 } else { 0 });
        self.restarts[usize::from(kind == Kind::Two)] += 1;
        *self.refused.entry(answer.number).or_default() += 1;
        for region in 0..shape.regions as u32 {
            let report = Call::Report(region, 0);
            assert_eq!(three.pair.call(&report), Ok(three.ledger.call(&report)));
        }
        for kind in Kind::ALL.into_iter().filter(|kind| kind.holds(&shape)) {
            assert_eq!(three.pair.image_by(kind), three.ledger.image_by(kind));
        }
    }
}

/// The ledger, the same remembering, and the two books.
struct Three {
    ledger: Ledger,
    cached: Ledger,
    pair: Pair,
}

impl Three {
    fn open(opening: &Opening) -> Three {
        let ring = calls::ring_length(opening);
        let ledger = Ledger::open(opening, ring).expect("a valid opening");
        let pair = Pair::open(opening, ring).expect("no difference");
        Three {
            cached: ledger.clone().cached(),
            pair: pair.expect("a valid opening"),
            ledger,
        }
    }
}

/// Lists over books of up to so many regions.
fn lists(met: &mut Met, seed: u64, count: usize, regions: u32, length: usize) {
    let mut random = Random::new(seed);
    let candidates: Vec<_> = (0..=regions as usize).map(routes).collect();
    for _ in 0..count {
        let opening = opening(&mut random, regions);
        let mut three = Three::open(&opening);
        for _ in 0..length {
            met.call(
                &mut random,
                &mut three,
                &candidates[opening.regions as usize],
            );
        }
    }
}

#[test]
fn generated_lists() {
    let mut met = Met::default();
    for round in 0..rounds() {
        lists(&mut met, 202_610 + round, 2_000, 5, 14);
        lists(&mut met, 202_710 + round, 60, 8, 10);
    }
    say(&format!(
        "links, lists: {} calls, {} accepted entries, {} with the link, {} published otherwise by it; restarts by kind 1 and 2 {:?}, \
         answers {:?}, told apart {:?}",
        met.calls, met.entries, met.linked, met.by_link, met.restarts, met.refused, met.wrong
    ));
    say(&format!(
        "links, lists: entries with the link {:?}, entries by regions {:?}",
        met.about, met.regions
    ));
    assert!(met.entries > 8_000 && met.linked > 6_000 && met.by_link > 500);
    assert!(met.restarts.into_iter().all(|kind| kind > 2_000));
    for number in [11, 13, 14, 15, 16, 17, 18, 19, 21, 23, 44, 47] {
        assert!(met.refused[&number] > 20, "{number}: {:?}", met.refused);
    }
    assert!(met.wrong.values().all(|&told| told > 50), "{:?}", met.wrong);
    assert!(met.about.len() == 11 && met.about.values().all(|&times| times > 200));
    assert!((2..=8).all(|regions| met.regions[&regions] > 20));
}

/// Every pair of ends, by openings: 20 exactly where they are no good ones.
#[test]
fn generated_openings() {
    let mut random = Random::new(20_26);
    let (mut taken, mut refused) = (0, 0);
    for _ in 0..20_000 {
        let plain = calls::opening(&mut random);
        let opening = calls::with_any_ends(&mut random, plain);
        let ends = (opening.from, opening.to);
        let good = ends == (255, 255) || calls::good_ends(&plain).contains(&ends);
        let ring = calls::ring_length(&opening);
        let number = Ledger::open(&opening, ring).map_err(|refusal| refusal.number);
        assert_eq!(number.is_ok(), good, "{opening:?}");
        let by_books = Pair::open(&opening, ring).expect("no difference");
        let by_books = by_books.map_err(|refusal| refusal.number);
        assert_eq!(by_books.err(), number.as_ref().err().copied());
        assert!(good || number == Err(20));
        *(if good { &mut taken } else { &mut refused }) += 1;
    }
    say(&format!(
        "links, openings: {taken} taken, {refused} refused by 20"
    ));
    assert!(taken > 500 && refused > 5_000);
}
