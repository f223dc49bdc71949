//! Passed-on limits in ten-thousandths of a cent (request 2026-04 of document 02): cases worked by hand, through the archive, the
//! independent book and ledger, and the fast book; and wrong readings, each of which the generated lists tell apart many times.

use compare::limits::{Link, Passing, Reading, RULE, WRONG};
use compare::playing::{Playing, Start};
use compare::{books, rounds, say};
use generator::{calls, Random};
use guxhamole::raw;
use independent::image::Fields;
use independent::ledger::Entry;
use independent::{Call, Opening, Values};
use std::collections::BTreeMap;

const MOST: i32 = 10_000_000;

/// A case: regions in a row, each the parent of the next, S 0, W 1, H 1, threshold 95,000, so that the book begins with an image. Some
/// energy is administered; the next entry has these prices, the same flow over every link, and the links' factors, region 1's first.
struct Case {
    name: &'static str,
    limits: (i32, i32),
    administered: &'static [usize],
    prices: &'static [i32],
    flow: i32,
    factors: &'static [u32],
    published: (&'static [i32], u32),
}

const CASES: [Case; 9] = [
    Case {
        name: "25,004,999.67 ten-thousandths are 25,005,000, which is half a cent",
        limits: (3_751, -60_000),
        administered: &[0],
        prices: &[100_000; 2],
        flow: 1,
        factors: &[15_001],
        published: (&[3_751, 2_501], 2),
    },
    Case {
        name: "a cap over three links",
        limits: (60_000, -60_000),
        administered: &[0],
        prices: &[100_000; 4],
        flow: 1,
        factors: &[10_800, 10_300, 10_300],
        published: (&[60_000, 55_556, 53_937, 52_366], 4),
    },
    Case {
        name: "a floor over three links",
        limits: (60_000, -60_001),
        administered: &[0],
        prices: &[-100_000; 4],
        flow: -1,
        factors: &[10_507; 3],
        published: (&[-60_001, -63_043, -66_239, -69_598], 4),
    },
    Case {
        name: "a cap limit of 0",
        limits: (1, -1),
        administered: &[0],
        prices: &[100_000, 5, 5],
        flow: 1,
        factors: &[20_000; 2],
        published: (&[1, 1, 0], 3),
    },
    Case {
        name: "a cap limit of 0 beside a floor limit of -1",
        limits: (1, -1),
        administered: &[0, 4],
        prices: &[100_000, 7, 7, 7, -9],
        flow: 1,
        factors: &[20_000, 20_000, 10_000, 10_000],
        published: (&[1, 1, 0, 0, -1], 5),
    },
    Case {
        name: "the guide's cap: 545.45 and 505.05 still come out",
        limits: (60_000, -60_000),
        administered: &[0],
        prices: &[100_000, 90_000, 85_000],
        flow: 1,
        factors: &[11_000, 10_800],
        published: (&[60_000, 54_545, 50_505], 3),
    },
    Case {
        name: "the guide's floor",
        limits: (60_000, -60_000),
        administered: &[0],
        prices: &[-70_000, -90_000, -85_000],
        flow: -1,
        factors: &[11_000, 10_800],
        published: (&[-60_000, -66_000, -71_280], 3),
    },
    Case {
        name: "the highest cap over seven links",
        limits: (MOST, -1),
        administered: &[0],
        prices: &[MOST; 8],
        flow: 1,
        factors: &[20_000; 7],
        published: (
            &[
                MOST, 5_000_000, 2_500_000, 1_250_000, 625_000, 312_500, 156_250, 78_125,
            ],
            7,
        ),
    },
    Case {
        name: "the lowest floor over seven links, -1,280,000,000, binds no price",
        limits: (1, -MOST),
        administered: &[0],
        prices: &[-MOST; 8],
        flow: -1,
        factors: &[20_000; 7],
        published: (&[-MOST; 8], 0),
    },
];

impl Case {
    fn settings(&self) -> Opening {
        let regions = self.prices.len();
        let mut settings = books::worked(regions as u32, 0, 1, 1);
        (settings.cap, settings.floor) = self.limits;
        for region in 1..regions {
            settings.parents[region] = region as u8 - 1;
        }
        settings
    }

    /// The entry that energy is administered from, and the case's.
    fn entries(&self) -> [Entry; 2] {
        let ledger = books::begin(&self.settings());
        let mut first = vec![0; self.prices.len()];
        for &region in self.administered {
            first[region] = 100_000;
        }
        let mut second = books::plain(&ledger, self.prices);
        second.number = 1;
        second.flows.fill(self.flow);
        second.factors = [&[0], self.factors].concat();
        [books::plain(&ledger, &first), second]
    }

    /// What the archive, the independent book and the ledger publish.
    fn played(&self) -> Values {
        let start = Start::blank(&self.settings());
        let mut playing = Playing::start(start, false).expect("a valid image");
        let answers = self.entries().map(|entry| {
            let regions = self.prices.len();
            playing.call(Call::Entry(entry, regions, vec![77; regions]))
        });
        let [first, second] = answers;
        assert_eq!((first.number, second.number), (0, 0), "{}", self.name);
        second.values
    }

    /// What the fast book publishes.
    fn fast(&self) -> Values {
        let (regions, image) = (self.prices.len(), Fields::blank(&self.settings()).bytes());
        let (mut ring, mut table) = (vec![0; regions], vec![77; regions]);
        let mut book = fast::Book::load(&image, &mut ring).expect("a valid image");
        let counts = self.entries().map(|entry| {
            let lent = fast::Entry {
                number: entry.number,
                kind: entry.kind,
                prices: &entry.prices,
                marks: &entry.marks,
                flows: &entry.flows,
                factors: &entry.factors,
                schedule: &entry.schedule,
            };
            book.enter(&mut ring, &lent, &mut table)
        });
        Values::Entry(counts[1].expect("a valid entry"), table)
    }
}

#[test]
fn worked_cases() {
    for case in CASES {
        let (table, count) = case.published;
        let expected = Values::Entry(count, table.to_vec());
        assert_eq!(case.played(), expected, "{}", case.name);
        assert_eq!(case.fast(), expected, "the fast book: {}", case.name);
    }
}

fn wrong(name: &str) -> Reading {
    let found = WRONG.iter().find(|(other, _)| *other == name);
    found.unwrap_or_else(|| panic!("{name}: no such reading")).1
}

/// The links of a cap's and of a floor's route.
fn cap_links(factors: &[i128]) -> Vec<Link> {
    factors.iter().map(|&factor| (10_000, factor)).collect()
}

fn floor_links(factors: &[i128]) -> Vec<Link> {
    factors.iter().map(|&factor| (factor, 10_000)).collect()
}

/// What the wrong readings make of the cases.
#[test]
fn worked_wrong_readings() {
    let (one, three) = (cap_links(&[15_001]), cap_links(&[10_800, 10_300, 10_300]));
    let floor = floor_links(&[10_507; 3]);
    let every = wrong("every link rounds to the cent");
    let found = [
        every(60_000, &three[..2]),
        every(60_000, &three),
        every(-60_001, &floor),
    ];
    assert_eq!(found, [53_938, 52_367, -69_597]);
    assert_eq!(wrong("cents are passed on")(60_000, &three), 52_367);
    for name in ["every link", "the first link", "the last link"] {
        assert_eq!(
            wrong(&format!("{name} rounds to the cent"))(3_751, &one),
            2_500
        );
    }
    assert_eq!(wrong("no link rounds")(3_751, &one), 2_500);
    assert_eq!(wrong("links cut")(3_751, &one), 2_500);
    assert_eq!(wrong("the last step cuts")(60_000, &three[..1]), 55_555);
    for (name, reading) in WRONG {
        assert_eq!(
            (reading(7, &[]), reading(-7, &[])),
            (7, -7),
            "{name}: a source's own"
        );
    }
}

/// How many entries were compared, by the most links that a limit went over; and how many of them each wrong reading would publish
/// otherwise, in a price from a cap or from a floor.
#[derive(Default)]
struct Told {
    links: BTreeMap<usize, u64>,
    caps: BTreeMap<&'static str, u64>,
    floors: BTreeMap<&'static str, u64>,
}

impl Told {
    /// An accepted entry, the book before it and its table.
    fn entry(&mut self, book: &raw::Book, entry: &Entry, table: &[i32]) {
        let passing = Passing::of(book, entry);
        let rows = table.chunks(usize::from(book.services) + 1);
        let energies: Vec<i128> = rows.map(|row| row[0].into()).collect();
        assert_eq!(passing.energies(RULE), energies, "{entry:?} on {book:?}");
        *self.links.entry(passing.links()).or_default() += 1;
        for (name, reading) in WRONG {
            let wrong = passing.energies(reading);
            let pairs: Vec<_> = energies
                .iter()
                .zip(&wrong)
                .filter(|(is, wrong)| is != wrong)
                .collect();
            let of = |caps: bool| u64::from(pairs.iter().any(|(is, _)| (**is >= 0) == caps));
            *self.caps.entry(name).or_default() += of(true);
            *self.floors.entry(name).or_default() += of(false);
        }
    }

    fn list(&mut self, random: &mut Random) {
        let opening = calls::opening(random);
        let start = Start::Opening(opening, calls::ring_length(&opening));
        let mut playing = Playing::start(start, false).expect("a valid opening");
        for _ in 0..random.below(40) {
            let call = calls::call(random, &playing.ledger);
            let before = *playing.pair.kept().0;
            let answer = playing.call(call.clone());
            if let (0, Call::Entry(entry, ..), Values::Entry(_, table)) =
                (answer.number, call, answer.values)
            {
                self.entry(&before, &entry, &table);
            }
        }
    }
}

/// Every wrong reading is noticed, in caps and in floors; of those that round halves up, caps are as they should be.
#[test]
fn readings_told_apart() {
    let mut told = Told::default();
    for round in 0..rounds() {
        let mut random = Random::new(0x60_0000 + round);
        for _ in 0..10_000 {
            told.list(&mut random);
        }
    }
    let Told {
        links,
        caps,
        floors,
    } = told;
    let entries: u64 = links.values().sum();
    say(&format!(
        "limits: {entries} entries, by their most links {links:?}"
    ));
    say(&format!("limits: told apart in caps {caps:?}"));
    say(&format!("limits: told apart in floors {floors:?}"));
    assert!(entries >= 80_000 && links[&7] >= 50);
    for (name, _) in WRONG {
        let up = name.ends_with("halves up");
        assert!(
            floors[name] >= 50 && (caps[name] >= 50) != up,
            "{name}: told apart too seldom"
        );
    }
    for name in [
        "every link rounds to the cent",
        "cents are passed on",
        "the first link rounds to the cent",
        "the last step cuts",
    ] {
        assert!(
            caps[name] >= 500 && floors[name] >= 300,
            "{name}: told apart too seldom"
        );
    }
}
