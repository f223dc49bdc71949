//! The fast book's typed calls against the ledger of `independent`, on lists of calls from a seed, begun with an opening or an image:
//! every answer and table, and after a refusal the book and its ring as they were. A restart is a store and a load into another ring.

use fast::{Book, Refusal};
use generator::{calls, images, Random};
use independent::image::Fields;
use independent::{Answer, Call, Kind, Ledger, Opening, Report, Values};
use std::collections::BTreeMap;

/// A book and its ring, as a host keeps them.
#[derive(Clone, Debug, PartialEq, Eq)]
struct Host {
    book: Book,
    ring: Vec<i32>,
}

/// The opening with the typed book's numbers.
fn opening_of(opening: &Opening) -> fast::Opening {
    fast::Opening {
        regions: opening.regions as u8,
        services: opening.services as u8,
        window: opening.window as u16,
        halves: opening.halves as u8,
        first: opening.first as u16,
        parents: opening.parents,
        from: opening.from,
        to: opening.to,
        threshold: opening.threshold,
        cap: opening.cap,
        floor: opening.floor,
    }
}

fn answer(refused: Option<Refusal>, values: Values) -> Answer {
    Answer {
        number: refused.map_or(0, |refusal| refusal.number),
        place: refused.map_or(0, |refusal| refusal.place),
        values,
    }
}

impl Host {
    fn open(opening: &Opening) -> Host {
        let mut ring = vec![77; calls::ring_length(opening)];
        let book = Book::open(&opening_of(opening), &mut ring).expect("a valid opening");
        assert!(ring.iter().all(|&price| price == 0));
        Host { book, ring }
    }

    fn load(settings: &Opening, image: &[u8]) -> Host {
        let mut ring = vec![77; calls::ring_length(settings)];
        let book = Book::load(image, &mut ring).expect("a valid image");
        assert!(ring.iter().all(|&price| price == 0));
        Host { book, ring }
    }

    fn call(&mut self, call: &Call) -> Answer {
        match call {
            Call::Entry(entry, ring, table) => self.enter(entry, *ring, table),
            Call::Threshold(threshold) => {
                let set = self.book.set_threshold(*threshold);
                answer(set.err(), Values::Nothing)
            }
            Call::Limits(cap, floor) => {
                let set = self.book.set_limits(*cap, *floor);
                answer(set.err(), Values::Nothing)
            }
            Call::Report(region, market) => self.report(*region, *market),
            Call::Restart(kind, image, ring) => {
                let restarted = self.restart(*kind, *image, *ring);
                answer(restarted.err(), Values::Nothing)
            }
        }
    }

    /// A ring of another length than the book's is another ring.
    fn enter(&mut self, entry: &independent::ledger::Entry, ring: usize, table: &[i32]) -> Answer {
        let lent = fast::Entry {
            number: entry.number,
            kind: entry.kind,
            prices: &entry.prices,
            marks: &entry.marks,
            flows: &entry.flows,
            factors: &entry.factors,
            schedule: &entry.schedule,
        };
        let (mut other, mut table) = (vec![78; ring], table.to_vec());
        let own = if ring == self.ring.len() {
            &mut self.ring
        } else {
            &mut other
        };
        let count = self.book.enter(own, &lent, &mut table);
        assert!(other.iter().all(|&price| price == 78));
        answer(count.err(), Values::Entry(count.unwrap_or(0), table))
    }

    fn report(&self, region: u32, market: u32) -> Answer {
        let report = self.book.report(region, market);
        let numbers = report.unwrap_or_default();
        let values = Report {
            sum: numbers.sum,
            counted: numbers.counted,
            mark: numbers.mark,
            entries: numbers.entries,
        };
        answer(report.err(), Values::Report(values))
    }

    fn restart(&mut self, kind: Kind, image: usize, ring: usize) -> Result<(), Refusal> {
        let (mut image, mut other) = (vec![79; image], vec![80; ring]);
        let length = match kind {
            Kind::One => self.book.store_kind_1(&self.ring, &mut image)?,
            Kind::Two => self.book.store(&self.ring, &mut image)?,
        };
        assert!(image[length..].iter().all(|&byte| byte == 79));
        self.book = Book::load(&image[..length], &mut other)?;
        self.ring = other;
        Ok(())
    }
}

/// The call's kind, to count what was met.
fn kind(call: &Call) -> &'static str {
    match call {
        Call::Entry(..) => "entry",
        Call::Threshold(..) => "threshold",
        Call::Limits(..) => "limits",
        Call::Report(..) => "report",
        Call::Restart(..) => "restart",
    }
}

/// A book with the ledger beside it, opened, or from an image of any threshold.
fn begun(random: &mut Random) -> (Host, Ledger) {
    if random.chance(70) {
        let opening = calls::opening(random);
        let ledger = Ledger::open(&opening, calls::ring_length(&opening));
        return (Host::open(&opening), ledger.expect("a valid opening"));
    }
    let settings = images::settings(random);
    let image = Fields::blank(&settings).bytes();
    let ledger = Ledger::begin(&image, calls::ring_length(&settings));
    let ledger = ledger.expect("a valid image").expect("no entries");
    (Host::load(&settings, &image), ledger)
}

#[test]
fn lists() {
    let mut met: BTreeMap<(&str, u32), usize> = BTreeMap::new();
    for seed in 0..900 {
        let mut random = Random::new(0x3000_0000 + seed);
        let (mut host, mut ledger) = begun(&mut random);
        for _ in 0..40 {
            let call = calls::call(&mut random, &ledger);
            let before = host.clone();
            let found = host.call(&call);
            assert_eq!(found, ledger.call(&call), "seed {seed}: {call:?}");
            assert!(found.number == 0 || host == before, "seed {seed}: {call:?}");
            *met.entry((kind(&call), found.number)).or_default() += 1;
        }
    }
    let expected: [(&str, &[u32]); 5] = [
        ("entry", &[0, 11, 13, 14, 15, 16, 17]),
        ("threshold", &[0, 18, 44]),
        ("limits", &[0, 19]),
        ("report", &[0, 21]),
        ("restart", &[0, 11, 23, 47]),
    ];
    for (kind, numbers) in expected {
        for &number in numbers {
            let times = met.get(&(kind, number)).copied().unwrap_or(0);
            assert!(times >= 100, "{kind}, {number}: met {times} times");
        }
    }
}
