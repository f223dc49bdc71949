//! The week of host/c/week.c counted again: by the ledger of `independent`, and by the fast book. Both change periods where
//! host/c/week.expected says. Only the week's inputs are the same as there.

use fast::Book;
use independent::ledger::Entry;
use independent::{Ledger, Opening};

const DAY: usize = 288;
const ENTRIES: usize = 7 * DAY;

const OPENING: Opening = Opening {
    regions: 2,
    services: 1,
    window: 288,
    halves: 48,
    first: 0,
    parents: [255, 0, 255, 255, 255, 255, 255, 255],
    from: 255,
    to: 255,
    threshold: 25_000_000,
    cap: 60_000,
    floor: -60_000,
};

/// The hour and day at which an entry's interval begins.
fn time(entry: usize) -> (usize, usize) {
    (entry / DAY, entry % DAY / 12)
}

fn price(entry: usize, region: usize, market: usize) -> i32 {
    match (time(entry), region, market) {
        ((1, 17..=18), 0, 0) => 1_500_000,
        ((1, 17..=18), 1, 0) => 900_000,
        ((4, 7..=8), 1, 1) => 1_200_000,
        ((6, 11..=13), _, 0) => -2_500,
        _ => {
            let half = (entry % DAY / 6) as i32;
            let peak = (12 - (half - 36).abs()).max(0);
            let change = ((entry * 7_919 + region * 1_543) % 1_000) as i32;
            if market == 0 {
                5_000 + 600 * peak + change
            } else {
                200 + change / 4
            }
        }
    }
}

fn entry(number: usize) -> Entry {
    let (day, hour) = time(number);
    let markets = [(0, 0), (0, 1), (1, 0), (1, 1)];
    let flow = if hour < 12 { 200 } else { -150 };
    let mut schedule = Vec::new();
    for (_, market) in markets {
        let (weekday, weekend) = if market == 0 {
            (8_000, 6_000)
        } else {
            (250, 250)
        };
        schedule.extend([[weekday; 48], [weekend; 48]].concat());
    }
    Entry {
        number: number as u32,
        kind: (day >= 5).into(),
        prices: markets
            .map(|(region, market)| price(number, region, market))
            .to_vec(),
        marks: vec![(day == 2 && (8..16).contains(&hour)).into(), 0],
        flows: vec![flow; 2],
        factors: vec![10_500; 2],
        schedule,
    }
}

/// A line for each change of a market's mark, as host/c/week.c prints it.
#[derive(Default)]
struct Changes {
    marks: [u32; 4],
    lines: String,
}

impl Changes {
    fn see(&mut self, entry: usize, place: usize, mark: u32, sum: i64) {
        if mark != self.marks[place] {
            let period = if mark == 1 { "administered" } else { "free" };
            let (region, market) = (place / 2, place % 2);
            let (dollars, cents) = (sum / 100, sum % 100);
            self.lines += &format!(
                "entry {entry}, region {region}, market {market}: {period}, sum {dollars}.{cents:02}\n"
            );
        }
        self.marks[place] = mark;
    }
}

fn expected() -> String {
    let path = concat!(env!("CARGO_MANIFEST_DIR"), "/../../c/week.expected");
    std::fs::read_to_string(path).expect("host/c/week.expected")
}

/// The ledger goes on from its own image every two hours: over a week's history it takes too long.
#[test]
fn ledger() {
    let ring = 4 * DAY;
    let mut ledger = Ledger::open(&OPENING, ring).expect("a valid opening");
    let mut changes = Changes::default();
    for number in 0..ENTRIES {
        if number % 24 == 0 {
            ledger = Ledger::load(&ledger.image(), ring).expect("its own image");
        }
        let count = ledger.enter(ring, entry(number), &mut [0; 4]);
        count.expect("a valid entry");
        for place in 0..4 {
            let report = ledger.report(place as u32 / 2, place as u32 % 2);
            let report = report.expect("a used market");
            changes.see(number, place, report.mark, report.sum);
        }
    }
    let end = "2016 entries, 7 restarts\n";
    assert_eq!(changes.lines + end, expected());
}

#[test]
fn fast_book() {
    let opening = fast::Opening {
        regions: 2,
        services: 1,
        window: 288,
        halves: 48,
        first: 0,
        parents: OPENING.parents,
        from: OPENING.from,
        to: OPENING.to,
        threshold: OPENING.threshold,
        cap: OPENING.cap,
        floor: OPENING.floor,
    };
    let mut ring = vec![0; 4 * DAY];
    let mut book = Book::open(&opening, &mut ring).expect("a valid opening");
    let mut changes = Changes::default();
    for number in 0..ENTRIES {
        let entry = entry(number);
        let lent = fast::Entry {
            number: entry.number,
            kind: entry.kind,
            prices: &entry.prices,
            marks: &entry.marks,
            flows: &entry.flows,
            factors: &entry.factors,
            schedule: &entry.schedule,
        };
        book.enter(&mut ring, &lent, &mut [0; 4])
            .expect("a valid entry");
        for place in 0..4 {
            let report = book.report(place as u32 / 2, place as u32 % 2);
            let report = report.expect("a used market");
            changes.see(number, place, report.mark, report.sum);
        }
    }
    let end = "2016 entries, 7 restarts\n";
    assert_eq!(changes.lines + end, expected());
}
