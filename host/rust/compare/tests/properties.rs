//! What document 01 states of the ledger, over generated lists of calls; and what request 2026-04 of document 02 states of passed-on
//! limits, through the archive.

use compare::limits::{whole, Link, RULE};
use compare::typed::Pair;
use compare::{books, rounds, say};
use generator::{calls, images, Random};
use independent::ledger::Entry;
use independent::{image, Answer, Call, Kind, Ledger, Report, Values};
use std::collections::BTreeMap;

/// Every used market's report.
fn reports(ledger: &Ledger) -> Vec<Report> {
    let shape = ledger.shape();
    let (regions, markets) = (shape.regions as u32, shape.markets() as u32);
    let used = (0..regions).flat_map(|region| (0..markets).map(move |market| (region, market)));
    used.map(|(region, market)| ledger.report(region, market).expect("a used market"))
        .collect()
}

/// The ledger that the image leads to, by the independent reader.
fn reloaded(ledger: &Ledger) -> Ledger {
    let image = ledger.image();
    let mut buffer = vec![0xAA; image.len() + 3];
    let kind = Kind::holding(ledger.shape());
    assert_eq!(ledger.store(kind, &mut buffer), Ok(image.len()));
    assert_eq!(buffer[..image.len()], image);
    assert_eq!(buffer[image.len()..], [0xAA; 3]);
    Ledger::load(&image, ledger.shape().ring()).expect("an image that loads")
}

/// "answers zeros beside number and place", the table as it was lent.
fn zeros(call: &Call, answer: &Answer) {
    match (call, &answer.values) {
        (Call::Entry(_, _, lent), Values::Entry(count, table)) => {
            assert_eq!((0, lent), (*count, table));
        }
        (Call::Report(..), Values::Report(report)) => {
            let Report {
                sum,
                counted,
                mark,
                entries,
            } = *report;
            assert_eq!((sum, counted, mark, entries), (0, 0, 0, 0));
        }
        (_, values) => assert_eq!(*values, Values::Nothing),
    }
}

/// A name for a call's answer, to see that lists meet all of them.
fn outcome(call: &Call, answer: &Answer) -> (&'static str, u32) {
    let name = match call {
        Call::Entry(..) => "entry",
        Call::Threshold(_) => "threshold",
        Call::Limits(..) => "limits",
        Call::Report(..) => "report",
        Call::Restart(..) => "restart",
    };
    (name, answer.number)
}

/// Plays a list over a ledger and over one that is loaded anew at each restart, checking every property at every call.
fn play(random: &mut Random, from: &Ledger, met: &mut BTreeMap<(&'static str, u32), u64>) {
    let mut ledger = from.clone();
    let mut restarted = from.clone();
    for _ in 0..random.between(1, 40) {
        let call = calls::call(random, &ledger);
        let before = ledger.clone();
        let answer = ledger.call(&call);
        *met.entry(outcome(&call, &answer)).or_default() += 1;
        if answer.number != 0 {
            assert_eq!(
                ledger, before,
                "{call:?} refused by {answer:?} changed the ledger"
            );
            zeros(&call, &answer);
        }
        assert_eq!(restarted.call(&call), answer, "{call:?} after restarts");
        if matches!(call, Call::Restart(..)) && answer.number == 0 {
            assert_eq!(ledger, before);
            restarted = reloaded(&restarted);
            assert_eq!(reports(&restarted), reports(&ledger));
        }
    }
    let view = reloaded(&ledger);
    assert_eq!(reports(&view), reports(&ledger));
    assert_eq!(view.image(), ledger.image());
    assert_eq!(restarted.image(), ledger.image());
}

#[test]
fn lists_of_calls() {
    let mut met = BTreeMap::new();
    let lists = 2_500;
    for round in 0..rounds() {
        let mut random = Random::new(0x6_0000 + round);
        for turn in 0..lists {
            let from = if turn % 4 == 0 {
                let image = images::composed(&mut random);
                let fields = image::Fields::read(&image);
                Ledger::load(&image, fields.shape().ring()).expect("a valid image")
            } else {
                images::begun(&mut random)
            };
            play(&mut random, &from, &mut met);
        }
    }
    let all: u64 = met.values().sum();
    say(&format!(
        "lists: {} of {all} calls, answers {met:?}",
        lists * rounds()
    ));
    let refusals = (11..=17).map(|number| ("entry", number));
    let others = [
        ("threshold", 18),
        ("threshold", 44),
        ("limits", 19),
        ("report", 21),
        ("restart", 23),
        ("restart", 11),
    ];
    for outcome in refusals.chain(others) {
        let times = met.get(&outcome).copied().unwrap_or(0);
        assert!(times >= 20, "{outcome:?} met too seldom");
    }
    for (name, number) in met.keys() {
        assert!(*number != 10 && *number != 22, "{name} refused by {number}");
    }
}

/// A restart after each of 0 to 3 × W + 2 entries, windows of 1 to 6.
#[test]
fn restarts_at_every_phase() {
    let mut random = Random::new(0x7_0000);
    for window in 1..=6 {
        for services in [0, 1] {
            let mut opening = books::opening(3, services, window, 1);
            opening.parents = books::parents(&[255, 0, 0]);
            for phase in 0..3 * window + 3 {
                let mut ledger = books::open(&opening);
                let mut restarted = ledger.clone();
                for turn in 0..4 * window + 4 {
                    if turn == phase {
                        restarted = reloaded(&restarted);
                    }
                    let entry = calls::entry(&mut random, &ledger);
                    let lent = vec![0; ledger.shape().prices()];
                    let call = Call::Entry(entry, ledger.shape().ring(), lent);
                    assert_eq!(ledger.call(&call), restarted.call(&call));
                    assert_eq!(reports(&ledger), reports(&restarted));
                    assert_eq!(ledger.image(), restarted.image());
                }
            }
        }
    }
}

/// "The round trip holds over images as laid out here": an image that loads is stored again as the same bytes; a wrong
/// ring is refused by 11, and only where nothing before it is.
#[test]
fn images_round_trip() {
    let (mut loaded, mut wrong_ring) = (0, 0);
    for round in 0..rounds() {
        let mut random = Random::new(0x8_0000 + round);
        for _ in 0..20_000 {
            let valid = images::composed(&mut random);
            let bytes = if random.chance(50) {
                images::damaged(&mut random, &valid)
            } else {
                valid
            };
            let answer = image::check(&bytes);
            if answer == 0 || answer == 16 {
                let ring = image::Fields::read(&bytes).shape().ring();
                let number = |ring| Ledger::load(&bytes, ring).map_or_else(|r| r.number, |_| 0);
                assert_eq!(number(ring), answer);
                assert_eq!((number(ring + 1), number(ring - 1)), (11, 11));
                wrong_ring += 2;
                if let Ok(ledger) = Ledger::load(&bytes, ring) {
                    let kind = if bytes[4] == 1 { Kind::One } else { Kind::Two };
                    assert_eq!(ledger.image_by(kind), bytes);
                    loaded += 1;
                }
            } else {
                let refusal = Ledger::load(&bytes, 0).expect_err("a refused image");
                assert_eq!((refusal.number, refusal.place), (answer, 0));
            }
        }
    }
    say(&format!(
        "round trip: {loaded} images loaded and stored, {wrong_ring} wrong rings"
    ));
}

/// Openings at and past every bound: only the listed numbers, and a ledger exactly when every setting is allowed.
#[test]
fn openings() {
    let mut met = BTreeMap::new();
    for round in 0..rounds() {
        let mut random = Random::new(0x9_0000 + round);
        for _ in 0..50_000 {
            let (opening, ring) = calls::damaged_opening(&mut random);
            let number = match Ledger::open(&opening, ring) {
                Ok(ledger) => {
                    assert_eq!(image::check(&ledger.image()), 0);
                    0
                }
                Err(refusal) => {
                    assert_eq!(refusal.place, 0);
                    refusal.number
                }
            };
            *met.entry(number).or_insert(0) += 1;
        }
    }
    say(&format!("openings: {met:?}"));
    assert_eq!(
        met.keys().copied().collect::<Vec<u32>>(),
        [0, 11, 18, 19, 20, 44]
    );
}

const MOST: i32 = 10_000_000;

/// Regions in a row, the first one's energy administered for the rest of a long day.
fn row(links: usize) -> Pair {
    let regions = links + 1;
    let mut opening = books::opening(regions as u32, 0, 1, 48);
    for region in 1..regions {
        opening.parents[region] = region as u8 - 1;
    }
    let opened = Pair::open(&opening, regions).expect("no difference");
    let mut row = opened.expect("a valid opening");
    let mut prices = vec![0; regions];
    prices[0] = MOST;
    published(&mut row, prices, 0, vec![10_000; regions]);
    row
}

/// The prices that the next entry publishes, by the archive and the independent book.
fn published(row: &mut Pair, prices: Vec<i32>, flow: i32, factors: Vec<u32>) -> Vec<i32> {
    let regions = prices.len();
    let entry = Entry {
        number: row.kept().0.entries,
        kind: 0,
        prices,
        marks: vec![0; regions],
        flows: vec![flow; regions],
        factors,
        schedule: vec![0; regions * 2 * 48],
    };
    let answer = row.call(&Call::Entry(entry, regions, vec![0; regions]));
    match answer.expect("no difference").values {
        Values::Entry(_, table) => table,
        values => panic!("{values:?}"),
    }
}

/// Factors of a row's links: any, one for all, or from the ends of their range.
fn row_factors(random: &mut Random, links: usize) -> Vec<u32> {
    let one = random.between(10_000, 20_000) as u32;
    let ends = [10_000, 10_001, 19_999, 20_000];
    let style = random.below(4);
    let factors = (0..links).map(|_| match style {
        0 => one,
        1 => random.pick(&ends),
        _ => random.between(10_000, 20_000) as u32,
    });
    factors.collect()
}

/// How far off a price is, in how many parts: the distance from the exact number is the first divided by the second.
fn distance(price: i128, limit: i128, links: &[Link]) -> (i128, i128) {
    let (times, by) = whole(links);
    ((price * by - limit * times).abs(), by)
}

/// A distance in millionths of a cent, cut.
fn millionths((off, by): (i128, i128)) -> i128 {
    off * 1_000_000 / by
}

/// A limit from all of its range, or of some drawn the one farthest off at the route's end, among those that bind a price there.
fn far_limit(random: &mut Random, side: i128, links: &[Link]) -> i128 {
    if random.chance(30) {
        return side * i128::from(random.between(1, MOST.into()));
    }
    let mut farthest = (-1, side);
    for _ in 0..random.pick(&[20, 400]) {
        let bound = 10i64.pow(random.between(0, 7) as u32);
        let limit = side * i128::from(random.between(1, bound));
        let end = RULE(limit, links);
        if end.abs() <= MOST.into() {
            farthest = farthest.max((millionths(distance(end, limit, links)), limit));
        }
    }
    farthest.1
}

/// What was seen of passed-on limits: how many bound a price, how many no price can reach, and of the first how many are farther off
/// than half a cent, and the farthest in millionths of a cent.
#[derive(Debug, Default)]
struct Near {
    bound: u64,
    beyond: u64,
    above_half: u64,
    farthest: i128,
}

impl Near {
    /// "less than 0.51 cent from the exact quotient or product along its route". A floor limit that is not nearer to zero than the
    /// lowest price binds none, which then stays.
    fn price(&mut self, price: i32, limit: i128, links: &[Link]) {
        let ((times, by), most) = (whole(links), i128::from(MOST));
        if 2 * limit * times <= -(2 * most + 1) * by {
            assert_eq!(price, -MOST, "{limit} over {links:?}");
            self.beyond += 1;
            return;
        }
        let (off, by) = distance(price.into(), limit, links);
        assert!(100 * off < 51 * by, "{limit} over {links:?}: {price}");
        self.bound += 1;
        self.above_half += u64::from(2 * off > by);
        self.farthest = self.farthest.max(millionths((off, by)));
    }

    /// A limit of one kind over a row, every price of which is beyond it.
    fn limit(&mut self, random: &mut Random, row: &mut Pair, side: i128) {
        let regions = usize::from(row.kept().0.regions);
        let factors = row_factors(random, regions - 1);
        let link = |&factor: &u32| match side {
            1 => (10_000, factor.into()),
            _ => (factor.into(), 10_000),
        };
        let links: Vec<Link> = factors.iter().map(link).collect();
        let limit = far_limit(random, side, &links);
        let (cap, floor) = if side > 0 {
            (limit as i32, -1)
        } else {
            (1, limit as i32)
        };
        let set = row.call(&Call::Limits(cap, floor));
        assert_eq!(set.map(|answer| answer.number), Ok(0));
        let (side, factors) = (side as i32, [vec![0], factors].concat());
        let table = published(row, vec![side * MOST; regions], side, factors);
        assert_eq!(i128::from(table[0]), limit, "a source's own");
        for region in 1..regions {
            self.price(table[region], limit, &links[..region]);
        }
    }
}

/// "Show that a passed-on limit, cap or floor, is less than 0.51 cent from the exact quotient or product along its route, for up to
/// seven links." Less than 0.5 would not hold of either.
#[test]
fn passed_on_limits_are_near() {
    for (name, side) in [("caps", 1), ("floors", -1)] {
        let mut near = Near::default();
        for round in 0..rounds() {
            let mut random = Random::new(0xB_0000 + round);
            for turn in 0..70 {
                let mut row = row(turn % 7 + 1);
                for _ in 0..280 {
                    near.limit(&mut random, &mut row, side);
                }
            }
        }
        say(&format!("passed-on {name}: {near:?}"));
        assert!(near.bound >= 60_000 && near.above_half >= 100);
        assert!(near.farthest > 500_100 && (near.beyond > 1_000) == (side < 0));
    }
}
