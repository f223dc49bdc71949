//! One region's trouble stays its own (request 2026-05 of document 02): twins, lists of calls that tell a region the same and differ
//! in all else, report the same of its markets after every call; wrong machines do not; and cases worked by hand.

use compare::cutting::shortest_twins;
use compare::isolation::{
    described, difference, differs, first_difference, heard_by, supposed, Played, Reports,
};
use compare::machines::{self, Rule, WRONG};
use compare::twins::{own_places, twin, Kind, List, Told, Twins};
use compare::{books, rounds, say};
use generator::weeks::Weeks;
use generator::Random;
use guxhamole::raw;
use independent::ledger::Entry;
use independent::rules::in_hundreds;
use independent::Kind as ImageKind;
use independent::{Answer, Call, Opening, Values};
use std::collections::BTreeMap;

/// What was met: how twins differ, and in how many of them, and after how many calls, a wrong machine's reports differ.
#[derive(Default)]
struct Met {
    calls: u64,
    reports: u64,
    times: BTreeMap<&'static str, u64>,
    wrong: BTreeMap<&'static str, (u64, u64)>,
}

impl Met {
    /// Something about twins, and whether it holds of them.
    fn note(&mut self, name: &'static str, holds: bool) {
        *self.times.entry(name).or_default() += u64::from(holds);
    }

    /// Twins: what the request supposes holds, and the reports are the same.
    fn twins(&mut self, twins: &Twins) -> [Played; 2] {
        let played = Played::both(twins).unwrap_or_else(|_| differs(twins, difference));
        let [one, other] = heard_by(twins, &played);
        assert_eq!(one, other, "no twins:\n{}", described(twins));
        assert!(twins.opened_alike(), "no twins:\n{}", described(twins));
        let [one, other] = &played;
        assert_eq!(one.reports.len(), other.reports.len());
        if first_difference(&one.reports, &other.reports).is_some() {
            differs(twins, difference);
        }
        self.calls += one.answers.len() as u64;
        self.reports += one.reports.iter().map(Vec::len).sum::<usize>() as u64;
        self.openings(twins);
        for place in 0..one.answers.len() {
            self.place(twins, &played, place);
            self.periods(twins.region, &played, place);
        }
        played
    }

    fn openings(&mut self, twins: &Twins) {
        let [one, other] = [0, 1].map(|which| twins.lists[which].opening);
        let loaded = [0, 1].map(|which| twins.lists[which].loaded);
        self.note("opened against loaded", loaded == [false, true]);
        self.note("loaded against opened", loaded == [true, false]);
        self.note("no multiple", !in_hundreds(one.threshold));
        let both = one.regions.min(other.regions) as usize;
        self.note("other R", one.regions != other.regions);
        self.note(
            "other parents",
            one.parents[..both] != other.parents[..both],
        );
        self.note("other cap", one.cap != other.cap);
        self.note("other floor", one.floor != other.floor);
    }

    /// The calls of one place.
    fn place(&mut self, twins: &Twins, played: &[Played; 2], place: usize) {
        let calls = [0, 1].map(|which| &twins.lists[which].calls[place]);
        let answers = [0, 1].map(|which| &played[which].answers[place]);
        if answers[0].number != 0 {
            self.note(
                "other kinds refused",
                Kind::of(calls[0]) != Kind::of(calls[1]),
            );
            self.note("other refusals", answers[0].number != answers[1].number);
            return;
        }
        match calls {
            [Call::Entry(one, ..), Call::Entry(other, ..)] => {
                let markets = twins.lists[0].opening.services as usize + 1;
                self.entries(twins.region, markets, [one, other]);
                let books = [0, 1].map(|which| &played[which].books[place]);
                self.published(twins.region, [one, other], answers, books);
            }
            [Call::Threshold(_), _] => self.note("thresholds set", true),
            [Call::Limits(..), _] => self.note("other limits set", calls[0] != calls[1]),
            [Call::Report(..), _] => self.note("other reports", calls[0] != calls[1]),
            _ => self.note("restarts", true),
        }
    }

    /// Two entries that are accepted.
    fn entries(&mut self, region: usize, markets: usize, [one, other]: [&Entry; 2]) {
        let own = own_places(region, markets);
        let both = one.marks.len().min(other.marks.len());
        let marked_alone = |q: usize| q != region && one.marks[q] != other.marks[q];
        let wild = one.marks[region] == 1 && one.prices[own.clone()] != other.prices[own];
        self.note("marked, other prices", wild);
        self.note(
            "a neighbour marked in one alone",
            (0..both).any(marked_alone),
        );
        self.note("other flows", one.flows[..both] != other.flows[..both]);
        self.note(
            "other factors",
            one.factors[..both] != other.factors[..both],
        );
        self.note("other day kinds", one.kind != other.kind);
        let row = one.schedule.len() / one.marks.len();
        let rows = own_places(region, row);
        let schedules = one.schedule[rows.clone()] != other.schedule[rows];
        self.note("other schedules", schedules);
    }

    /// The region's energy that two entries publish, over the books before them. Unmarked and not administered, a limit from elsewhere
    /// alone can change it.
    fn published(
        &mut self,
        region: usize,
        entries: [&Entry; 2],
        answers: [&Answer; 2],
        books: [&raw::Book; 2],
    ) {
        let markets = usize::from(books[0].services) + 1;
        let energy = answers.map(|answer| match &answer.values {
            Values::Entry(_, table) => table[region * markets],
            values => panic!("{values:?}"),
        });
        let otherwise = energy[0] != energy[1];
        let unmarked = entries[0].marks[region] == 0;
        let administered = books[0].marks[11 * region] == 1;
        self.note("published otherwise", otherwise);
        self.note("published otherwise, unmarked", otherwise && unmarked);
        let travelled = otherwise && unmarked && !administered;
        self.note("published otherwise by a neighbour's limit", travelled);
    }

    /// What a place does to the region's periods, and how the neighbours' differ.
    fn periods(&mut self, region: usize, played: &[Played; 2], place: usize) {
        let marks = |which: usize, place: usize| &played[which].books[place].marks;
        let (before, after) = (marks(0, place), marks(0, place + 1));
        for market in 11 * region..11 * (region + 1) {
            self.note("periods begun", before[market] < after[market]);
            self.note("periods ended", before[market] > after[market]);
        }
        let regions = [0, 1].map(|which| played[which].books[0].regions);
        let both = usize::from(regions[0].min(regions[1]));
        let other = marks(1, place + 1);
        let alone = |q: usize| q != region && after[11 * q] != other[11 * q];
        let name = "a neighbour's energy administered in one alone";
        self.note(name, (0..both).any(alone));
    }

    /// The right machine reports what the book does; the wrong ones often differ between twins.
    fn machines(&mut self, twins: &Twins, played: &[Played; 2]) {
        if apart_from_right(twins, played).is_some() {
            let shows = |twins: &Twins| {
                Played::both(twins).map_or_else(Some, |played| apart_from_right(twins, &played))
            };
            differs(twins, shows);
        }
        for (name, rule) in WRONG {
            let [one, other] = machine_reports(rule, twins, played);
            let differing = one.iter().zip(&other).filter(|(one, other)| one != other);
            let places = differing.count() as u64;
            let (pairs, all) = self.wrong.entry(name).or_default();
            *pairs += u64::from(places > 0);
            *all += places;
        }
    }

    fn say(&self) {
        let Met {
            calls,
            reports,
            times,
            wrong,
        } = self;
        say(&format!(
            "isolation: {calls} calls in each list, {reports} reports compared, {times:?}"
        ));
        say(&format!(
            "isolation: twins, and their calls, after which a wrong machine's reports differ {wrong:?}"
        ));
    }

    fn at_least(&self, name: &str, floor: u64) {
        let times = self.times.get(name).copied().unwrap_or(0);
        assert!(times >= floor, "{name}: met {times} times");
    }
}

/// What a machine of a rule reports over both lists.
fn machine_reports(rule: Rule, twins: &Twins, played: &[Played; 2]) -> [Vec<Reports>; 2] {
    [0, 1].map(|which| {
        let (list, answers) = (&twins.lists[which], &played[which].answers);
        machines::reports(rule, list, answers, twins.region)
    })
}

/// After how many calls of each list the right machine reports something else than the book.
fn apart_from_right(twins: &Twins, played: &[Played; 2]) -> Option<String> {
    let right = machine_reports(Rule::Own, twins, played);
    let places = [0, 1].map(|which| first_difference(&right[which], &played[which].reports));
    (places != [None; 2]).then(|| format!("the right machine's reports after {places:?} calls"))
}

/// What must be met, and how often at least.
const FLOORS: [(&str, u64); 25] = [
    ("opened against loaded", 300),
    ("loaded against opened", 300),
    ("no multiple", 300),
    ("other R", 400),
    ("other parents", 400),
    ("other cap", 800),
    ("other floor", 800),
    ("other kinds refused", 5_000),
    ("other refusals", 5_000),
    ("marked, other prices", 5_000),
    ("a neighbour marked in one alone", 5_000),
    ("other flows", 10_000),
    ("other factors", 10_000),
    ("other day kinds", 10_000),
    ("other schedules", 10_000),
    ("thresholds set", 3_000),
    ("other limits set", 1_000),
    ("other reports", 3_000),
    ("restarts", 3_000),
    ("periods begun", 2_000),
    ("periods ended", 1_000),
    ("a neighbour's energy administered in one alone", 10_000),
    ("published otherwise", 10_000),
    ("published otherwise, unmarked", 5_000),
    ("published otherwise by a neighbour's limit", 1_000),
];

/// Wrong machines must show in so many pairs of lists, and after so many calls.
const TOLD_APART: (u64, u64) = (150, 3_000);

/// The twins of a round.
fn round_of_twins(met: &mut Met, round: u64) {
    let mut random = Random::new(0x70_0000 + round);
    for _ in 0..2_000 {
        let length = random.between(20, 100) as usize;
        let twins = Twins::drawn(&mut random, length);
        let played = met.twins(&twins);
        met.machines(&twins, &played);
    }
}

#[test]
fn generated_twins() {
    let mut met = Met::default();
    (0..rounds()).for_each(|round| round_of_twins(&mut met, round));
    met.say();
    assert!(met.calls >= 100_000);
    for (name, floor) in FLOORS {
        met.at_least(name, floor);
    }
    let seldom = |(pairs, calls): (u64, u64)| pairs < TOLD_APART.0 || calls < TOLD_APART.1;
    let too_seldom = WRONG.iter().find(|(name, _)| seldom(met.wrong[name]));
    assert_eq!(too_seldom, None, "told apart too seldom");
}

/// Weeks of entries over windows of 2,016, now and then another threshold, restarts at first and at last; and their twin.
fn weeks_of_twins(random: &mut Random) -> Twins {
    let opening = Opening {
        services: 1,
        window: 2_016,
        halves: 3,
        threshold: 20_160_000,
        ..OPENING
    };
    let mut ledger = books::open(&opening).cached();
    let mut weeks = Weeks::new(random, &ledger);
    let (ring, prices) = (ledger.shape().ring(), ledger.shape().prices());
    let (mut calls, mut answers) = (Vec::new(), Vec::new());
    for turn in 0..5_500 {
        let call = match turn {
            1_000 | 5_250 | 5_300 | 5_400 => Call::Restart(ImageKind::One, 148 + 4 * ring, ring),
            _ if turn % 300 == 299 => Call::Threshold(10_000 * random.between(1_900, 2_100)),
            _ => Call::Entry(weeks.entry(random, &ledger), ring, vec![0; prices]),
        };
        answers.push(ledger.call(&call));
        calls.push(call);
    }
    let list = List {
        opening,
        loaded: false,
        memory: random.word(),
        calls,
    };
    let lists = [list.clone(), twin(random, &list, &answers, 1)];
    Twins { region: 1, lists }
}

/// How often the region's window turned round.
fn turned(played: &Played, region: usize) -> usize {
    let nexts = played.books.iter().map(|book| book.nexts[region]);
    let after = nexts.clone().skip(1);
    nexts.zip(after).filter(|pair| *pair == (2_015, 0)).count()
}

/// Windows of 2,016 that fill and turn round.
#[test]
fn widest_windows() {
    let mut met = Met::default();
    let played = met.twins(&weeks_of_twins(&mut Random::new(0x72_0001)));
    assert_eq!(played.map(|played| turned(&played, 1)), [2, 2]);
    let (calls, times) = (met.calls, &met.times);
    say(&format!(
        "isolation, widest windows: {calls} calls in each list, {times:?}"
    ));
    met.at_least("periods begun", 10);
    met.at_least("periods ended", 10);
}

/// A wrong machine is noticed, and cutting finds short lists that show it and still tell the region the same.
#[test]
fn cutting_shortens() {
    for (name, rule) in WRONG {
        let shows = |twins: &Twins| {
            let played = Played::both(twins).expect("no difference");
            let [one, other] = machine_reports(rule, twins, &played);
            supposed(twins, &played) && first_difference(&one, &other).is_some()
        };
        let mut random = Random::new(0x71_0000);
        let drawn = (0..600).map(|_| Twins::drawn(&mut random, 30));
        let short = drawn
            .filter(shows)
            .take(30)
            .map(|twins| shortest_twins(&twins, shows));
        let mut lengths: Vec<usize> = short.map(|short| short.lists[0].calls.len()).collect();
        lengths.sort_unstable();
        say(&format!(
            "isolation, {name}: 30 calls cut down to {lengths:?}"
        ));
        // Where a wrong mark shows at the end of a day alone, the day's entries stay.
        let (least, most) = (lengths[0], lengths[lengths.len() - 1]);
        assert!(lengths.len() >= 5 && least <= 5 && most <= 20);
    }
}

/// The books of the cases: "R 2, parents 255, 0, S 0, W 2, H 1, first position 0, threshold 90,000, limits ±60,000".
const OPENING: Opening = Opening {
    regions: 2,
    services: 0,
    window: 2,
    halves: 1,
    first: 0,
    parents: [255, 0, 255, 255, 255, 255, 255, 255],
    from: 255,
    to: 255,
    threshold: 90_000,
    cap: 60_000,
    floor: -60_000,
};

/// An entry of the cases, over an opening: region 1 has this flow and "factors 10,000, 11,000", nothing is marked.
fn entry(opening: &Opening, number: u32, prices: &[i32], flow: i32) -> Entry {
    let regions = opening.regions as usize;
    let mut flows = vec![0; regions];
    flows[1] = flow;
    Entry {
        number,
        kind: 0,
        prices: prices.to_vec(),
        marks: vec![0; regions],
        flows,
        factors: [10_000, 11_000, 10_800][..regions].to_vec(),
        schedule: vec![60_000; prices.len() * 2],
    }
}

/// An entry with a region marked.
fn marked(region: usize, mut entry: Entry) -> Entry {
    entry.marks[region] = 1;
    entry
}

/// The call that lends an entry, a ring of the right length and a table.
fn enter(entry: Entry) -> Call {
    let (ring, table) = (2 * entry.prices.len(), vec![77; entry.prices.len()]);
    Call::Entry(entry, ring, table)
}

/// An entry of the books of most cases, without flow.
fn plain(number: u32, prices: [i32; 2]) -> Call {
    enter(entry(&OPENING, number, &prices, 0))
}

/// Two lists about region 1, over memory of other contents, played.
fn played(openings: [Opening; 2], calls: [&[Call]; 2]) -> (Twins, [Played; 2]) {
    played_from(openings, [false; 2], calls)
}

/// Likewise, each from an opening or from the image of a book of its settings.
fn played_from(
    openings: [Opening; 2],
    loaded: [bool; 2],
    calls: [&[Call]; 2],
) -> (Twins, [Played; 2]) {
    let lists = [0, 1].map(|which| List {
        opening: openings[which],
        loaded: loaded[which],
        memory: which as u64,
        calls: calls[which].to_vec(),
    });
    let twins = Twins { region: 1, lists };
    let played = Played::both(&twins).unwrap_or_else(|_| differs(&twins, difference));
    (twins, played)
}

/// Sum, prices counted and period mark of one of region 1's markets after each place.
fn triples(played: &Played, market: usize) -> Vec<(i64, u32, u32)> {
    let reports = played.reports[1..].iter().map(|reports| reports[market]);
    reports
        .map(|report| (report.sum, report.counted, report.mark))
        .collect()
}

/// The refusals, or 0, of each place.
fn numbers(played: &Played) -> Vec<u32> {
    played.answers.iter().map(|answer| answer.number).collect()
}

/// Region 1's energy that the entry at a place publishes in both lists.
fn energies(played: &[Played; 2], place: usize) -> [i32; 2] {
    [0, 1].map(|which| match &played[which].answers[place].values {
        Values::Entry(_, table) => table[table.len() / usize::from(played[which].books[0].regions)],
        values => panic!("{values:?}"),
    })
}

/// Lists that tell region 1 the same, and its energy's triples in both: whichever of them begins with an image.
fn alike(openings: [Opening; 2], calls: [&[Call]; 2], expected: &[(i64, u32, u32)]) -> [Played; 2] {
    for loaded in [[false, true], [true, false], [true, true]] {
        alike_from(openings, loaded, calls, expected);
    }
    alike_from(openings, [false; 2], calls, expected)
}

fn alike_from(
    openings: [Opening; 2],
    loaded: [bool; 2],
    calls: [&[Call]; 2],
    expected: &[(i64, u32, u32)],
) -> [Played; 2] {
    let (twins, played) = played_from(openings, loaded, calls);
    assert!(supposed(&twins, &played), "{}", described(&twins));
    for played in &played {
        assert_eq!(triples(played, 0), expected, "{}", described(&twins));
    }
    played
}

/// "region 0 at 100,000, 100,000, 0 with flow 1 from entry 1, against 0, marked, 50 with flows −1, 0"
#[test]
fn case_1_prices_marks_and_flows_of_a_neighbour() {
    let one = [
        enter(entry(&OPENING, 0, &[100_000, 70_000], 0)),
        enter(entry(&OPENING, 1, &[100_000, 70_000], 1)),
        enter(entry(&OPENING, 2, &[0, 10_000], 1)),
    ];
    let other = [
        enter(entry(&OPENING, 0, &[0, 70_000], 0)),
        enter(marked(0, entry(&OPENING, 1, &[7, 70_000], -1))),
        enter(entry(&OPENING, 2, &[50, 10_000], 0)),
    ];
    let expected = [(70_000, 1, 0), (140_000, 2, 1), (80_000, 2, 1)];
    let played = alike([OPENING; 2], [&one, &other], &expected);
    assert_eq!(energies(&played, 1), [54_545, 70_000]);
}

/// "limits 60,000/−60,000 then entries, against opened with cap 10, floor −10 and limits 30,000/−1"
#[test]
fn case_2_limits() {
    let low = Opening {
        cap: 10,
        floor: -10,
        ..OPENING
    };
    let [one, other] = [(60_000, -60_000), (30_000, -1)].map(|(cap, floor)| {
        [
            Call::Limits(cap, floor),
            plain(0, [0, 100_000]),
            plain(1, [0, 100_000]),
        ]
    });
    let expected = [(0, 0, 0), (100_000, 1, 1), (200_000, 2, 1)];
    let played = alike([OPENING, low], [&one, &other], &expected);
    assert_eq!(energies(&played, 2), [60_000, 30_000]);
}

/// "its price while marked 99 against −2,147,483,648"
#[test]
fn case_3_prices_while_marked() {
    let [one, other] = [99, -2_147_483_648].map(|price| {
        [
            plain(0, [0, 50_000]),
            enter(marked(1, entry(&OPENING, 1, &[0, price], 0))),
            plain(2, [0, 50_000]),
        ]
    });
    let expected = [(50_000, 1, 0), (50_000, 1, 0), (100_000, 2, 1)];
    alike([OPENING; 2], [&one, &other], &expected);
}

/// "threshold 0 (refused 18) .. against .. report 5, 5 (refused 21)"
#[test]
fn case_4_refused_calls() {
    let [one, other] = [Call::Threshold(0), Call::Report(5, 5)]
        .map(|refused| [plain(0, [0, 50_000]), refused, plain(1, [0, 50_000])]);
    let expected = [(50_000, 1, 0), (50_000, 1, 0), (100_000, 2, 1)];
    let played = alike([OPENING; 2], [&one, &other], &expected);
    assert_eq!(numbers(&played[0]), [0, 18, 0]);
    assert_eq!(numbers(&played[1]), [0, 21, 0]);
}

/// "opened with R 3, a chain, ±60,000 against R 2, no parents, ±1"
#[test]
fn case_5_openings() {
    let chain = Opening {
        regions: 3,
        parents: [255, 0, 1, 255, 255, 255, 255, 255],
        ..OPENING
    };
    let unlinked = Opening {
        parents: [255; 8],
        cap: 1,
        floor: -1,
        ..OPENING
    };
    let [one, other] = [
        (chain, &[100_000, 70_000, 0][..]),
        (unlinked, &[100_000, 70_000]),
    ]
    .map(|(opening, prices)| [0, 1].map(|number| enter(entry(&opening, number, prices, 1))));
    let expected = [(70_000, 1, 0), (140_000, 2, 1)];
    let played = alike([chain, unlinked], [&one, &other], &expected);
    assert_eq!(energies(&played, 1), [54_545, 70_000]);
}

/// "a restart between the entries in both", each with its own buffer and ring.
#[test]
fn case_6_restarts() {
    let [one, other] = [(0, 156), (100_000, 1_000)].map(|(price, buffer)| {
        [
            plain(0, [price, 50_000]),
            Call::Restart(ImageKind::One, buffer, 4),
            plain(1, [price, 50_000]),
        ]
    });
    let expected = [(50_000, 1, 0), (50_000, 1, 0), (100_000, 2, 1)];
    alike([OPENING; 2], [&one, &other], &expected);
}

/// "S 1: region 1 (70,000, 95,000)"
#[test]
fn case_7_a_service() {
    let opening = Opening {
        services: 1,
        ..OPENING
    };
    let [one, other] = [(0, 0), (-10_000_000, 10_000_000)].map(|(energy, service)| {
        let prices = [energy, service, 70_000, 95_000];
        [enter(entry(&opening, 0, &prices, 0))]
    });
    let played = alike([opening; 2], [&one, &other], &[(70_000, 1, 0)]);
    for played in &played {
        assert_eq!(triples(played, 1), [(95_000, 1, 1)]);
    }
}

/// An opening against the image of a book of its settings, in either order, and two images of a threshold that no book is opened with;
/// other neighbours' prices, and a refused setting against a refused report.
#[test]
fn case_of_images() {
    let image = Opening {
        threshold: 95_000,
        ..OPENING
    };
    let [one, other] =
        [(0, Call::Threshold(95_000)), (70_000, Call::Report(2, 0))].map(|(price, refused)| {
            [
                plain(0, [price, 50_000]),
                refused,
                plain(1, [price, 45_000]),
                plain(2, [price, 50_001]),
            ]
        });
    // 95,000 exceeds 90,000, and does not exceed itself.
    let expected = |mark| {
        [
            (50_000, 1, 0),
            (50_000, 1, 0),
            (95_000, 2, mark),
            (95_001, 2, 1),
        ]
    };
    for loaded in [[false, true], [true, false]] {
        let played = alike_from([OPENING; 2], loaded, [&one, &other], &expected(1));
        assert_eq!(numbers(&played[0]), [0, 44, 0, 0]);
        assert_eq!(numbers(&played[1]), [0, 21, 0, 0]);
    }
    alike_from([image; 2], [true; 2], [&one, &other], &expected(0));
}

/// Lists that do not tell region 1 the same: what it hears, and its energy's triples at the end.
fn apart(calls: [&[Call]; 2], heard: [&[Told]; 2], expected: [(i64, u32, u32); 2]) -> [Played; 2] {
    let (twins, played) = played([OPENING; 2], calls);
    assert_eq!(heard_by(&twins, &played), heard);
    assert!(!supposed(&twins, &played), "{}", described(&twins));
    for (played, expected) in played.iter().zip(expected) {
        assert_eq!(triples(played, 0).last(), Some(&expected));
    }
    played
}

/// "region 0 at 10,000,001 (the whole entry is refused by 16) against 10,000,000"
#[test]
fn not_8_a_neighbours_price_out_of_range() {
    let [one, other] = [10_000_001, 10_000_000].map(|price| [plain(0, [price, 50_000])]);
    let heard: [&[Told]; 2] = [&[Told::Nothing], &[Told::Prices(vec![50_000])]];
    let played = apart([&one, &other], heard, [(0, 0, 0), (50_000, 1, 0)]);
    assert_eq!(numbers(&played[0]), [16]);
}

/// "threshold 40,000 before the entry against after it"
#[test]
fn not_9_a_threshold_elsewhere() {
    let (threshold, entry) = (Call::Threshold(40_000), plain(0, [0, 50_000]));
    let one = [threshold.clone(), entry.clone()];
    let other = [entry, threshold];
    let (set, prices) = (Told::Threshold(40_000), Told::Prices(vec![50_000]));
    let heard: [&[Told]; 2] = [&[set.clone(), prices.clone()], &[prices, set]];
    apart([&one, &other], heard, [(50_000, 1, 1), (50_000, 1, 0)]);
}

/// "first position 4 against 3, region 1 at 100,000, −50,000": it hears the same, but the books are not opened alike.
#[test]
fn not_10_another_first_position() {
    let openings = [4, 3].map(|first| Opening { first, ..OPENING });
    let calls = [plain(0, [0, 100_000]), plain(1, [0, -50_000])];
    let (twins, played) = played(openings, [&calls, &calls]);
    let [one, other] = heard_by(&twins, &played);
    assert_eq!(one, other);
    assert!(!twins.opened_alike());
    assert_eq!(triples(&played[0], 0), [(100_000, 1, 1), (50_000, 2, 0)]);
    assert_eq!(triples(&played[1], 0), [(100_000, 1, 1), (50_000, 2, 1)]);
}

/// "region 1 unmarked against marked"
#[test]
fn not_11_marked_in_one_alone() {
    let one = [plain(0, [0, 50_000])];
    let other = [enter(marked(1, entry(&OPENING, 0, &[0, 50_000], 0)))];
    let heard: [&[Told]; 2] = [&[Told::Prices(vec![50_000])], &[Told::Suspended]];
    apart([&one, &other], heard, [(50_000, 1, 0), (0, 0, 0)]);
}
