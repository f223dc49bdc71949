//! Thresholds in whole hundreds of dollars (request 2026-06 of document 02): cases worked by hand, lists that begin with an image of a
//! book without entries, through the archive, the independent book and the ledger, and wrong machines, each of which they tell apart.

use compare::books::{self, plain, reported, take_plain};
use compare::hundreds::{answers, Rule, WRONG};
use compare::playing::{Playing, Start};
use compare::typed::{paper, Pair};
use compare::{rounds, say};
use generator::{calls, images, Random};
use guxhamole::{raw, Book};
use independent::image::{self, Fields, HEAD};
use independent::rules::{in_hundreds, threshold_allowed};
use independent::{Answer, Call, Kind, Ledger, Opening, Values};
use std::collections::BTreeMap;

/// Thresholds, and what an opening and a setting answer.
const CASES: [(u32, &[i64]); 3] = [
    (
        18,
        &[
            i64::MIN,
            -10_000,
            -1,
            0,
            100_000_000_001,
            100_000_010_000,
            i64::MAX,
        ],
    ),
    (
        44,
        &[1, 5_000, 9_999, 10_001, 11_000, 95_000, 99_999_999_999],
    ),
    (
        0,
        &[
            10_000,
            100_000,
            139_810_000,
            99_999_990_000,
            100_000_000_000,
        ],
    ),
];

/// The cases, one by one.
fn cases() -> impl Iterator<Item = (i64, u32)> {
    let row = |(number, thresholds): (u32, &'static [i64])| {
        thresholds.iter().map(move |&threshold| (threshold, number))
    };
    CASES.into_iter().flat_map(row)
}

/// What an opening answers: the archive and the independent book, which hand back a closed book and the ring as it was where they refuse
/// it, and the ledger.
fn opened(opening: &Opening, ring: usize) -> u32 {
    let pair = Pair::open(opening, ring).unwrap_or_else(|what| panic!("{opening:?}: {what}"));
    let number = pair.map_or_else(|refusal| refusal.number, |_| 0);
    let ledger = Ledger::open(opening, ring).map_or_else(|refusal| refusal.number, |_| 0);
    assert_eq!(number, ledger, "the ledger: {opening:?}");
    number
}

/// The smallest book's settings, with a threshold.
fn smallest(threshold: i64) -> Opening {
    Opening {
        threshold,
        ..books::opening(1, 0, 1, 1)
    }
}

#[test]
fn openings() {
    for (threshold, number) in cases() {
        assert_eq!(opened(&smallest(threshold), 1), number, "{threshold}");
    }
}

/// A setting changes the threshold where it is accepted, and nothing where it is refused; over an opened book, and over one whose image
/// holds a threshold that cannot be set.
#[test]
fn settings() {
    let starts = [
        Start::Opening(smallest(90_000), 1),
        Start::blank(&smallest(95_000)),
    ];
    for (start, before) in starts.into_iter().zip([90_000, 95_000]) {
        for (threshold, number) in cases() {
            let mut playing = Playing::start(start.clone(), false).expect("a valid start");
            assert_eq!(playing.call(Call::Threshold(threshold)).number, number);
            let expected = if number == 0 { threshold } else { before };
            assert_eq!(playing.pair.kept().0.threshold, expected, "{threshold}");
            assert_eq!(playing.ledger.settings().threshold, expected);
        }
    }
}

/// "Open: 20 a setting; 11 ring length; 18 threshold; 19 cap or floor", 44 "directly after 18".
#[test]
fn order_of_an_opening() {
    let no_cap = |threshold| Opening {
        cap: 0,
        ..smallest(threshold)
    };
    let late = Opening {
        first: 6,
        ..smallest(95_000)
    };
    assert_eq!(opened(&no_cap(95_000), 1), 44);
    assert_eq!(opened(&no_cap(0), 1), 18);
    assert_eq!(opened(&no_cap(90_000), 1), 19);
    assert_eq!(opened(&smallest(95_000), 2), 11);
    assert_eq!(opened(&late, 1), 20);
}

/// Every set of an opening's refusals at once, the threshold's by each of the cases.
#[test]
fn every_set_of_refusals() {
    let limits = [(60_000, -60_000, 0), (0, -60_000, 19), (60_000, 0, 19)];
    let places = [(0, 1, 0), (0, 0, 11), (0, 2, 11), (6, 1, 20), (6, 2, 20)];
    let sets = limits.map(|limits| places.map(|place| (limits, place)));
    for (threshold, number) in cases() {
        for ((cap, floor, after), (first, ring, before)) in sets.into_iter().flatten() {
            let opening = Opening {
                first,
                cap,
                floor,
                ..smallest(threshold)
            };
            let held = [before, number, after].into_iter().find(|held| *held != 0);
            let expected = held.unwrap_or(0);
            assert_eq!(opened(&opening, ring), expected, "{opening:?}, ring {ring}");
        }
    }
}

/// The smallest book, as its image at 95,000 loads.
fn loaded() -> raw::Book {
    let playing = Playing::start(Start::blank(&smallest(95_000)), false).expect("a valid image");
    *playing.pair.kept().0
}

/// 10 comes before 18 and 44: of a closed book, and of one with a field outside its limits.
#[test]
fn a_book_first() {
    let unsound = raw::Book { cap: 0, ..loaded() };
    for book in [raw::Book::CLOSED, unsound] {
        for (threshold, _) in cases() {
            let answer = Pair::of(book, &[0]).call(&Call::Threshold(threshold));
            assert_eq!(answer.map(|answer| answer.number), Ok(10), "{threshold}");
        }
    }
}

/// Rule 10 asks for no multiple: every call on a book of a threshold within range is answered as ever.
#[test]
fn no_part_of_rule_10() {
    for (threshold, number) in cases() {
        let book = raw::Book {
            threshold,
            ..loaded()
        };
        assert_eq!(paper(&book).fault().is_some(), number == 18, "{threshold}");
        let expected = if number == 18 { 10 } else { 0 };
        let entry = plain(&books::open(&smallest(10_000)), &[5]);
        for call in [
            Call::Report(0, 0),
            Call::Restart(Kind::One, 148, 1),
            Call::Limits(1, -1),
            Call::Threshold(10_000),
            Call::Entry(entry, 1, vec![0]),
        ] {
            let answer = Pair::of(book, &[0]).call(&call);
            assert_eq!(
                answer.map(|answer| answer.number),
                Ok(expected),
                "{threshold}: {call:?}"
            );
        }
    }
}

/// The image of "R 1, S 0, W 1, H 1, first position 0, threshold 95,000, limits ±60,000", nothing entered, byte by byte.
fn worked_image() -> Vec<u8> {
    let head: [&[u8]; 8] = [
        &[0x94, 0, 0, 0, 1, 0],
        &[1, 0, 1, 0, 1, 0],
        &[0xff; 8],
        &[0; 4],
        &[0; 4],
        &[0x18, 0x73, 1, 0, 0, 0, 0, 0],
        &[0x60, 0xea, 0, 0],
        &[0xa0, 0x15, 0xff, 0xff],
    ];
    [&head.concat()[..], &[0; 104]].concat()
}

#[test]
fn worked_run() {
    let image = worked_image();
    assert_eq!(image, Fields::blank(&smallest(95_000)).bytes());
    assert_eq!((image.len(), guxhamole::check(&image)), (HEAD, Ok(())));
    let mut playing = Playing::start(Start::Image(image, 1), false).expect("a valid image");
    assert_eq!(take_plain(&mut playing, &[95_000]), (vec![95_000], 0));
    assert_eq!(reported(&mut playing, 0, 0), (95_000, 1, 0, 1));
    assert_eq!(playing.call(Call::Threshold(95_000)).number, 44);
    assert_eq!(take_plain(&mut playing, &[95_001]), (vec![95_001], 0));
    assert_eq!(reported(&mut playing, 0, 0), (95_001, 1, 1, 2));
    assert_eq!(playing.call(Call::Restart(Kind::One, 152, 1)).number, 0);
    assert_eq!(playing.pair.image()[28..36], 95_000i64.to_le_bytes());
    assert_eq!(playing.call(Call::Threshold(100_000)).number, 0);
    for (number, mark) in [(3, 1), (4, 1), (5, 1), (6, 0)] {
        assert_eq!(take_plain(&mut playing, &[95_001]), (vec![60_000], 1));
        assert_eq!(reported(&mut playing, 0, 0), (95_001, 1, mark, number));
    }
    playing.finish();
}

/// "that threshold stays until the next setting": through entries, reports, restarts, limits and refused settings.
#[test]
fn a_threshold_stays() {
    let mut playing =
        Playing::start(Start::blank(&smallest(95_000)), false).expect("a valid image");
    for turn in 0..12 {
        take_plain(&mut playing, &[90_000 + turn]);
        reported(&mut playing, 0, 0);
        for (call, number) in [
            (Call::Restart(Kind::One, 152, 1), 0),
            (Call::Limits(50_000 + turn, -50_000), 0),
            (Call::Threshold(95_000 + i64::from(turn)), 44),
            (Call::Threshold(0), 18),
        ] {
            assert_eq!(playing.call(call).number, number);
            assert_eq!(playing.pair.image()[28..36], 95_000i64.to_le_bytes());
        }
    }
    assert_eq!(playing.call(Call::Threshold(80_000)).number, 0);
    assert_eq!(playing.pair.image()[28..36], 80_000i64.to_le_bytes());
}

/// An image of any threshold within range checks, loads and is stored to the same bytes; another one is refused by 26.
#[test]
fn images_of_any_threshold() {
    let mut random = Random::new(0x80_0000);
    let thresholds = cases().map(|(threshold, _)| threshold);
    let drawn: Vec<i64> = (0..2_000)
        .map(|_| calls::held_threshold(&mut random, 10_000_000))
        .collect();
    for threshold in thresholds.chain(drawn) {
        let mut fields = Fields::read(&images::composed(&mut random));
        fields.threshold = threshold;
        let bytes = fields.bytes();
        let allowed = threshold_allowed(threshold.into());
        let expected = if allowed { 0 } else { 26 };
        let checked = guxhamole::check(&bytes).map_or_else(|refusal| refusal.number(), |()| 0);
        assert_eq!(
            (checked, image::check(&bytes)),
            (expected, expected),
            "{threshold}"
        );
        match Playing::start(Start::image(bytes.clone()), false) {
            Ok(playing) => assert_eq!(playing.finish().image(), bytes, "{threshold}"),
            Err(refusal) => assert_eq!(refusal.number, 26, "{threshold}"),
        }
        let mut ring = vec![0; fields.shape().ring()];
        assert_eq!(Book::load(&bytes, &mut ring).is_ok(), allowed);
    }
}

/// "an image of a book without entries and with no period marked": a ledger begins with such a one, from its settings, and goes on from
/// it as it does from any image; with another one no list begins.
#[test]
fn images_to_begin_with() {
    let mut random = Random::new(0x81_0000);
    let (mut begun, mut other) = (0, 0);
    for turn in 0..3_000 {
        let settings = images::settings(&mut random);
        let mut fields = Fields::blank(&settings);
        assert_eq!(fields.settings(), Some(settings));
        let ring = calls::ring_length(&settings);
        match turn % 4 {
            0 => fields.entries = random.pick(&[1, 2, 10_000_000]),
            1 => {
                let region = random.below(settings.regions as usize);
                let market = random.below(settings.services as usize + 1);
                fields.periods[11 * region + market] = 1;
            }
            _ => {}
        }
        let bytes = fields.bytes();
        let blank = fields.entries == 0 && fields.periods == [0; 88];
        let ledger = Ledger::begin(&bytes, ring).expect("a valid image");
        let loaded = Ledger::load(&bytes, ring).expect("a valid image");
        assert_eq!(ledger, blank.then_some(loaded), "{fields:?}");
        if in_hundreds(settings.threshold) && blank {
            assert_eq!(ledger, Some(books::open(&settings)));
        }
        *[&mut other, &mut begun][usize::from(blank)] += 1;
        let playing = Playing::start(Start::image(bytes.clone()), false).expect("a valid image");
        assert_eq!(playing.finish().image(), bytes);
        let wrong = Ledger::begin(&bytes, ring + 1).map_err(|refusal| refusal.number);
        assert_eq!(wrong, Err(11));
    }
    assert_eq!((begun, other), (1_500, 1_500));
}

/// What was met: the answers of starts and settings by whether the list began with an image, and in how many lists, and how many of their
/// answers, wrong machines differ.
#[derive(Default)]
struct Met {
    lists: u64,
    calls: u64,
    held: u64,
    answers: BTreeMap<(&'static str, u32), u64>,
    wrong: BTreeMap<&'static str, (u64, u64)>,
}

impl Met {
    fn note(&mut self, kind: &'static str, number: u32) {
        *self.answers.entry((kind, number)).or_default() += 1;
    }

    /// A list of so many generated calls, by the archive, the independent book, the ledger and the machines.
    fn list(&mut self, random: &mut Random, start: Start, length: usize) {
        self.lists += 1;
        let (by, kind) = match start {
            Start::Opening(..) => ("opening", "setting, opened"),
            Start::Image(..) => ("image", "setting, from an image"),
        };
        let (mut calls, mut answers) = (Vec::new(), Vec::new());
        let begun = match Playing::start(start.clone(), false) {
            Ok(mut playing) => {
                for _ in 0..length {
                    let call = calls::call(random, &playing.ledger);
                    let answer = playing.call(call.clone());
                    if let Call::Threshold(_) = call {
                        self.note(kind, answer.number);
                    }
                    let odd = !in_hundreds(playing.ledger.settings().threshold);
                    self.held += u64::from(odd && answer.number == 0);
                    calls.push(call);
                    answers.push(answer);
                }
                playing.finish();
                0
            }
            Err(refusal) => refusal.number,
        };
        self.note(by, begun);
        self.calls += calls.len() as u64;
        self.machines(&start, &calls, &(begun, answers));
    }

    /// The right machine answers as the book does; the wrong ones often do not.
    fn machines(&mut self, start: &Start, calls: &[Call], told: &(u32, Vec<Answer>)) {
        assert_eq!(
            &answers(Rule::Right, start, calls),
            told,
            "{start:?}, {calls:?}"
        );
        for (name, rule) in WRONG {
            let (begun, wrong) = answers(rule, start, calls);
            let missing = wrong.len().abs_diff(told.1.len()) + usize::from(begun != told.0);
            let differing = wrong
                .iter()
                .zip(&told.1)
                .filter(|(one, other)| one != other);
            let places = (missing + differing.count()) as u64;
            let (lists, all) = self.wrong.entry(name).or_default();
            *lists += u64::from(places > 0);
            *all += places;
        }
    }

    fn at_least(&self, kind: &'static str, numbers: &[u32], times: u64) {
        for &number in numbers {
            let met = self.answers.get(&(kind, number)).copied().unwrap_or(0);
            assert!(met >= times, "{kind} answered {number}: met {met} times");
        }
    }

    fn say(&self) {
        let Met {
            lists,
            calls,
            held,
            answers,
            wrong,
        } = self;
        say(&format!(
            "hundreds: {lists} lists, {calls} calls, {held} accepted at a threshold that is no multiple, answers {answers:?}"
        ));
        say(&format!(
            "hundreds: lists, and answers, in which a wrong machine differs {wrong:?}"
        ));
    }
}

/// An opening whose threshold and limits are mostly wrong, and often its first position or its ring too.
fn wrong_opening(random: &mut Random) -> Start {
    let mut opening = calls::damaged_settings(random);
    let ring = calls::ring_length(&opening);
    if random.chance(15) {
        opening.first = 6 * opening.halves;
    }
    Start::Opening(opening, ring + usize::from(random.chance(15)))
}

/// Lists that begin with openings, and with images of books without entries, of any threshold; every wrong machine is told apart.
#[test]
fn generated_lists() {
    let mut met = Met::default();
    for round in 0..rounds() {
        let mut random = Random::new(0x82_0000 + round);
        for turn in 0..4_000 {
            let start = match turn % 4 {
                0 | 1 => Start::image(images::blank(&mut random)),
                2 => Start::any_opening(&mut random),
                _ => wrong_opening(&mut random),
            };
            let length = random.below(30);
            met.list(&mut random, start, length);
        }
    }
    met.say();
    assert!(met.calls >= 40_000 && met.held >= 5_000);
    met.at_least("opening", &[0, 11, 18, 19, 20, 44], 100);
    met.at_least("image", &[0], 2_000);
    met.at_least("setting, opened", &[0, 18, 44], 100);
    met.at_least("setting, from an image", &[0, 18, 44], 200);
    for (name, _) in WRONG {
        let (lists, _) = met.wrong[name];
        assert!(lists >= 50, "{name}: told apart in {lists} lists");
    }
}

/// A refused setting that sets shows in what is published too, not in the settings' answers alone.
#[test]
fn a_refused_setting_shows() {
    let start = Start::blank(&smallest(95_000));
    let ledger = books::begin(&smallest(95_000));
    let mut second = plain(&ledger, &[100_000]);
    second.number = 1;
    let calls = [
        Call::Threshold(105_000),
        Call::Entry(plain(&ledger, &[100_000]), 1, vec![0]),
        Call::Entry(second, 1, vec![0]),
    ];
    let published = |rule| -> Vec<(u32, Values)> {
        let (begun, answers) = answers(rule, &start, &calls);
        assert_eq!(begun, 0);
        answers
            .into_iter()
            .map(|answer| (answer.number, answer.values))
            .collect()
    };
    let entry = |count, price| (0, Values::Entry(count, vec![price]));
    let refused = (44, Values::Nothing);
    let right = [refused.clone(), entry(0, 100_000), entry(1, 60_000)];
    let wrong = [refused, entry(0, 100_000), entry(0, 100_000)];
    assert_eq!(published(Rule::Right), right);
    assert_eq!(published(Rule::RefusedSets), wrong);
    let mut playing = Playing::start(start, false).expect("a valid image");
    let told: Vec<(u32, Values)> = calls
        .iter()
        .map(|call| playing.call(call.clone()))
        .map(|answer| (answer.number, answer.values))
        .collect();
    assert_eq!(told, right);
}
