//! Lists of calls through the crate `guxhamole`, call by call, against the independent ledger and the independent book.

use compare::cutting::shortest_calls;
use compare::hundreds::holding;
use compare::playing::{List, Playing, Start};
use compare::{books, rounds, say};
use generator::weeks::Weeks;
use generator::{calls, images, Random};
use guxhamole::raw;
use independent::image::Fields;
use independent::rules::MOST_ENTRIES;
use independent::{Answer, Call, Kind, Ledger, Opening};
use std::collections::BTreeMap;

/// What was met: each call's acceptances and refusals.
#[derive(Default)]
struct Met {
    lists: u64,
    answers: BTreeMap<(&'static str, u32), u64>,
}

fn kind(call: &Call) -> &'static str {
    match call {
        Call::Entry(..) => "entry",
        Call::Threshold(_) => "threshold",
        Call::Limits(..) => "limits",
        Call::Report(..) => "report",
        Call::Restart(..) => "restart",
    }
}

impl Met {
    fn note(&mut self, kind: &'static str, number: u32) {
        *self.answers.entry((kind, number)).or_default() += 1;
    }

    /// Starts a list, unless the start is refused.
    fn start(&mut self, start: Start, cached: bool) -> Option<Playing> {
        self.lists += 1;
        let kind = match start {
            Start::Opening(..) => "opening",
            Start::Image(..) => "load",
        };
        let playing = Playing::start(start, cached);
        self.note(
            kind,
            playing
                .as_ref()
                .map_or_else(|refusal| refusal.number, |_| 0),
        );
        playing.ok()
    }

    fn call(&mut self, playing: &mut Playing, call: Call) -> Answer {
        let kind = kind(&call);
        let answer = playing.call(call);
        self.note(kind, answer.number);
        answer
    }

    /// So many generated calls, then every report and the image.
    fn calls(&mut self, random: &mut Random, mut playing: Playing, length: usize) {
        for _ in 0..length {
            let call = calls::call(random, &playing.ledger);
            self.call(&mut playing, call);
        }
        playing.finish();
    }

    fn all(&self) -> u64 {
        self.answers.values().sum()
    }

    fn say(&self, name: &str) {
        let (lists, all, answers) = (self.lists, self.all(), &self.answers);
        say(&format!(
            "typed, {name}: {lists} lists, {all} calls, answers {answers:?}"
        ));
    }

    fn at_least(&self, kind: &'static str, numbers: &[u32], times: u64) {
        for &number in numbers {
            let met = self.answers.get(&(kind, number)).copied().unwrap_or(0);
            assert!(met >= times, "{kind} answered {number}: met {met} times");
        }
    }
}

/// Every answer that a list can meet.
#[test]
fn generated_lists() {
    let mut met = Met::default();
    for round in 0..rounds() {
        let mut random = Random::new(0x20_0000 + round);
        for turn in 0..11_000 {
            let start = match turn % 10 {
                0 => Start::image(images::composed(&mut random)),
                1 | 2 => Start::image(images::blank(&mut random)),
                _ => Start::any_opening(&mut random),
            };
            let length = random.below(if turn % 10 == 5 { 100 } else { 40 });
            if let Some(playing) = met.start(start, false) {
                met.calls(&mut random, playing, length);
            }
        }
    }
    met.say("generated");
    assert!(met.all() >= 200_000);
    met.at_least("opening", &[0, 11, 18, 19, 20, 44], 100);
    met.at_least("entry", &[0, 11, 13, 14, 15, 16, 17], 300);
    met.at_least("threshold", &[0, 18, 44], 300);
    met.at_least("limits", &[0, 19], 300);
    met.at_least("report", &[0, 21], 300);
    met.at_least("restart", &[0, 11, 23, 47], 300);
    for number in [10, 22] {
        assert!(
            met.answers.keys().all(|(_, met)| *met != number),
            "{number} met"
        );
    }
}

/// Loads of valid and damaged images into rings of right and wrong lengths.
#[test]
fn loads() {
    let mut met = Met::default();
    let mut random = Random::new(0x21_0000);
    for _ in 0..6_000 {
        let valid = images::composed(&mut random);
        let ring = Fields::read(&valid).shape().ring();
        for _ in 0..4 {
            let image = match random.below(4) {
                0 => valid.clone(),
                _ => images::damaged(&mut random, &valid),
            };
            let ring = match random.below(4) {
                0 => random.pick(&[0, ring + 1, ring - 1]),
                _ => ring,
            };
            met.start(Start::Image(image, ring), false);
        }
    }
    met.say("loads");
    met.at_least("load", &[0, 11, 16, 24, 25, 26, 27], 200);
}

/// "12, 10,000,000 entries taken": books that have taken nearly as many, from images that say so.
#[test]
fn books_at_the_bound() {
    let mut met = Met::default();
    let mut last_taken = 0;
    let mut random = Random::new(0x22_0000);
    for turn in 0..1_500 {
        let mut fields = Fields::read(&images::composed(&mut random));
        fields.entries = MOST_ENTRIES - 1 - turn % 3;
        let Some(mut playing) = met.start(Start::image(fields.bytes()), false) else {
            continue;
        };
        for _ in 0..12 {
            let call = match random.chance(60) {
                true => calls::any_entry(&mut random, &playing.ledger),
                false => calls::call(&mut random, &playing.ledger),
            };
            let is_entry = matches!(call, Call::Entry(..));
            let last = playing.ledger.entries_taken() == MOST_ENTRIES - 1;
            let answer = met.call(&mut playing, call);
            last_taken += u64::from(is_entry && last && answer.number == 0);
        }
        playing.finish();
    }
    met.say("books at the bound");
    assert!(
        last_taken >= 1_000,
        "entry 9,999,999 taken {last_taken} times"
    );
    met.at_least("entry", &[12], 2_000);
    met.at_least("entry", &[11], 200);
    met.at_least("restart", &[0], 200);
}

/// The next valid entry of a list, with a table of its length.
fn next_entry(random: &mut Random, ledger: &Ledger) -> Call {
    let table = vec![0; ledger.shape().prices()];
    Call::Entry(calls::entry(random, ledger), ledger.shape().ring(), table)
}

/// A restart that is accepted, by either kind in turn; a book with the additional link restarts by kind 2 alone.
fn restart(ledger: &Ledger) -> Call {
    let (shape, ring) = (ledger.shape(), ledger.shape().ring());
    let kind = match ledger.entries_taken().is_multiple_of(2) {
        true => Kind::holding(shape),
        false => Kind::Two,
    };
    Call::Restart(kind, kind.head() + 4 * ring, ring)
}

/// Restarts after each of 0 to 3 × W + 2 entries, once and twice in a row, windows of 1 to 6, without an additional link and with it.
#[test]
fn restarts_at_every_phase() {
    let mut met = Met::default();
    let mut random = Random::new(0x23_0000);
    for window in 1..=6 {
        let none = (255, 255);
        for (services, times, (from, to)) in [
            (0, 1, none),
            (1, 2, none),
            (2, 1, none),
            (0, 1, (1, 2)),
            (1, 2, (2, 1)),
        ] {
            let opening = Opening {
                parents: books::parents(&[255, 0, 0]),
                from,
                to,
                ..books::opening(3, services, window, 1)
            };
            for phase in 0..3 * window + 3 {
                let start = Start::Opening(opening, calls::ring_length(&opening));
                let mut playing = met.start(start, false).expect("a valid opening");
                for turn in 0..4 * window + 4 {
                    for _ in 0..if turn == phase { times } else { 0 } {
                        let call = restart(&playing.ledger);
                        met.call(&mut playing, call);
                    }
                    let call = next_entry(&mut random, &playing.ledger);
                    met.call(&mut playing, call);
                }
                playing.finish();
            }
        }
    }
    met.say("restarts");
    met.at_least("restart", &[0], 300);
}

/// "The real market has R 5, S 10, W 2,016, H 48", its regions linked.
fn real_market() -> Opening {
    Opening {
        first: 280,
        parents: books::parents(&[255, 0, 0, 2, 2]),
        threshold: 182_360_000,
        ..books::opening(5, 10, 2_016, 48)
    }
}

/// How the markets' periods change over weeks, and how near their sums come to the threshold.
#[derive(Debug, Default)]
struct Turning {
    begun: u64,
    ended: u64,
    at_threshold: u64,
    one_above: u64,
    marked: u64,
    turned: u64,
}

impl Turning {
    fn entry(&mut self, was: &raw::Book, is: &raw::Book) {
        for place in 0..88 {
            let (before, now) = (was.marks[place], is.marks[place]);
            self.begun += u64::from(before < now);
            self.ended += u64::from(before > now);
            self.at_threshold += u64::from(is.sums[place] == is.threshold);
            self.one_above += u64::from(is.sums[place] == is.threshold + 1);
        }
        for region in 0..usize::from(is.regions) {
            self.marked += u64::from(was.nexts[region] == is.nexts[region] && is.window > 1);
            self.turned += u64::from(was.nexts[region] > is.nexts[region]);
        }
    }
}

/// What comes between the entries of some weeks: restarts at every so many of them, every so often all reports and another threshold.
fn between_entries(random: &mut Random, ledger: &Ledger, turn: u32, restarts: u32) -> Vec<Call> {
    let mut between = Vec::new();
    if restarts > 0 && turn.is_multiple_of(restarts) {
        between.push(restart(ledger));
    }
    if turn.is_multiple_of(101) {
        let shape = *ledger.shape();
        let market = |place: usize| (place / shape.markets(), place % shape.markets());
        let places = (0..shape.prices()).map(market);
        between.extend(places.map(|(region, market)| Call::Report(region as u32, market as u32)));
    }
    if turn % 500 == 499 {
        let dearer = 10_000 * random.between(15_000, 20_000);
        between.push(Call::Threshold(dearer));
    }
    between
}

/// So many weekly entries over an opening, with restarts after every so many of them.
fn play_weeks(met: &mut Met, opening: &Opening, stretches: &[(u32, u32)]) -> Turning {
    let mut random = Random::new(0x24_0000);
    let start = Start::Opening(*opening, calls::ring_length(opening));
    let mut playing = met.start(start, true).expect("a valid opening");
    let mut weeks = Weeks::new(&mut random, &playing.ledger);
    let mut turning = Turning::default();
    for &(entries, restarts) in stretches {
        for turn in 1..=entries {
            let shape = *playing.ledger.shape();
            let entry = weeks.entry(&mut random, &playing.ledger);
            let before = *playing.pair.kept().0;
            let call = Call::Entry(entry, shape.ring(), vec![0; shape.prices()]);
            assert_eq!(met.call(&mut playing, call).number, 0);
            turning.entry(&before, playing.pair.kept().0);
            for call in between_entries(&mut random, &playing.ledger, turn, restarts) {
                met.call(&mut playing, call);
            }
        }
    }
    playing.finish();
    turning
}

/// Windows of 2,016 that turn round, of the real market: without a restart while they fill and turn round, then with restarts
/// in the middle.
#[test]
fn real_market_turns_round() {
    let mut met = Met::default();
    let stretches = [(1_000, 0), (1, 1), (4_600, 0), (1_400, 67)];
    let turning = play_weeks(&mut met, &real_market(), &stretches);
    met.say("real market");
    say(&format!("typed, real market: {turning:?}"));
    met.at_least("entry", &[0], 7_000);
    met.at_least("restart", &[0], 20);
    assert!(turning.begun >= 100 && turning.ended >= 100 && turning.marked >= 500);
    assert!(turning.at_threshold >= 20 && turning.one_above >= 20);
    // Each of the five windows came round twice before a restart.
    assert!(turning.turned >= 10);
}

/// The largest book's windows, and the smallest book's of the same width.
#[test]
fn widest_windows_turn_round() {
    let parents = [255, 0, 0, 1, 3, 4, 5, 6];
    let largest = Opening {
        regions: 8,
        parents,
        ..real_market()
    };
    let smallest = Opening {
        regions: 1,
        services: 0,
        parents: [255; 8],
        ..real_market()
    };
    for (opening, stretches) in [
        (largest, [(2_300, 0), (200, 50)]),
        (smallest, [(9_000, 0), (2_000, 9)]),
    ] {
        let mut met = Met::default();
        let turning = play_weeks(&mut met, &opening, &stretches);
        let Opening { regions, .. } = opening;
        met.say(&format!("widest windows, R {regions}"));
        say(&format!("typed, widest windows, R {regions}: {turning:?}"));
        assert!(turning.begun >= 5 && turning.turned >= 4);
    }
}

/// A restart of a copy after each of 0 to 2 × 2,016 + 2 entries, whose next entry and image are those of the book that goes on.
#[test]
fn restarts_at_every_phase_of_a_week() {
    let mut met = Met::default();
    let mut random = Random::new(0x25_0000);
    let opening = Opening {
        regions: 2,
        services: 0,
        parents: books::parents(&[255, 0]),
        ..real_market()
    };
    let start = Start::Opening(opening, calls::ring_length(&opening));
    let mut playing = met.start(start, true).expect("a valid opening");
    let mut weeks = Weeks::new(&mut random, &playing.ledger);
    for _ in 0..2 * 2_016 + 3 {
        let mut copy = playing.pair.clone();
        let restarted = copy.call(&restart(&playing.ledger));
        assert_eq!(restarted.map(|answer| answer.number), Ok(0));
        let entry = weeks.entry(&mut random, &playing.ledger);
        let call = Call::Entry(entry, playing.ledger.shape().ring(), vec![0; 2]);
        let answer = met.call(&mut playing, call.clone());
        assert_eq!(copy.call(&call), Ok(answer));
        assert!(copy.image() == playing.ledger.image());
    }
    playing.finish();
    met.say("restarts, week");
}

/// What a book answers to a list that tests "at least" for "exceeds": every threshold is lower by one, which images alone can hold.
fn answers_at_least(list: &List) -> Vec<Answer> {
    let mut ledger = list.start.ledger().expect("a valid start");
    let lower = |ledger: &Ledger| holding(ledger, 1.max(ledger.settings().threshold - 1));
    ledger = lower(&ledger);
    let answer = |call: &Call| {
        let answer = ledger.call(call);
        if matches!(call, Call::Threshold(_)) && answer.number == 0 {
            ledger = lower(&ledger);
        }
        answer
    };
    list.calls.iter().map(answer).collect()
}

/// The answers of the ledger alone.
fn answers(list: &List) -> Vec<Answer> {
    let mut ledger = list.start.ledger().expect("a valid start");
    list.calls.iter().map(|call| ledger.call(call)).collect()
}

/// The comparison can fail: "Errors the trade makes: testing 'at least' for 'exceeds'" is noticed, and cutting finds a
/// short list.
#[test]
fn a_wrong_book_is_noticed() {
    let differs = |list: &List| answers(list) != answers_at_least(list);
    let mut random = Random::new(0x26_0000);
    let mut noticed = 0;
    for turn in 0..300 {
        let opening = calls::opening(&mut random);
        let start = match turn % 2 {
            0 => Start::Opening(opening, calls::ring_length(&opening)),
            _ => Start::image(images::blank(&mut random)),
        };
        let ledger = start.ledger().expect("a valid start");
        let (calls, _) = calls::list(&mut random, &ledger, 20);
        let cached = false;
        let list = List {
            start,
            cached,
            calls,
        };
        if differs(&list) {
            let short = shortest_calls(&list, differs).calls.len();
            assert!(short <= 12, "{short} calls are left");
            noticed += 1;
        }
    }
    say(&format!("typed, a wrong one: noticed in {noticed} of 300"));
    assert!(noticed >= 10);
}
