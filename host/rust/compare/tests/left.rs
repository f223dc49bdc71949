//! Questions for the intervals left (request 2026-02 of document 02): the compiled function against the independent ledger and
//! book, after the entries of lists of calls, and on books and rings that no list leads to.

use compare::left::{ask, ask_playing, counted, sums_entered};
use compare::playing::{Playing, Start};
use compare::typed::paper;
use compare::{books, intervals, rounds, say};
use generator::questions::{self, Question};
use generator::weeks::Weeks;
use generator::{calls, images, Random};
use guxhamole::raw;
use independent::image::Fields;
use independent::ledger::Entry;
use independent::rules::MOST_ENTRIES;
use independent::{Call, Kind, Ledger, Opening, Refusal};
use std::collections::{BTreeMap, BTreeSet};

/// What was met: the kinds of answers, and how often a wrong function would have answered something else.
#[derive(Default)]
struct Met {
    kinds: BTreeMap<&'static str, u64>,
    wrong: BTreeMap<&'static str, u64>,
}

/// An answer's kind; 1 is 1, in a window of one price too.
fn kind(answer: &Result<u32, Refusal>, window: u16) -> &'static str {
    match answer {
        Ok(0) => "none",
        Ok(1) => "1",
        Ok(left) if *left == u32::from(window) => "W",
        Ok(_) => "between",
        Err(refusal) => match refusal.number {
            10 => "refused 10",
            11 => "refused 11",
            21 => "refused 21",
            22 => "refused 22",
            43 => "refused 43",
            number => panic!("refused {number}"),
        },
    }
}

impl Met {
    fn note(&mut self, answer: &Result<u32, Refusal>, window: u16) {
        *self.kinds.entry(kind(answer, window)).or_default() += 1;
    }

    /// One question of a list's book.
    fn ask(&mut self, playing: &Playing, question: &Question) -> Result<u32, Refusal> {
        let answer = ask_playing(playing, question);
        let window = playing.pair.kept().0.window;
        self.note(&answer, window);
        if let (Ok(left), 0..=NARROW) = (answer, u32::from(window)) {
            let case = Case::of(playing, question);
            assert_eq!(case.first(&case.own_sums()), left);
            for (name, wrong) in WRONG {
                *self.wrong.entry(name).or_default() += u64::from(wrong(&case) != left);
            }
        }
        answer
    }

    /// One question of any book and ring.
    fn ask_any(
        &mut self,
        book: &raw::Book,
        ring: &[i32],
        question: &Question,
    ) -> Result<u32, Refusal> {
        let answer = ask(book, ring, question);
        self.note(&answer, book.window);
        answer
    }

    /// Some questions, and now and then one whose sum meets a threshold, of the book that an image with that threshold leads to.
    fn ask_some(&mut self, random: &mut Random, playing: &Playing, times: usize) {
        for _ in 0..times {
            let question = questions::question(random, &playing.ledger);
            self.ask(playing, &question).ok();
        }
        if random.chance(30) {
            if let Some((threshold, question)) = questions::met(random, &playing.ledger) {
                self.ask(&playing.holding(threshold), &question).ok();
            }
        }
    }

    fn all(&self) -> u64 {
        self.kinds.values().sum()
    }

    fn say(&self, name: &str) {
        let (all, kinds) = (self.all(), &self.kinds);
        say(&format!(
            "intervals left, {name}: {all} questions, {kinds:?}"
        ));
        if !self.wrong.is_empty() {
            let wrong = &self.wrong;
            say(&format!("intervals left, {name}: told apart: {wrong:?}"));
        }
    }

    fn at_least(&self, kinds: &[&str], times: u64) {
        for &kind in kinds {
            let met = self.kinds.get(kind).copied().unwrap_or(0);
            assert!(met >= times, "{kind}: met {met} times");
        }
    }
}

/// The widest window whose questions are put to the wrong functions too, and to a ledger without a cache.
const NARROW: u32 = 40;

/// What an accepted question turns about.
struct Case {
    window: usize,
    /// Oldest first, and as they stand in the ring.
    counted: Vec<i32>,
    placed: Vec<i32>,
    price: i32,
    threshold: i64,
}

impl Case {
    fn of(playing: &Playing, question: &Question) -> Case {
        let shape = playing.ledger.shape();
        let counted = counted(&playing.ledger, question);
        let place = shape.place(question.region as usize, question.market as usize);
        let start = place * shape.window;
        Case {
            window: shape.window,
            placed: playing.pair.kept().1[start..start + counted.len()].to_vec(),
            counted,
            price: question.price,
            threshold: playing.ledger.settings().threshold,
        }
    }

    /// The sums after 1 to W intervals: each of the last `width` of the counted prices and the copies behind them.
    fn sums(&self, counted: &[i32], width: usize) -> Vec<i64> {
        let copies = std::iter::repeat_n(&self.price, self.window);
        let prices: Vec<i64> = counted.iter().chain(copies).map(|&p| p.into()).collect();
        let ends = counted.len() + 1..=prices.len();
        ends.map(|end| prices[end.saturating_sub(width)..end].iter().sum())
            .collect()
    }

    /// The sums as they are.
    fn own_sums(&self) -> Vec<i64> {
        self.sums(&self.counted, self.window)
    }

    /// The number of the first of some sums that exceeds the threshold.
    fn first(&self, sums: &[i64]) -> u32 {
        numbered(sums.iter().position(|&sum| sum > self.threshold))
    }

    /// Where halving the numbers from 1 to W ends.
    fn bisected(&self) -> u32 {
        let sums = self.own_sums();
        let place = sums.partition_point(|&sum| sum <= self.threshold);
        numbered((place < self.window).then_some(place))
    }

    /// The sum before any further interval.
    fn sum_now(&self) -> i64 {
        self.counted.iter().map(|&price| i64::from(price)).sum()
    }
}

/// A place among the sums as an answer: from 1, or 0 for none.
fn numbered(place: Option<usize>) -> u32 {
    place.map_or(0, |place| place as u32 + 1)
}

/// A wrong function over a case.
type Wrong = fn(&Case) -> u32;

/// Functions that answer something else, by what is wrong with them.
const WRONG: [(&str, Wrong); 10] = [
    ("reaches", |case| {
        let reaches = |&sum: &i64| sum >= case.threshold;
        numbered(case.own_sums().iter().position(reaches))
    }),
    ("bisection", Case::bisected),
    ("ring's order", |case| {
        case.first(&case.sums(&case.placed, case.window))
    }),
    ("leaves early", |case| {
        case.first(&case.sums(&case.counted, case.window - 1))
    }),
    ("leaves late", |case| {
        case.first(&case.sums(&case.counted, case.window + 1))
    }),
    ("never leaves", |case| {
        case.first(&case.sums(&case.counted, usize::MAX))
    }),
    ("newest leaves", |case| {
        let newest_first: Vec<i32> = case.counted.iter().rev().copied().collect();
        case.first(&case.sums(&newest_first, case.window))
    }),
    ("now is an answer", |case| {
        if case.sum_now() > case.threshold {
            1
        } else {
            case.first(&case.own_sums())
        }
    }),
    ("below W alone", |case| {
        case.first(&case.own_sums()[..case.window - 1])
    }),
    ("the last", |case| {
        let exceeds = |&sum: &i64| sum > case.threshold;
        numbered(case.own_sums().iter().rposition(exceeds))
    }),
];

/// A valid opening, an image to begin with, or any that loads. A wide window takes a ledger with a cache.
fn any_list(random: &mut Random) -> Playing {
    let (start, window) = match random.below(20) {
        0..=2 => {
            let image = images::composed(random);
            let window = Fields::read(&image).window.into();
            (Start::image(image), window)
        }
        3..=6 => {
            let settings = images::settings(random);
            (Start::blank(&settings), settings.window)
        }
        _ => {
            let opening = calls::opening(random);
            let ring = calls::ring_length(&opening);
            (Start::Opening(opening, ring), opening.window)
        }
    };
    Playing::start(start, window > NARROW).expect("a valid start")
}

/// So many calls, and after each entry that is accepted some questions; of a wide window one now and then.
fn ask_after_entries(met: &mut Met, random: &mut Random, mut playing: Playing, length: usize) {
    let wide = playing.ledger.shape().window > NARROW as usize;
    for _ in 0..length {
        let call = calls::call(random, &playing.ledger);
        let is_entry = matches!(call, Call::Entry(..));
        let taken = playing.call(call).number == 0 && is_entry;
        if taken && !wide {
            met.ask_some(random, &playing, 3);
        } else if taken && random.chance(30) {
            met.ask_some(random, &playing, 1);
        }
    }
}

#[test]
fn generated_lists() {
    let mut met = Met::default();
    for round in 0..rounds() {
        let mut random = Random::new(0x50_0000 + round);
        for _ in 0..2_400 {
            let playing = any_list(&mut random);
            let length = random.below(50);
            ask_after_entries(&mut met, &mut random, playing, length);
        }
    }
    met.say("generated");
    assert!(met.all() >= 60_000);
    met.at_least(&["none", "1", "between", "W"], 5_000);
    met.at_least(&["refused 11", "refused 21", "refused 43"], 500);
    for (name, _) in WRONG {
        let told = met.wrong[name];
        assert!(told >= 1_000, "{name}: told apart {told} times");
    }
}

/// "old prices leaving as they would": the intervals are really entered, and the report's sum exceeds the threshold after as many of
/// them as the answer says. What other regions and markets bring makes no difference.
#[test]
fn as_entered() {
    let mut met = Met::default();
    let mut random = Random::new(0x51_0000);
    for _ in 0..400 {
        let mut playing = any_list(&mut random);
        for _ in 0..random.below(30) {
            let call = calls::call(&mut random, &playing.ledger);
            playing.call(call);
        }
        let (window, taken) = (
            playing.ledger.shape().window,
            playing.ledger.entries_taken(),
        );
        if window > 12 || taken + window as u32 > MOST_ENTRIES {
            continue;
        }
        let threshold = playing.ledger.settings().threshold;
        for _ in 0..6 {
            let question = questions::accepted(&mut random, &playing.ledger);
            let left = met.ask(&playing, &question);
            let sums = sums_entered(&playing, &question, window, |ledger| {
                interval(&mut random, ledger, &question)
            });
            let first = numbered(sums.iter().position(|&sum| sum > threshold));
            assert_eq!(left, Ok(first), "{question:?}: {sums:?}");
        }
    }
    met.say("as entered");
    met.at_least(&["none", "1", "between", "W"], 100);
}

/// An interval at which the question's region is unmarked and its market has its price.
fn interval(random: &mut Random, ledger: &Ledger, question: &Question) -> Entry {
    let shape = ledger.shape();
    let (region, market) = (question.region as usize, question.market as usize);
    let mut entry = calls::entry(random, ledger);
    if entry.marks[region] == 1 {
        entry.marks[region] = 0;
        let first = shape.place(region, 0);
        entry.prices[first..first + shape.markets()].fill(0);
    }
    entry.prices[shape.place(region, market)] = question.price;
    entry
}

/// "10,000,000 entries taken" stop no question.
#[test]
fn books_at_the_bound() {
    let mut met = Met::default();
    let mut random = Random::new(0x52_0000);
    for _ in 0..1_000 {
        let mut fields = Fields::read(&images::composed(&mut random));
        fields.entries = MOST_ENTRIES;
        let start = Start::Image(fields.bytes(), fields.shape().ring());
        let mut playing = Playing::start(start, false).expect("a valid image");
        let entry = calls::entry(&mut random, &playing.ledger);
        let table = vec![0; playing.ledger.shape().prices()];
        let call = Call::Entry(entry, playing.ledger.shape().ring(), table);
        assert_eq!(playing.call(call).number, 12);
        met.ask_some(&mut random, &playing, 4);
    }
    met.say("books at the bound");
    met.at_least(&["none", "1", "between", "W"], 300);
}

/// A restart that is accepted, by either kind in turn; a book with the additional link restarts by kind 2 alone.
fn restart(ledger: &Ledger) -> Call {
    let (shape, ring) = (ledger.shape(), ledger.shape().ring());
    let kind = match ledger.entries_taken().is_multiple_of(2) {
        true => Kind::holding(shape),
        false => Kind::Two,
    };
    Call::Restart(kind, kind.head() + 4 * ring, ring)
}

/// The book of an opening after so many valid entries.
fn after(random: &mut Random, opening: &Opening, entries: u32) -> Playing {
    let start = Start::Opening(*opening, calls::ring_length(opening));
    let mut playing = Playing::start(start, false).expect("a valid opening");
    for _ in 0..entries {
        let entry = calls::entry(random, &playing.ledger);
        let shape = *playing.ledger.shape();
        playing.call(Call::Entry(entry, shape.ring(), vec![0; shape.prices()]));
    }
    playing
}

/// Asked before and after a restart, at each of 0 to 3 × W + 2 entries: the prices stand elsewhere, and the answers are the same.
#[test]
fn restarts_at_every_phase() {
    let mut met = Met::default();
    let mut random = Random::new(0x53_0000);
    let phases = |window| (0..3 * window + 3).map(move |phase| (window, phase));
    for (window, phase) in (1..=6).flat_map(phases) {
        for services in [0, 1] {
            let opening = books::opening(2, services, window, 1);
            let mut playing = after(&mut random, &opening, phase);
            let any = |_| questions::accepted(&mut random, &playing.ledger);
            let asked: Vec<Question> = (0..24).map(any).collect();
            let mut answers = |playing: &Playing| -> Vec<Result<u32, Refusal>> {
                let answer = |question| met.ask(playing, question);
                asked.iter().map(answer).collect()
            };
            let before = answers(&playing);
            assert_eq!(playing.call(restart(&playing.ledger)).number, 0);
            assert_eq!(answers(&playing), before, "{opening:?}, {phase} entries");
        }
    }
    met.say("restarts");
    met.at_least(&["none", "1", "between", "W"], 500);
}

/// Weeks of entries with windows of 2,016: a question after every so many, thresholds in between, restarts once it has turned.
fn play_weeks(met: &mut Met, opening: &Opening, entries: u32, every: u32) -> u64 {
    let mut random = Random::new(0x54_0000);
    let start = Start::Opening(*opening, calls::ring_length(opening));
    let mut playing = Playing::start(start, true).expect("a valid opening");
    let mut weeks = Weeks::new(&mut random, &playing.ledger);
    let mut turned = 0;
    for turn in 1..=entries {
        let shape = *playing.ledger.shape();
        let entry = weeks.entry(&mut random, &playing.ledger);
        let call = Call::Entry(entry, shape.ring(), vec![0; shape.prices()]);
        assert_eq!(playing.call(call).number, 0);
        if turn % every == 0 {
            let book = *playing.pair.kept().0;
            turned += u64::from(book.counts[0] == book.window && book.nexts[0] > 0);
            met.ask_some(&mut random, &playing, 3);
        }
        if turn > 3_000 && turn % 499 == 0 {
            playing.call(restart(&playing.ledger));
        }
        if turn % 40 == 0 {
            let threshold = 10_000 * random.between(15_000, 20_000);
            playing.call(Call::Threshold(threshold));
        }
    }
    turned
}

/// "The real market has R 5, S 10, W 2,016, H 48", and a small book of the same window.
#[test]
fn windows_turn_round() {
    let real = Opening {
        first: 280,
        parents: books::parents(&[255, 0, 0, 2, 2]),
        threshold: 182_360_000,
        ..books::opening(5, 10, 2_016, 48)
    };
    let small = Opening {
        regions: 2,
        services: 1,
        parents: books::parents(&[255, 0]),
        ..real
    };
    let mut met = Met::default();
    let turned = play_weeks(&mut met, &small, 6_000, 4) + play_weeks(&mut met, &real, 2_600, 13);
    met.say("windows of 2,016");
    assert!(turned >= 500, "turned round: {turned}");
    met.at_least(&["none", "1", "between"], 200);
    met.at_least(&["W"], 20);
}

/// A list's book that has counted a price in each market, and its list.
fn listed(random: &mut Random) -> Playing {
    loop {
        let mut playing = any_list(random);
        for _ in 0..random.between(1, 30) {
            let call = calls::call(random, &playing.ledger);
            playing.call(call);
        }
        let (book, ring) = playing.pair.kept();
        let used = &book.counts[..book.regions.into()];
        if used.iter().all(|&count| count > 0) && ring.len() <= 1_000 {
            return playing;
        }
    }
}

/// The refusals of a question, in the order that they are tested in.
const ORDER: [u32; 5] = [10, 11, 21, 22, 43];

/// A book, a ring and a question, spoilt such that each of some refusals holds.
struct Spoilt {
    book: raw::Book,
    ring: Vec<i32>,
    question: Question,
    /// Whether a market other than the one asked about was spoilt.
    elsewhere: bool,
}

impl Spoilt {
    /// 22 before what changes the ring's length, and the market before its price.
    fn new(random: &mut Random, playing: &Playing, held: &[u32]) -> Spoilt {
        let (book, ring) = playing.pair.kept();
        let mut spoilt = Spoilt {
            book: *book,
            ring: ring.to_vec(),
            question: questions::accepted(random, &playing.ledger),
            elsewhere: false,
        };
        for refusal in [22, 10, 11, 21, 43] {
            if held.contains(&refusal) {
                spoilt.spoil(random, &playing.ledger, refusal);
            }
        }
        spoilt
    }

    fn spoil(&mut self, random: &mut Random, ledger: &Ledger, refusal: u32) {
        let question = &mut self.question;
        match refusal {
            10 => self.book = unsound(random, &self.book),
            11 => {
                let length = questions::wrong_length(random, self.ring.len());
                self.ring.resize(length, 0);
            }
            21 => {
                let none = questions::no_market(random, ledger, question);
                (question.region, question.market) = none;
            }
            22 => self.spoil_counted(random),
            _ => question.price = questions::wrong_price(random, question.market),
        }
    }

    /// "a counted price out of range or a total that isn't its sum", in any market.
    fn spoil_counted(&mut self, random: &mut Random) {
        let Spoilt { book, ring, .. } = self;
        let markets = usize::from(book.services) + 1;
        let (region, market) = (random.below(book.regions.into()), random.below(markets));
        let start = (region * markets + market) * usize::from(book.window);
        let counted = &mut ring[start..][..book.counts[region].into()];
        let place = random.below(counted.len());
        let sum = &mut book.sums[11 * region + market];
        let beyond = random.pick(&[10_000_001, -10_000_001, i32::MAX, i32::MIN]);
        match random.below(4) {
            0 => *sum += random.pick(&[-1, 1]),
            1 => counted[place] += random.pick(&[-1, 1]),
            2 => counted[place] = beyond,
            // The total stays its sum, and the price is out of range.
            _ => {
                *sum += i64::from(beyond) - i64::from(counted[place]);
                counted[place] = beyond;
            }
        }
        let asked = (self.question.region as usize, self.question.market as usize);
        self.elsewhere = asked != (region, market);
    }
}

/// A book with a field outside its limits.
fn unsound(random: &mut Random, book: &raw::Book) -> raw::Book {
    loop {
        let damaged = generator::intervals::damaged_book(random, &paper(book));
        if damaged.fault().is_some() {
            return intervals::compiled(&damaged);
        }
    }
}

/// Every set of refusals at once, on many books: the first of them is the answer. 22 is told of any market.
#[test]
fn order_of_refusals() {
    let mut met = Met::default();
    let (mut sets, mut elsewhere) = (BTreeSet::new(), 0);
    let mut random = Random::new(0x55_0000);
    for _ in 0..400 {
        let playing = listed(&mut random);
        for set in 0..1 << ORDER.len() {
            let held = |place: &usize| set & (1 << place) != 0;
            let held: Vec<u32> = (0..5).filter(held).map(|place| ORDER[place]).collect();
            let spoilt = Spoilt::new(&mut random, &playing, &held);
            let answer = met.ask_any(&spoilt.book, &spoilt.ring, &spoilt.question);
            let refusal = answer.err().map(|refusal| (refusal.number, refusal.place));
            let first = held.first().map(|&number| (number, 0));
            assert_eq!(refusal, first, "{held:?}: {:?}", spoilt.book);
            elsewhere += u64::from(spoilt.elsewhere && first == Some((22, 0)));
            sets.insert(held);
        }
    }
    met.say("order of refusals");
    let sets = sets.len();
    say(&format!(
        "intervals left, order of refusals: {sets} sets, 22 of another market {elsewhere} times"
    ));
    assert!(sets == 32 && elsewhere >= 200);
    met.at_least(&["refused 10", "refused 11", "refused 21"], 400);
    met.at_least(&["refused 22", "refused 43"], 400);
}

/// What no question looks at: places of the ring that hold no counted price, period marks, position, limits, links, entries taken.
#[test]
fn not_looked_at() {
    let mut met = Met::default();
    let (mut random, mut empty) = (Random::new(0x56_0000), 0);
    for _ in 0..600 {
        let playing = listed(&mut random);
        let (book, ring) = playing.pair.kept();
        for _ in 0..6 {
            let question = questions::accepted(&mut random, &playing.ledger);
            let expected = met.ask(&playing, &question);
            let (mut other, mut filled) = (*book, ring.to_vec());
            let wild = random.pick(&[i32::MIN, -10_000_001, 1, 10_000_001, i32::MAX]);
            empty += fill_uncounted(book, &mut filled, wild);
            for place in 0..88 {
                let used = place / 11 < book.regions.into() && place % 11 <= book.services.into();
                other.marks[place] = u8::from(used && random.chance(50));
            }
            other.halves = random.between(1, 48) as u8;
            other.position = random.below(6 * usize::from(other.halves)) as u16;
            (other.cap, other.floor) = (random.pick(&[1, 10_000_000]), -1);
            other.parents = [255; 8];
            other.entries = random.pick(&[other.entries, MOST_ENTRIES]);
            assert_eq!(met.ask_any(&other, &filled, &question), expected);
        }
    }
    met.say("not looked at");
    assert!(empty >= 1_000, "places that hold no counted price: {empty}");
    met.at_least(&["none", "1", "between", "W"], 300);
}

/// Fills the places that hold no counted price: how many there are.
fn fill_uncounted(book: &raw::Book, ring: &mut [i32], with: i32) -> usize {
    let markets = usize::from(book.services) + 1;
    let mut filled = 0;
    for (place, window) in ring.chunks_mut(book.window.into()).enumerate() {
        let uncounted = &mut window[book.counts[place / markets].into()..];
        uncounted.fill(with);
        filled += uncounted.len();
    }
    filled
}
