//! Machines that test thresholds (request 2026-06 of document 02), right or wrong by one rule, over the ledger: what each wrong one
//! answers to lists of calls shows that the comparison would notice such a book.

use crate::playing::Start;
use independent::calls::closed_answer;
use independent::image::Fields;
use independent::rules::{limits_allowed, threshold_allowed};
use independent::{Answer, Call, Ledger, Opening, Values};

/// How a machine tests thresholds.
#[derive(Clone, Copy, Debug, PartialEq, Eq)]
pub enum Rule {
    /// "Opening and setting should take only multiples of 10,000 cents", "(44: …; directly after 18.)"
    Right,
    /// 44 is tested before 18.
    Before18,
    /// An opening tests 44 after 19.
    After19,
    /// An opening tests 44 before everything else.
    First,
    /// No opening tests 44.
    NoOpening,
    /// No setting tests 44.
    NoSetting,
    /// Rule 10 asks for a multiple too.
    Rule10,
    /// A load asks for a multiple too.
    Load,
    /// Multiples of something else are taken.
    Multiples(i64),
    /// A setting that is refused by 44 sets.
    RefusedSets,
    /// A setting takes the next multiple below.
    RoundedDown,
}

/// The wrong ones, by what is wrong with them.
pub const WRONG: [(&str, Rule); 12] = [
    ("44 before 18", Rule::Before18),
    ("44 after 19", Rule::After19),
    ("44 first in an opening", Rule::First),
    ("no 44 in openings", Rule::NoOpening),
    ("no 44 in settings", Rule::NoSetting),
    ("44 in rule 10", Rule::Rule10),
    ("44 in loads", Rule::Load),
    ("multiples of 1,000", Rule::Multiples(1_000)),
    ("multiples of 5,000", Rule::Multiples(5_000)),
    ("multiples of 100,000", Rule::Multiples(100_000)),
    ("a refused setting sets", Rule::RefusedSets),
    ("a setting rounds down", Rule::RoundedDown),
];

/// A refusal's number, and whether it holds.
type Test = (u32, bool);

/// The first of some refusals that holds, or 0.
fn first(tests: &[Test]) -> u32 {
    let held = tests.iter().find(|(_, holds)| *holds);
    held.map_or(0, |(number, _)| *number)
}

impl Rule {
    /// 18 and 44 of a threshold.
    fn tests(self, threshold: i64) -> [Test; 2] {
        let multiple = match self {
            Rule::Multiples(of) => of,
            _ => 10_000,
        };
        let range = (18, !threshold_allowed(threshold.into()));
        [range, (44, threshold % multiple != 0)]
    }

    /// What an opening answers.
    fn opening(self, opening: &Opening, ring: usize) -> u32 {
        let plain = Opening {
            threshold: 10_000,
            cap: 1,
            floor: -1,
            ..*opening
        };
        let before = Ledger::open(&plain, ring).map_or_else(|refusal| refusal.number, |_| 0);
        let before = (before, before != 0);
        let [range, hundreds] = self.tests(opening.threshold);
        let limits = (19, !limits_allowed(opening.cap, opening.floor));
        first(&match self {
            Rule::Before18 => [before, hundreds, range, limits],
            Rule::After19 => [before, range, limits, hundreds],
            Rule::First => [(44, hundreds.1 && !range.1), before, range, limits],
            Rule::NoOpening => [before, range, limits, limits],
            _ => [before, range, hundreds, limits],
        })
    }

    /// What a setting answers.
    fn setting(self, threshold: i64) -> u32 {
        let [range, hundreds] = self.tests(threshold);
        first(&match self {
            Rule::Before18 => [hundreds, range],
            Rule::NoSetting | Rule::RoundedDown => [range, range],
            _ => [range, hundreds],
        })
    }

    /// What the load of a book's image answers, which nothing else refuses.
    fn load(self, book: &Ledger) -> u32 {
        match self {
            Rule::Load => first(&self.tests(book.settings().threshold)),
            _ => 0,
        }
    }

    /// The threshold after a setting that was answered so, if it sets one. An image could hold it.
    fn set(self, threshold: i64, number: u32) -> Option<i64> {
        match self {
            Rule::RefusedSets if number == 44 => Some(threshold),
            Rule::RoundedDown => (number == 0).then_some((threshold - threshold % 10_000).max(1)),
            _ => (number == 0).then_some(threshold),
        }
    }
}

/// A machine over the ledger of a list.
struct Machine {
    rule: Rule,
    ledger: Ledger,
}

/// What a machine of a rule answers to the start of a list, and to each of its calls where it began.
pub fn answers(rule: Rule, start: &Start, calls: &[Call]) -> (u32, Vec<Answer>) {
    match Machine::start(rule, start) {
        Ok(mut machine) => (0, calls.iter().map(|call| machine.call(call)).collect()),
        Err(number) => (number, Vec::new()),
    }
}

impl Machine {
    /// The machine after a start, or the refusal's number. What is wrongly opened with, an image holds.
    fn start(rule: Rule, start: &Start) -> Result<Machine, u32> {
        let begun = match start {
            Start::Image(..) => start.ledger(),
            Start::Opening(opening, ring) => match rule.opening(opening, *ring) {
                0 => Start::Image(Fields::blank(opening).bytes(), *ring).ledger(),
                number => return Err(number),
            },
        };
        let ledger = begun.map_err(|refusal| refusal.number)?;
        match start {
            Start::Image(..) if rule.load(&ledger) != 0 => Err(rule.load(&ledger)),
            _ => Ok(Machine { rule, ledger }),
        }
    }

    fn call(&mut self, call: &Call) -> Answer {
        let [_, (_, odd)] = self.rule.tests(self.ledger.settings().threshold);
        match call {
            _ if odd && self.rule == Rule::Rule10 => closed_answer(call),
            Call::Threshold(threshold) => {
                let number = self.rule.setting(*threshold);
                if let Some(threshold) = self.rule.set(*threshold, number) {
                    self.ledger = holding(&self.ledger, threshold);
                }
                nothing(number)
            }
            Call::Restart(..) => {
                let answer = self.ledger.call(call);
                match answer.number {
                    0 => nothing(self.rule.load(&self.ledger)),
                    _ => answer,
                }
            }
            _ => self.ledger.call(call),
        }
    }
}

/// An answer that has no values.
fn nothing(number: u32) -> Answer {
    Answer {
        number,
        place: 0,
        values: Values::Nothing,
    }
}

/// An image with another threshold, whether or not that could be set.
pub fn image_holding(image: &[u8], threshold: i64) -> Vec<u8> {
    let mut image = image.to_vec();
    image[28..36].copy_from_slice(&threshold.to_le_bytes());
    image
}

/// The ledger with another threshold: "An image that holds another threshold still loads, and that threshold stays until the next
/// setting."
pub fn holding(ledger: &Ledger, threshold: i64) -> Ledger {
    let image = image_holding(&ledger.image(), threshold);
    let held = Ledger::load(&image, ledger.shape().ring());
    held.expect("an image of any threshold")
}
