//! Questions for the intervals left by both books over the same ring, beside the store, whose tests a question makes too.

use crate::lists::{Market, Trade, Trading};
use crate::timing::{Cost, Costs};
use crate::typed::{alike, cost, timed, Host, Typed};

/// What is timed, in this order: the store; a question that the first interval answers, which leaves the tests; and one that none
/// answers, so that all of W are looked at.
pub const CALLS: [&str; 3] = ["store", "question, 1 interval", "question, none of W"];

/// A hundred dollars, of which thresholds are multiples: every sum of these books with the price asked about exceeds it.
const LOW: i64 = 10_000;

/// A threshold that no sum exceeds.
const HIGH: i64 = 100_000_000_000;

/// The price asked about.
const PRICE: i32 = 12_000;

/// Measures each of `CALLS` on a book whose window is full and has turned half round, so that the oldest price stands in its middle.
pub fn measure(market: &Market, rounds: usize) -> [Costs; 3] {
    let taken = usize::from(market.window) + usize::from(market.window / 2);
    let trading = Trading::new(market, Trade::Free, taken, taken + 1);
    let (mut proved, mut fast) = alike(market, &trading, taken);
    compare(market, &mut proved, &mut fast);
    let mut times = [Vec::new(), Vec::new()];
    for round in 0..rounds {
        for turn in 0..2 {
            let player = (turn + round) % 2;
            times[player].push(match player {
                0 => times_of(market, &mut proved),
                _ => times_of(market, &mut fast),
            });
        }
    }
    let cost = |player: usize, call: usize| cost(times[player].iter().map(|round| round[call]));
    std::array::from_fn(|call| Costs {
        proved: cost(0, call),
        fast: cost(1, call),
    })
}

/// Both answer the same, of every market and thresholds about its sum; and of the thresholds that are timed, 1 and none.
fn compare(market: &Market, proved: &mut Host<guxhamole::Book>, fast: &mut Host<fast::Book>) {
    let markets = u32::from(market.services) + 1;
    for place in 0..market.prices() as u32 {
        let (region, at) = (place / markets, place % markets);
        let (sum, ..) = proved.report_of(region, at);
        let share = (sum / i64::from(market.window)) as i32;
        let below = LOW.max(sum - sum % LOW);
        for threshold in [LOW, below, below + LOW, below + 10 * LOW, HIGH] {
            proved.set_threshold(threshold);
            fast.set_threshold(threshold);
            for price in [0, share, share + 1, 2 * share + 10, PRICE, 10_000_000] {
                let answers = (proved.ask(region, at, price), fast.ask(region, at, price));
                assert!(answers.0 == answers.1, "a question differs");
                assert!(
                    threshold != HIGH || answers.0 == 0,
                    "the threshold is too low"
                );
            }
            let first = proved.ask(region, at, PRICE) == 1;
            assert!(threshold != LOW || first, "the threshold is too high");
        }
    }
}

/// Nanoseconds of each of `CALLS`.
fn times_of<B: Typed>(market: &Market, host: &mut Host<B>) -> [f64; 3] {
    let calls = (2_000_000 / market.ring()).clamp(20, 2_000);
    let mut regions = (0..u32::from(market.regions)).cycle();
    let mut ask = |host: &Host<B>| host.ask(regions.next().unwrap_or(0), 0, PRICE);
    let store = timed(calls, || host.store());
    host.set_threshold(LOW);
    let first = timed(calls, || ask(host));
    host.set_threshold(HIGH);
    let none = timed(calls, || ask(host));
    [store, first, none]
}

/// What a question that none of W answers takes over a store, a step of W: at most a few nanoseconds, and below 0 where it takes less.
pub fn step_over_store(market: &Market, costs: &[Costs; 3]) -> Costs {
    let [store, _, none] = costs;
    let step = |question: Cost, store: Cost| Cost {
        median: (question.median - store.median) / f64::from(market.window),
        least: (question.least - store.least) / f64::from(market.window),
    };
    Costs {
        proved: step(none.proved, store.proved),
        fast: step(none.fast, store.fast),
    }
}
