//! Calls to be counted by instructions rather than timed: `bench count proved|fast` and, where it is not the real market's free
//! entry, the words `small`, `administered`, `report`, `store`, `load`, `question`, `schedule`, `draw` of the test load, `bill` of a day
//! or the `day` entered alone, ten times each, entries of eight administered regions in a `row` or a `ring`, or `read`, `write`,
//! `rewrite-upward` and `rewrite-shuffled` of interval records. Under callgrind's `--toggle-collect='*count::counted*'` the calls
//! themselves are counted, on a book whose window is full.

use crate::bills::{self, Billing};
use crate::intervals::{self, Day, Recorded, Room};
use crate::lists::{Market, Trade, Trading};
use crate::loads::{self, Drawing, Load};
use crate::rings;
use crate::schedules::{Maker, Weeks};
use crate::typed::{Host, Typed, CALLS};

use std::hint::black_box;

/// A question for the intervals left; of a free book none of W is the answer.
const QUESTION: &str = "question";

/// A making of a schedule, of the market's half-hours; no book is asked.
const SCHEDULE: &str = "schedule";

/// An interval of the test load drawn.
const DRAW: &str = "draw";

/// A day's bill checked, and the day entered alone.
const BILL: &str = "bill";
const ENTERED: &str = "day";

/// Entries of eight administered regions in a row, and in a ring by the additional link.
const ROW: &str = "row";
const RING: &str = "ring";

/// How many calls are counted, and how many days.
const TIMES: usize = 1_000;
const DAYS: usize = 10;

/// What is counted.
struct Counting {
    market: Market,
    trade: Trade,
    call: &'static str,
}

/// Makes the calls that the words after `count` say; nothing where they are no such words.
pub fn run(real: &Market, small: &Market, words: &[&str]) -> Option<()> {
    let (player, words) = words.split_first()?;
    let mut counting = Counting {
        market: *real,
        trade: Trade::Free,
        call: CALLS[0],
    };
    for &word in words {
        let records = intervals::CALLS.map(|(name, _)| name);
        let others = [QUESTION, SCHEDULE, DRAW, BILL, ENTERED, ROW, RING];
        let mut known = CALLS.into_iter().chain(others).chain(records);
        match word {
            "small" => counting.market = *small,
            "administered" => counting.trade = Trade::Administered,
            call => counting.call = known.find(|&known| known == call)?,
        }
    }
    if [ROW, RING].contains(&counting.call) {
        counting.market = rings::market(counting.market.services);
        counting.trade = Trade::Administered;
    }
    match *player {
        "proved" => counting.play::<guxhamole::Book>(),
        "fast" => counting.play::<fast::Book>(),
        _ => return None,
    }
    let Counting {
        market,
        trade,
        call,
    } = counting;
    let times = match call {
        BILL | ENTERED => DAYS,
        _ => TIMES,
    };
    println!("{player}, {market}, {trade}: {call}, {times} times");
    Some(())
}

impl Counting {
    fn play<B: Typed + Billing + Maker + Drawing>(&self) {
        match self.call {
            SCHEDULE => return counted_schedules::<B>(&Weeks::new(self.market.halves)),
            DRAW => {
                let load = Load::new(self.market.regions, self.market.services);
                return counted_draws::<B>(&mut load.host());
            }
            BILL | ENTERED => {
                let day = bills::Day::new(&self.market, self.trade);
                let start = day.start::<B>();
                return counted_days(&day, &start, &mut day.room(), self.call);
            }
            ROW | RING => {
                let trading = rings::trading(&self.market, self.call == RING);
                let mut host: Host<B> = Host::new(&self.market, &trading);
                host.enter(&trading, 0..1);
                return counted(&mut host, &trading, CALLS[0], 0);
            }
            _ => {}
        }
        let mut records = intervals::CALLS.into_iter();
        if let Some((_, call)) = records.find(|(name, _)| *name == self.call) {
            let day = Day::new(self.market.regions, self.market.services);
            return counted_records(&B::opened(&day), &day, &mut day.room(), call);
        }
        let full = usize::from(self.market.window);
        let trading = Trading::new(&self.market, self.trade, full, full + TIMES);
        let mut host: Host<B> = Host::new(&self.market, &trading);
        host.enter(&trading, 0..full);
        let image = host.store();
        counted(&mut host, &trading, self.call, image);
    }
}

#[inline(never)]
fn counted<B: Typed>(host: &mut Host<B>, trading: &Trading, call: &str, image: usize) {
    let full = usize::from(trading.settings.window);
    match call {
        "report" => repeated(|| host.report(0)),
        "store" => repeated(|| host.store()),
        "load" => repeated(|| host.load(image)),
        QUESTION => repeated(|| host.ask(0, 0, 8_000)),
        _ => {
            black_box(host.enter(trading, full..full + TIMES));
        }
    }
}

#[inline(never)]
fn counted_records<B: Recorded>(book: &B, day: &Day, room: &mut Room, call: intervals::Call) {
    for turn in 0..TIMES {
        black_box(room.call(book, day, call, turn));
    }
}

#[inline(never)]
fn counted_schedules<M: Maker>(weeks: &Weeks) {
    repeated(|| M::schedule(black_box(weeks)));
}

#[inline(never)]
fn counted_draws<B: Drawing>(host: &mut loads::Host<B>) {
    repeated(|| host.draw());
}

#[inline(never)]
fn counted_days<B: Billing>(
    day: &bills::Day,
    start: &bills::Start<B>,
    room: &mut bills::Room,
    call: &str,
) {
    for _ in 0..DAYS {
        if call == BILL {
            black_box(day.bill(start, room));
        } else {
            room.work.copy_from_slice(&start.ring);
            black_box(day.enter(start.book.clone(), room));
        }
    }
}

fn repeated<A>(mut call: impl FnMut() -> A) {
    for _ in 0..TIMES {
        black_box(call());
    }
}
