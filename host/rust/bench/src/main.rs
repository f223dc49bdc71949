//! Measures the proved functions beside the hand-written ones: the typed calls over the same slices, interval records, the test load,
//! questions for the intervals left, bills, the schedule maker, then the replay on the same bytes, entries, restarts, and whether an
//! entry's cost grows with the window or with the history. The one argument is the number of rounds; `intervals` leaves all but the
//! interval records out, `loads` all but the test load, `questions` all but the questions, `bills` all but the bills, `schedules` all but
//! the schedule maker, `rings` all but entries of eight regions in a ring, and `count ..` makes calls to be counted by instructions.
//! docs/PERFORMANCE.md says how to read the tables.

mod bills;
mod clock;
mod count;
mod intervals;
mod lists;
mod loads;
mod questions;
mod rings;
mod schedules;
mod tables;
mod timing;
mod typed;

use lists::{List, Market, Trade};
use timing::{measure, Span};

/// "The real market has R 5, S 10, W 2,016, H 48."
const REAL: Market = Market {
    regions: 5,
    services: 10,
    window: 2_016,
    halves: 48,
};

/// The smallest records: what is left is the book's own cost and a call's.
const SMALL: Market = Market {
    regions: 1,
    services: 0,
    window: 2_016,
    halves: 1,
};

/// Entries, or restarts, in a span.
const REAL_ENTRIES: usize = 1_000;
const SMALL_ENTRIES: usize = 40_000;
const RESTARTS: usize = 40;

/// The books whose interval records are read, written and rewritten, and whose test load is drawn: the real one, the smallest and the
/// largest.
const RECORDED: [(u8, u8); 3] = [(5, 10), (1, 0), (8, 10)];

/// Rounds, where none are said.
const ROUNDS: usize = 21;

fn main() {
    let words: Vec<String> = std::env::args().skip(1).collect();
    let words: Vec<&str> = words.iter().map(String::as_str).collect();
    let done = match words[..] {
        ["count", ref rest @ ..] => count::run(&REAL, &SMALL, rest),
        ["intervals"] => some_rounds("", interval_records),
        ["intervals", rounds] => some_rounds(rounds, interval_records),
        ["loads"] => some_rounds("", test_load),
        ["loads", rounds] => some_rounds(rounds, test_load),
        ["questions"] => some_rounds("", intervals_left),
        ["questions", rounds] => some_rounds(rounds, intervals_left),
        ["bills"] => some_rounds("", retail_bills),
        ["bills", rounds] => some_rounds(rounds, retail_bills),
        ["schedules"] => some_rounds("", schedule_maker),
        ["schedules", rounds] => some_rounds(rounds, schedule_maker),
        ["rings"] => some_rounds("", ring_of_eight),
        ["rings", rounds] => some_rounds(rounds, ring_of_eight),
        [] => some_rounds("", all_tables),
        [rounds] => some_rounds(rounds, all_tables),
        _ => None,
    };
    if done.is_none() {
        eprintln!("bench [intervals|loads|questions|bills|schedules|rings] [ROUNDS]");
        eprintln!("bench count proved|fast [small] [administered] [report|store|load|question|schedule|draw|bill|day|row|ring]");
        eprintln!("bench count proved|fast [small] [read|write|rewrite-upward|rewrite-shuffled]");
        std::process::exit(2);
    }
}

/// Makes tables of so many rounds; nothing where the word is no number.
fn some_rounds(rounds: &str, tables: fn(usize)) -> Option<()> {
    let rounds = match rounds {
        "" => ROUNDS,
        _ => std::cmp::max(rounds.parse().ok()?, 1),
    };
    println!("nanoseconds of processor time: median of {rounds} rounds (least, or difference of least times)");
    tables(rounds);
    Some(())
}

fn all_tables(rounds: usize) {
    typed_calls(rounds);
    interval_records(rounds);
    test_load(rounds);
    intervals_left(rounds);
    retail_bills(rounds);
    schedule_maker(rounds);
    ring_of_eight(rounds);
    steady(rounds);
    history(rounds);
    restarts(rounds);
}

/// The typed calls of a book whose window is full.
fn typed_calls(rounds: usize) {
    let mut rows = Vec::new();
    for (market, entries) in [(REAL, REAL_ENTRIES), (SMALL, SMALL_ENTRIES)] {
        for trade in [Trade::Free, Trade::Administered] {
            for window in [1, 288, 2_016] {
                let market = Market { window, ..market };
                let costs = typed::measure(&market, trade, entries, rounds);
                rows.push((format!("{market}, {trade}"), costs));
            }
        }
    }
    for (place, call) in typed::CALLS.iter().enumerate() {
        tables::head(&format!("typed {call}, window full"));
        for (name, costs) in &rows {
            tables::row(name, &costs[place]);
        }
    }
}

/// Reading, writing and rewriting of an interval's records, by time and by bytes a second.
fn interval_records(rounds: usize) {
    let mut rows = Vec::new();
    for (regions, services) in RECORDED {
        let day = intervals::Day::new(regions, services);
        let costs = day.measure(rounds);
        for ((name, call), costs) in intervals::CALLS.into_iter().zip(costs) {
            let bytes = day.bytes();
            let name = format!("R {regions}, S {services}, {bytes} bytes: {name}");
            // One region has one order.
            if call != intervals::Call::RewriteShuffled || regions > 1 {
                rows.push((name, bytes, costs));
            }
        }
    }
    tables::head("interval records");
    for (name, _, costs) in &rows {
        tables::row(name, costs);
    }
    tables::two_head("interval records, millions of bytes a second");
    for (name, bytes, costs) in &rows {
        tables::rate_row(name, *bytes, costs);
    }
}

/// An interval of the test load drawn.
fn test_load(rounds: usize) {
    tables::head("test load, an interval drawn");
    for (regions, services) in RECORDED {
        let costs = loads::Load::new(regions, services).measure(rounds);
        tables::row(&format!("R {regions}, S {services}"), &costs);
    }
}

/// Questions of a book whose window is full, beside its store; and what a question takes over a store, a step of the window.
fn intervals_left(rounds: usize) {
    let mut rows = Vec::new();
    for market in [REAL, SMALL] {
        for window in [1, 288, 2_016] {
            let market = Market { window, ..market };
            rows.push((market, questions::measure(&market, rounds)));
        }
    }
    tables::head("questions for the intervals left, window full");
    for (market, costs) in &rows {
        for (call, costs) in questions::CALLS.iter().zip(costs) {
            tables::row(&format!("{market}: {call}"), costs);
        }
    }
    tables::two_head("a question, none of W, less a store: a step of W");
    for (market, costs) in &rows {
        let step = questions::step_over_store(market, costs);
        tables::two_row(&market.to_string(), &step);
    }
}

/// A day's bill checked, beside the same day read and entered alone.
fn retail_bills(rounds: usize) {
    let mut rows = Vec::new();
    for market in [REAL, SMALL] {
        for trade in [Trade::Free, Trade::Administered] {
            let costs = bills::measure(&market, trade, rounds);
            rows.push((format!("{market}, {trade}"), costs));
        }
    }
    for (place, call) in bills::CALLS.iter().enumerate() {
        tables::head(&format!("a day of 288 intervals {call}, window full"));
        for (name, costs) in &rows {
            tables::row(name, &costs[place]);
        }
    }
    tables::two_head("a day billed over the same day entered alone");
    for (name, [billed, entered]) in &rows {
        tables::over_row(name, billed, entered);
    }
}

/// A market's schedule made from four weeks of its prices.
fn schedule_maker(rounds: usize) {
    tables::head("schedule maker, one market");
    for halves in schedules::HALVES {
        let weeks = schedules::Weeks::new(halves);
        let name = format!("H {halves}, {} prices", tables::grouped(weeks.prices()));
        tables::row(&name, &weeks.measure(rounds));
    }
}

/// An entry of eight administered regions, in a row and with the additional link that makes it a ring.
fn ring_of_eight(rounds: usize) {
    tables::head("typed entry, eight administered regions");
    for services in [0, 10] {
        for linked in [false, true] {
            let name = if linked { "ring" } else { "row" };
            let costs = rings::measure(services, linked, rounds);
            tables::row(&format!("R 8, S {services}, H 48: {name}"), &costs);
        }
    }
}

/// An entry's cost once the window is full.
fn steady(rounds: usize) {
    tables::head("replay: an entry, window full");
    for (market, entries) in [(REAL, REAL_ENTRIES), (SMALL, SMALL_ENTRIES)] {
        for trade in [Trade::Free, Trade::Administered] {
            for window in [1, 288, 2_016] {
                let market = Market { window, ..market };
                let full = usize::from(window);
                let list = List::of_entries(&market, trade, full, full + 2 * entries);
                let span = Span {
                    from: 1 + full + entries,
                    to: 1 + full + 2 * entries,
                };
                let costs = measure(&market, &list, &[span], rounds, true);
                tables::row(&format!("{market}, {trade}"), &costs[0]);
            }
        }
    }
}

/// An entry's cost from the first on: the window fills at 2,016.
fn history(rounds: usize) {
    let real = (REAL, REAL_ENTRIES, 6);
    let small = (SMALL, SMALL_ENTRIES, 6);
    for (market, entries, spans) in [real, small] {
        tables::head(&format!("replay: an entry by its number, {market}"));
        let list = List::of_entries(&market, Trade::Free, 0, spans * entries);
        let span = |number: usize| Span {
            from: 1 + number * entries,
            to: 1 + (number + 1) * entries,
        };
        let spans: Vec<Span> = (0..spans).map(span).collect();
        let costs = measure(&market, &list, &spans, rounds, true);
        for (span, cost) in spans.iter().zip(&costs) {
            let (first, last) = (tables::grouped(span.from - 1), tables::grouped(span.to - 2));
            tables::row(&format!("entries {first} to {last}"), cost);
        }
    }
}

/// A restart of a full real book; and one that the load refuses by 11 before it looks at a price, which leaves the store.
fn restarts(rounds: usize) {
    tables::head("replay: a restart of a full book");
    let full = usize::from(REAL.window);
    let list = List::of_restarts(&REAL, full, 2 * RESTARTS);
    let span = Span {
        from: 1 + full + RESTARTS,
        to: 1 + full + 2 * RESTARTS,
    };
    for (name, other) in [
        ("store and load", true),
        ("store, and a refused load", false),
    ] {
        let costs = measure(&REAL, &list, &[span], rounds, other);
        tables::row(&format!("{REAL}, {name}"), &costs[0]);
    }
}
