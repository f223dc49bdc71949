//! Lists of calls as records: the compiled replay against the independent player.

use compare::books;
use compare::cutting::shortest_list;
use compare::replay::same;
use compare::{rounds, say};
use generator::lists::{self, List};
use generator::{calls, Random};
use independent::player::{play, Played, ENDS};
use independent::rules::threshold_refusal;
use independent::{Call, Ledger, Opening};
use records::{Record, ENTRY, LIMITS, OPENING, REPORT, RESTART, THRESHOLD};
use std::collections::BTreeMap;

/// What was met: each kind's acceptances and refusals, and what ended the replays.
#[derive(Default)]
struct Met {
    lists: u64,
    calls: u64,
    answers: BTreeMap<(u16, u32), u64>,
    ends: BTreeMap<&'static str, u64>,
}

impl Met {
    /// Compares a list and counts what it met.
    fn list(&mut self, list: &List) -> Played {
        let played = same(list);
        let (answers, rest) = records::split(&played.answers);
        assert!(rest.is_empty());
        self.lists += 1;
        self.calls += answers.len() as u64;
        for answer in answers {
            *self
                .answers
                .entry((answer.kind, answer.number))
                .or_default() += 1;
        }
        *self.ends.entry(played.ended).or_default() += 1;
        played
    }

    fn say(&self, name: &str) {
        let (lists, calls) = (self.lists, self.calls);
        say(&format!("replay, {name}: {lists} lists, {calls} calls"));
        say(&format!("replay, {name}: answers {:?}", self.answers));
        say(&format!("replay, {name}: ends {:?}", self.ends));
    }

    fn at_least(&self, kind: u16, numbers: &[u32], times: u64) {
        for &number in numbers {
            let met = self.answers.get(&(kind, number)).copied().unwrap_or(0);
            assert!(met >= times, "{kind} answered {number}: met {met} times");
        }
    }
}

/// The guide's case: "Entry 1, same prices, flows B and C 1, factors 11,000 and 10,800: 60,000, 54,545, 50,505, count
/// 3." A list of records begins with an opening, so that the threshold is 90,000, which these prices pass where they pass 95,000.
#[test]
fn guide() {
    let opening = Opening {
        threshold: 90_000,
        ..books::guide()
    };
    let mut entry = books::plain(&books::open(&opening), &[100_000, 90_000, 85_000]);
    let first = lists::entry_record(entry.clone(), 3, vec![0; 3]);
    entry.number = 1;
    entry.flows = vec![0, 1, 1];
    entry.factors = vec![0, 11_000, 10_800];
    let second = lists::entry_record(entry.clone(), 3, vec![0; 3]);
    let third = lists::entry_record(entry, 2, vec![1, 2, 3]);
    let (region, market) = (2, 0);
    let records = vec![
        Record::Opening(lists::opening_record(&opening)),
        Record::Entry(first),
        Record::Restart,
        Record::Entry(second),
        Record::Entry(third),
        Record::Report { region, market },
        Record::Report { region: 3, market },
    ];
    let played = same(&whole(&opening, records));
    let (answers, _) = records::split(&played.answers);
    let said: Vec<String> = answers.iter().map(|answer| answer.to_string()).collect();
    let expected = [
        "accepted",
        "accepted, count 0, table [100000, 90000, 85000]",
        "accepted",
        "accepted, count 3, table [60000, 54545, 50505]",
        "refused by 11, count 0, table [1, 2, 3]",
        "accepted, sum 85000, counted 1, mark 0, entries 2",
        "refused by 21, sum 0, counted 0, mark 0, entries 0",
    ];
    assert_eq!(said, expected);
}

/// The answers to an opening of the smallest book with this threshold and cap, to two settings of the threshold and to a report.
fn told(threshold: i64, cap: i32) -> Vec<String> {
    let opening = Opening {
        threshold,
        cap,
        ..books::opening(1, 0, 1, 1)
    };
    let (region, market) = (0, 0);
    let records = vec![
        Record::Opening(lists::opening_record(&opening)),
        Record::Threshold(95_000),
        Record::Threshold(100_000_010_000),
        Record::Report { region, market },
    ];
    let played = same(&whole(&opening, records));
    let (answers, _) = records::split(&played.answers);
    answers.iter().map(|answer| answer.to_string()).collect()
}

/// "(44: a threshold within range but no multiple of 10,000; directly after 18.)" A refused opening leaves a closed book.
#[test]
fn whole_hundreds() {
    let zeros = "sum 0, counted 0, mark 0, entries 0";
    let report = format!("accepted, {zeros}");
    let opened = ["accepted", "refused by 44", "refused by 18", &report];
    for threshold in [10_000, 90_000, 100_000_000_000] {
        assert_eq!(told(threshold, 60_000), opened);
    }
    let report = format!("refused by 10, {zeros}");
    for (threshold, cap, number) in [
        (95_000, 60_000, 44),
        (95_000, 0, 44),
        (99_999_999_999, 60_000, 44),
        (0, 0, 18),
        (100_000_010_000, 60_000, 18),
        (90_000, 0, 19),
    ] {
        let refused = format!("refused by {number}");
        let closed = [&refused, "refused by 10", "refused by 10", &report];
        assert_eq!(told(threshold, cap), closed, "{threshold}, {cap}");
    }
}

/// Every answer that a short list can meet: all but 12 (ten million entries) and 22.
#[test]
fn generated_lists() {
    let mut met = Met::default();
    for round in 0..rounds() {
        let mut random = Random::new(0xA_0000 + round);
        for turn in 0..11_000 {
            let most = if turn % 10 == 0 { 100 } else { 40 };
            let length = random.below(most);
            met.list(&lists::list(&mut random, length));
        }
    }
    met.say("generated");
    assert!(met.calls >= 200_000);
    met.at_least(OPENING, &[0, 11, 18, 19, 20, 44], 100);
    met.at_least(ENTRY, &[0, 10, 11, 13, 14, 15, 16, 17], 300);
    met.at_least(THRESHOLD, &[0, 10, 18, 44], 300);
    met.at_least(LIMITS, &[0, 10, 19], 300);
    met.at_least(REPORT, &[0, 10, 21], 300);
    met.at_least(RESTART, &[0, 10, 11, 23], 300);
    for end in ENDS {
        let times = met.ends.get(end).copied().unwrap_or(0);
        assert!(times >= 20, "ended by {end}: met {times} times");
    }
}

/// Records damaged anywhere, random bytes, and records of random contents.
#[test]
fn damaged_streams() {
    let mut met = Met::default();
    for round in 0..rounds() {
        let mut random = Random::new(0xB_0000 + round);
        for _ in 0..20_000 {
            let length = random.below(8);
            let mut list = lists::list(&mut random, length);
            for _ in 0..random.between(1, 3) {
                if !list.records.is_empty() {
                    lists::damage(&mut random, &mut list.records);
                }
            }
            met.list(&list);
            met.list(&lists::scrambled(&mut random));
        }
        for _ in 0..20_000 {
            let mut list = lists::scrambled(&mut random);
            let length = random.below(80);
            list.records = vec![Record::Bytes(lists::any_bytes(&mut random, length))];
            met.list(&list);
        }
    }
    met.say("damaged");
    for end in ENDS {
        let times = met.ends.get(end).copied().unwrap_or(0);
        assert!(times >= 20, "ended by {end}: met {times} times");
    }
}

/// A list's bytes cut at every place.
#[test]
fn every_cut() {
    let mut met = Met::default();
    let mut random = Random::new(0xC_0000);
    for _ in 0..20 {
        let mut opening = calls::opening(&mut random);
        opening.halves = 1;
        opening.first = 5;
        let mut list = lists::roomy(&mut random, &opening, 8);
        let bytes = records::bytes(&list.records);
        for length in (0..bytes.len()).take(3_000) {
            list.records = vec![Record::Bytes(bytes[..length].to_vec())];
            met.list(&list);
        }
    }
    met.say("every cut");
}

/// Each lent slice in turn of every length up to past what a list asks for.
#[test]
fn every_lent_length() {
    let mut met = Met::default();
    let mut random = Random::new(0xD_0000);
    for _ in 0..40 {
        let mut opening = calls::opening(&mut random);
        opening.window = opening.window.min(3);
        opening.halves = opening.halves.min(2);
        opening.first %= 12;
        opening.regions = opening.regions.min(3);
        opening.parents[3..].fill(255);
        let length = random.between(1, 12) as usize;
        let list = lists::roomy(&mut random, &opening, length);
        for slice in 0..7 {
            for length in 0..lengths(&list, slice) + 2 {
                let mut short = list.clone();
                set_length(&mut short, slice, length);
                met.list(&short);
            }
        }
    }
    met.say("every lent length");
}

fn lengths(list: &List, slice: usize) -> usize {
    let lent = list.lent;
    let all = [
        lent.answers,
        lent.ring,
        lent.other,
        lent.image,
        lent.numbers,
        lent.factors,
        lent.table,
    ];
    all[slice]
}

fn set_length(list: &mut List, slice: usize, length: usize) {
    let lent = &mut list.lent;
    let all = [
        &mut lent.answers,
        &mut lent.ring,
        &mut lent.other,
        &mut lent.image,
        &mut lent.numbers,
        &mut lent.factors,
        &mut lent.table,
    ];
    *all.into_iter().nth(slice).expect("one of seven") = length;
}

/// The next valid entry for a ledger, which takes it.
fn next_entry(random: &mut Random, ledger: &mut Ledger) -> Record {
    let (ring, table) = (ledger.shape().ring(), vec![0; ledger.shape().prices()]);
    let call = Call::Entry(calls::entry(random, ledger), ring, table);
    assert_eq!(ledger.call(&call).number, 0);
    lists::call_record(call)
}

/// Whole records with room for all of their answers, everything else as much as the opening asks for.
fn whole(opening: &Opening, records: Vec<Record>) -> List {
    let mut lent = lists::ample(opening);
    lent.answers = records.iter().map(lists::answer_length).sum();
    List { records, lent }
}

/// Restarts after each of 0 to 3 × W + 2 entries, once and twice in a row, windows of 1 to 6; after each entry a report
/// of every market.
#[test]
fn restarts_at_every_phase() {
    let mut met = Met::default();
    let mut random = Random::new(0xE_0000);
    for window in 1..=6 {
        for (services, times) in [(0, 1), (1, 2), (2, 1)] {
            let mut opening = books::opening(3, services, window, 1);
            opening.parents = books::parents(&[255, 0, 0]);
            for phase in 0..3 * window + 3 {
                let mut ledger = books::open(&opening);
                let mut records = vec![Record::Opening(lists::opening_record(&opening))];
                for turn in 0..4 * window + 4 {
                    if turn == phase {
                        records.extend(vec![Record::Restart; times]);
                    }
                    records.push(next_entry(&mut random, &mut ledger));
                    records.extend(lists::all_reports(&opening));
                }
                records.push(Record::Restart);
                let played = met.list(&whole(&opening, records));
                assert_eq!(played.image, ledger.image());
            }
        }
    }
    met.say("restarts");
}

/// "The real market has R 5, S 10, W 2,016, H 48": its head, with restarts, settings and reports; and with windows of 96, which turn
/// round in it, since the ledger takes too long over weeks.
#[test]
fn real_market() {
    for window in [2_016, 96] {
        let mut met = Met::default();
        let mut random = Random::new(0xF_0000);
        let opening = Opening {
            first: 280,
            parents: books::parents(&[255, 0, 0, 2, 2]),
            threshold: 1_000_000,
            ..books::opening(5, 10, window, 48)
        };
        let (records, ledger) = real_list(&mut random, &opening);
        let played = met.list(&whole(&opening, records));
        assert_eq!(played.image, ledger.image());
        let (_, counted, _, _) = books::report(&ledger, 4, 10);
        assert_eq!(counted == window, window == 96);
        met.say(&format!("real market, W {window}"));
        met.at_least(ENTRY, &[0], 250);
        met.at_least(RESTART, &[0], 20);
    }
}

/// 250 entries with restarts and thresholds between them, then every report and a restart; and the ledger after them.
fn real_list(random: &mut Random, opening: &Opening) -> (Vec<Record>, Ledger) {
    let mut ledger = books::open(opening);
    let mut records = vec![Record::Opening(lists::opening_record(opening))];
    for turn in 0..250 {
        records.push(next_entry(random, &mut ledger));
        match turn % 25 {
            7 | 20 => records.push(Record::Restart),
            24 => {
                let call = Call::Threshold(calls::next_threshold(random, &ledger));
                ledger.call(&call);
                records.push(lists::call_record(call));
            }
            _ => {}
        }
    }
    records.extend(lists::all_reports(opening));
    records.push(Record::Restart);
    (records, ledger)
}

/// A list with prices in whole hundreds of dollars, as thresholds are.
fn in_whole_hundreds(mut list: List) -> List {
    for record in &mut list.records {
        if let Record::Entry(entry) = record {
            let cut = |price: &mut i32| *price -= *price % 10_000;
            entry.prices.iter_mut().for_each(cut);
        }
    }
    list
}

/// Such a list as a replay plays it that tests "at least" for "exceeds": every threshold is lower by a hundred dollars.
fn at_least(list: &List) -> List {
    let mut lower = list.clone();
    for record in &mut lower.records {
        let threshold = match record {
            Record::Opening(opening) => &mut opening.threshold,
            Record::Threshold(threshold) => threshold,
            _ => continue,
        };
        if *threshold > 10_000 && threshold_refusal(*threshold).is_ok() {
            *threshold -= 10_000;
        }
    }
    lower
}

/// The comparison can fail: "Errors the trade makes: testing 'at least' for 'exceeds'" is noticed, and cutting finds a
/// short list.
#[test]
fn a_wrong_replay_is_noticed() {
    let answers = |list: &List| play(&records::bytes(&list.records), &list.lent).answers;
    let differs = |list: &List| answers(list) != answers(&at_least(list));
    let mut random = Random::new(0x10_0000);
    let drawn = (0..300).map(|_| in_whole_hundreds(lists::list(&mut random, 20)));
    let short = drawn
        .filter(differs)
        .map(|list| shortest_list(&list, differs));
    let mut lengths: Vec<usize> = short.map(|list| list.records.len()).collect();
    lengths.sort_unstable();
    let noticed = lengths.len();
    say(&format!(
        "replay, a wrong one: noticed in {noticed} of 300, cut down to {lengths:?} calls"
    ));
    assert!(noticed >= 10);
    // Where a wrong mark shows at the end of a day alone, the day's entries stay.
    assert!(lengths[noticed / 2] <= 6 && lengths[noticed - 1] <= 20);
}

/// "10,000,000 entries taken"
const MOST: u32 = 10_000_000;

/// As many entries of the smallest book as it takes; then an entry, one with a wrong length, a report, a restart and an
/// entry again. Both entries have a wrong kind, which comes after 12.
fn ten_million_calls() -> Vec<u8> {
    let opening = books::opening(1, 0, 1, 1);
    let plain = books::plain(&books::open(&opening), &[0]);
    let mut entry = lists::entry_record(plain, 1, vec![7]);
    let mut calls = Record::Opening(lists::opening_record(&opening)).bytes();
    let mut one = Record::Entry(entry.clone()).bytes();
    for number in 0..MOST {
        one[6..10].copy_from_slice(&number.to_le_bytes());
        calls.extend(&one);
    }
    entry.number = MOST;
    entry.kind = 2;
    let next = Record::Entry(entry.clone());
    entry.marks.clear();
    let wrong_length = Record::Entry(entry);
    let (region, market) = (0, 0);
    let report = Record::Report { region, market };
    let last = [next.clone(), wrong_length, report, Record::Restart, next];
    calls.extend(records::bytes(&last));
    calls
}

/// "12, 10,000,000 entries taken": only a list of as many meets it, so that a long run alone plays it (about 900 MB).
#[test]
fn ten_million_entries() {
    if std::env::var_os("GUXHAMOLE_LONG").is_none() {
        return;
    }
    let of_entries = 22 * MOST as usize;
    let mut answers = vec![0; 14 + of_entries + 22 * 3 + 34 + 14 + 1];
    let (mut ring, mut other, mut image) = ([0], [0], [0; 152]);
    let (mut numbers, mut factors, mut table) = ([0; 4], [0], [0]);
    let written = guxhamole::replay(
        &ten_million_calls(),
        &mut answers,
        &mut ring,
        &mut other,
        &mut image,
        &mut numbers,
        &mut factors,
        &mut table,
    );
    assert_eq!(written, answers.len() - 1);
    let mut accepted = [0; 22];
    (accepted[0], accepted[4]) = (22, 65);
    let (first, last) = answers[14..written].split_at(of_entries);
    assert!(first.chunks(22).all(|answer| answer == accepted));
    let (last, _) = records::split(last);
    let said: Vec<String> = last.iter().map(|answer| answer.to_string()).collect();
    let expected = [
        "refused by 12, count 0, table [7]",
        "refused by 11, count 0, table [7]",
        "accepted, sum 0, counted 1, mark 0, entries 10000000",
        "accepted",
        "refused by 12, count 0, table [7]",
    ];
    assert_eq!(said, expected);
    say("replay, ten million entries: refused by 12 from then on");
}
