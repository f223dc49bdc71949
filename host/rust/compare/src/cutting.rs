//! Makes a failing image, list of calls or pair of lists as short as cutting makes it.

use crate::playing;
use crate::twins::Twins;
use generator::images::mend_length;
use generator::lists::{answer_length, List};
use independent::{ledger, Call};
use records::{Entry, Record};

/// The shortest image found, by cutting bytes out and zeroing them, that still fails.
pub fn shortest(image: &[u8], fails: impl Fn(&[u8]) -> bool) -> Vec<u8> {
    let mut best = image.to_vec();
    loop {
        let before = best.clone();
        for width in [1_024, 256, 64, 16, 4, 1] {
            let mut start = 0;
            while start < best.len() {
                match cut_out(&best, start, width)
                    .into_iter()
                    .find(|cut| fails(cut))
                {
                    Some(cut) => best = cut,
                    None => start += width,
                }
            }
        }
        for place in 0..best.len() {
            let mut plainer = best.clone();
            plainer[place] = 0;
            if best[place] != 0 && fails(&plainer) {
                best = plainer;
            }
        }
        if best == before {
            return best;
        }
    }
}

/// The image without some bytes, with its length field as it was and mended.
fn cut_out(image: &[u8], start: usize, width: usize) -> Vec<Vec<u8>> {
    let end = (start + width).min(image.len());
    let plain = [&image[..start], &image[end..]].concat();
    let mut mended = plain.clone();
    mend_length(&mut mended);
    vec![plain, mended]
}

/// What is left of something once parts are cut out, wide ones first, as long as it still fails. `cut_out` gives ways to leave out
/// some of its parts from a place on.
fn cut_down<L: Clone>(
    whole: &L,
    length: impl Fn(&L) -> usize,
    cut_out: impl Fn(&L, usize, usize) -> Vec<L>,
    fails: impl Fn(&L) -> bool,
) -> L {
    let mut best = whole.clone();
    loop {
        let before = length(&best);
        for width in [64, 16, 4, 2, 1] {
            let mut start = 0;
            while start < length(&best) {
                match cut_out(&best, start, width)
                    .into_iter()
                    .find(|cut| fails(cut))
                {
                    Some(cut) => best = cut,
                    None => start += width,
                }
            }
        }
        if length(&best) == before {
            return best;
        }
    }
}

/// The shortest list found, by cutting calls out and making entries plainer, that still fails.
pub fn shortest_list(list: &List, fails: impl Fn(&List) -> bool) -> List {
    let short = cut_down(list, |list| list.records.len(), calls_cut_out, &fails);
    plainer(short, fails)
}

/// The list without some calls: the later entries' numbers lower by the entries cut out or as they were, the answers'
/// room smaller by the answers cut out or as it was.
fn calls_cut_out(list: &List, start: usize, width: usize) -> Vec<List> {
    let end = (start + width).min(list.records.len());
    let mut plain = list.clone();
    let cut: Vec<Record> = plain.records.drain(start..end).collect();
    let is_entry = |record: &&Record| matches!(record, Record::Entry(_));
    let entries = cut.iter().filter(is_entry).count() as u32;
    let mut mended = plain.clone();
    for record in &mut mended.records[start..] {
        if let Record::Entry(entry) = record {
            entry.number = entry.number.wrapping_sub(entries);
        }
    }
    let answers: usize = cut.iter().map(answer_length).sum();
    let narrow = |list: &List| {
        let mut narrow = list.clone();
        narrow.lent.answers = list.lent.answers.saturating_sub(answers);
        narrow
    };
    vec![narrow(&mended), narrow(&plain), mended, plain]
}

/// The list with whole slices of its entries plain, where it still fails.
fn plainer(list: List, fails: impl Fn(&List) -> bool) -> List {
    let steps: [fn(&mut Entry); 6] = [
        |entry| entry.schedule.fill(0),
        |entry| entry.table.fill(0),
        |entry| entry.flows.fill(0),
        |entry| entry.factors.fill(10_000),
        |entry| entry.marks.fill(0),
        |entry| entry.prices.fill(0),
    ];
    let mut best = list;
    for place in 0..best.records.len() {
        for step in steps {
            let mut tried = best.clone();
            if let Record::Entry(entry) = &mut tried.records[place] {
                step(entry);
            }
            if fails(&tried) {
                best = tried;
            }
        }
    }
    best
}

/// The calls without some: the later entries' numbers lower by the entries cut out, or as they were.
fn without(calls: &[Call], start: usize, width: usize) -> [Vec<Call>; 2] {
    let end = (start + width).min(calls.len());
    let mut plain = calls.to_vec();
    let cut = plain.drain(start..end);
    let entries = cut.filter(|call| matches!(call, Call::Entry(..))).count() as u32;
    let mut mended = plain.clone();
    for call in &mut mended[start..] {
        if let Call::Entry(entry, ..) = call {
            entry.number = entry.number.wrapping_sub(entries);
        }
    }
    [mended, plain]
}

/// What makes a whole slice of an entry plain.
const PLAIN: [fn(&mut ledger::Entry); 5] = [
    |entry| entry.schedule.fill(0),
    |entry| entry.flows.fill(0),
    |entry| entry.factors.fill(10_000),
    |entry| entry.marks.fill(0),
    |entry| entry.prices.fill(0),
];

fn make_plain(call: &mut Call, step: fn(&mut ledger::Entry)) {
    if let Call::Entry(entry, ..) = call {
        step(entry);
    }
}

/// What is left of something once each step that makes slices plain is taken where it still fails; `take` takes one.
fn plain<L: Clone>(
    whole: L,
    take: impl Fn(&mut L, fn(&mut ledger::Entry)),
    fails: impl Fn(&L) -> bool,
) -> L {
    let mut best = whole;
    for step in PLAIN {
        let mut tried = best.clone();
        take(&mut tried, step);
        if fails(&tried) {
            best = tried;
        }
    }
    best
}

/// The shortest typed list found, by cutting calls out and making entries plainer, that still fails.
pub fn shortest_calls(
    list: &playing::List,
    fails: impl Fn(&playing::List) -> bool,
) -> playing::List {
    let cut_out = |list: &playing::List, start: usize, width: usize| {
        let cuts = without(&list.calls, start, width).map(|calls| playing::List {
            calls,
            ..list.clone()
        });
        cuts.to_vec()
    };
    let mut best = cut_down(list, |list| list.calls.len(), cut_out, &fails);
    for place in 0..best.calls.len() {
        let take = |list: &mut playing::List, step| make_plain(&mut list.calls[place], step);
        best = plain(best, take, &fails);
    }
    best
}

/// The shortest twins found, by cutting the same places out of both lists, making calls the same and entries plainer, that still fail.
pub fn shortest_twins(twins: &Twins, fails: impl Fn(&Twins) -> bool) -> Twins {
    let length = |twins: &Twins| twins.lists[0].calls.len();
    let mut best = cut_down(twins, length, places_cut_out, &fails);
    for place in 0..length(&best) {
        best = same_call(best, place, &fails);
        best = plain_place(best, place, &fails);
    }
    best
}

/// The twins with the first list's call at a place in the second one too, or the other way round, where they still fail.
fn same_call(twins: Twins, place: usize, fails: impl Fn(&Twins) -> bool) -> Twins {
    let ways = [0, 1].map(|from| {
        let mut same = twins.clone();
        same.lists[1 - from].calls[place] = twins.lists[from].calls[place].clone();
        same
    });
    ways.into_iter().find(fails).unwrap_or(twins)
}

/// The twins with whole slices of a place's entries plain, in both lists or in one, where they still fail.
fn plain_place(twins: Twins, place: usize, fails: impl Fn(&Twins) -> bool) -> Twins {
    let mut best = twins;
    for lists in [0..2, 0..1, 1..2] {
        let take = |twins: &mut Twins, step| {
            let lists = &mut twins.lists[lists.clone()];
            lists
                .iter_mut()
                .for_each(|list| make_plain(&mut list.calls[place], step));
        };
        best = plain(best, take, &fails);
    }
    best
}

/// The twins without some places, numbers mended in both or as they were.
fn places_cut_out(twins: &Twins, start: usize, width: usize) -> Vec<Twins> {
    let cut = |way: usize| {
        let mut cut = twins.clone();
        for list in &mut cut.lists {
            list.calls = without(&list.calls, start, width)[way].clone();
        }
        cut
    };
    vec![cut(0), cut(1)]
}
