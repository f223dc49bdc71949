//! Lists for a replay: records and the lengths of the lent slices, valid and damaged. Their openings have no additional link.

use crate::calls;
use crate::random::Random;
use independent::image::HEAD;
use independent::ledger;
use independent::player::Lent;
use independent::{Call, Kind, Ledger, Opening};
use records::{Damage, Entry, Record};

/// What a replay is lent, the slices by their lengths.
#[derive(Clone, Debug, PartialEq, Eq)]
pub struct List {
    pub records: Vec<Record>,
    pub lent: Lent,
}

/// A list of so many calls after its opening: mostly a valid opening, enough room and whole records.
pub fn list(random: &mut Random, length: usize) -> List {
    let opening = match random.below(20) {
        0 | 1 => narrowed(&calls::damaged_opening(random).0),
        2 => calls::damaged_settings(random),
        _ => calls::opening(random),
    };
    let opening = calls::unlinked(opening);
    let mut list = List {
        records: vec![Record::Opening(opening_record(&opening))],
        lent: lent(random, &opening),
    };
    add_calls(random, &mut list, &opening, length);
    match random.below(4) {
        0 => list.records.extend(all_reports(&opening)),
        1 => list.records.push(Record::Restart),
        _ => {}
    }
    if random.chance(12) {
        damage(random, &mut list.records);
    }
    list.lent.answers = answers_room(random, &list.records);
    list
}

/// A list over a valid opening with whole records and as much of everything as any of its calls may ask for.
pub fn roomy(random: &mut Random, opening: &Opening, length: usize) -> List {
    let opening = &calls::unlinked(*opening);
    let mut list = List {
        records: vec![Record::Opening(opening_record(opening))],
        lent: ample(opening),
    };
    add_calls(random, &mut list, opening, length);
    list.lent.answers = list.records.iter().map(answer_length).sum();
    list
}

/// Room for every valid entry over an opening, for entries one longer in each slice, and for the fullest image. Answers
/// have none.
pub fn ample(opening: &Opening) -> Lent {
    let ring = calls::ring_length(opening);
    let prices = opening.regions as usize * (opening.services as usize + 1);
    let schedule = prices * 2 * opening.halves as usize;
    Lent {
        answers: 0,
        ring,
        other: ring,
        image: HEAD + 4 * ring,
        numbers: prices + opening.regions as usize + schedule + 3,
        factors: opening.regions as usize + 1,
        table: prices + 1,
    }
}

/// An opening as a record of its fields' widths can say it, and the C face's settings.
pub fn narrowed(opening: &Opening) -> Opening {
    Opening {
        regions: opening.regions & 0xFF,
        services: opening.services & 0xFF,
        window: opening.window & 0xFFFF,
        halves: opening.halves & 0xFF,
        first: opening.first & 0xFFFF,
        ..*opening
    }
}

pub fn opening_record(opening: &Opening) -> records::Opening {
    records::Opening {
        regions: opening.regions as u8,
        services: opening.services as u8,
        window: opening.window as u16,
        halves: opening.halves as u8,
        first: opening.first as u16,
        parents: opening.parents,
        threshold: opening.threshold,
        cap: opening.cap,
        floor: opening.floor,
    }
}

/// Lengths around what the opening asks for: mostly enough of each, sometimes one short, or none. Large settings of a
/// refused opening are not lent their whole ring.
fn lent(random: &mut Random, opening: &Opening) -> Lent {
    let most = 8 * 11 * 2_016;
    let enough = ample(opening);
    let ring = enough.ring.min(most);
    let room = |random: &mut Random, enough: usize, seldom: usize| {
        if random.chance(seldom) {
            let menu = [0, enough / 2, enough.saturating_sub(1)];
            random.pick(&menu)
        } else {
            enough + random.pick(&[0, 0, 1, 17])
        }
    };
    Lent {
        answers: 0,
        ring: room(random, ring, 4),
        other: room(random, ring, 15),
        image: image_room(random, HEAD + 4 * ring),
        numbers: if random.chance(5) {
            // A valid entry's room, around which the longer ones do not fit.
            (enough.numbers - 3 + random.below(3)).min(most)
        } else {
            room(random, enough.numbers.min(most), 2)
        },
        factors: room(random, enough.factors, 2),
        table: room(random, enough.table.min(most), 2),
    }
}

/// The image buffer: enough for full windows, or a length that windows outgrow as they fill.
fn image_room(random: &mut Random, fullest: usize) -> usize {
    match random.below(20) {
        0 => 0,
        1 => HEAD - 1,
        2 => HEAD,
        3..=6 => random.between(HEAD as i64, fullest.min(1_000) as i64) as usize,
        _ => fullest + random.pick(&[0, 0, 1, 40]),
    }
}

/// The calls, made for the ledger that they lead to; over a refused opening, for a ledger that it might have been.
fn add_calls(random: &mut Random, list: &mut List, opening: &Opening, length: usize) {
    let places = calls::ring_length(opening).min(list.lent.ring);
    let mut ledger = match Ledger::open(opening, places) {
        Ok(ledger) => ledger,
        Err(_) => calls::opened_unlinked(random),
    };
    for _ in 0..length {
        let call = match random.below(100) {
            0..=54 => calls::any_entry(random, &ledger),
            55..=66 => Call::Threshold(calls::next_threshold(random, &ledger)),
            67..=71 => calls::next_limits(random),
            72..=85 => calls::any_report(random, &ledger),
            _ => Call::Restart(Kind::One, usize::MAX, ledger.shape().ring()),
        };
        ledger.call(&call);
        let mut record = call_record(call);
        if let Record::Entry(entry) = &mut record {
            // A longer ring ends the replay, so that it is kept for the last call of some lists.
            entry.ring = entry.ring.min(places as u32);
        }
        list.records.push(record);
    }
}

/// "After L, the same for a report of each region and market."
pub fn all_reports(opening: &Opening) -> Vec<Record> {
    let (regions, markets) = (opening.regions.min(8), opening.services.min(10) + 1);
    let places = 0..regions * markets;
    places
        .map(|place| Record::Report {
            region: place / markets,
            market: place % markets,
        })
        .collect()
}

/// A call as a record. A restart's lengths are the list's.
pub fn call_record(call: Call) -> Record {
    match call {
        Call::Entry(entry, ring, table) => Record::Entry(entry_record(entry, ring, table)),
        Call::Threshold(threshold) => Record::Threshold(threshold),
        Call::Limits(cap, floor) => Record::Limits { cap, floor },
        Call::Report(region, market) => Record::Report { region, market },
        Call::Restart(..) => Record::Restart,
    }
}

pub fn entry_record(entry: ledger::Entry, ring: usize, table: Vec<i32>) -> Entry {
    Entry {
        number: entry.number,
        kind: entry.kind,
        prices: entry.prices,
        marks: entry.marks,
        flows: entry.flows,
        factors: entry.factors,
        schedule: entry.schedule,
        table,
        ring: ring as u32,
    }
}

/// What a record's answer takes, if it is played.
pub fn answer_length(record: &Record) -> usize {
    match record {
        Record::Entry(entry) => 18 + 4 * entry.table.len(),
        Record::Report { .. } => 34,
        Record::Damaged(record, _) => answer_length(record),
        _ => 14,
    }
}

/// Mostly enough for every answer, sometimes one byte short, any part or none.
fn answers_room(random: &mut Random, records: &[Record]) -> usize {
    let enough = records.iter().map(answer_length).sum::<usize>().max(1);
    match random.below(20) {
        0 => enough - 1,
        1 => random.below(enough),
        2 => random.below(40),
        _ => enough + random.pick(&[0, 1, 13, 100]),
    }
}

/// Damages one record, or puts one that ends the replay before it; what follows it stays, and is not to be played.
pub fn damage(random: &mut Random, records: &mut Vec<Record>) {
    let place = random.below(records.len());
    let other = random.below(records.len());
    match random.below(12) {
        0 => {
            let opening = records[0].clone();
            records.insert(place, opening);
        }
        1 => {
            records.remove(0);
        }
        2 => {
            let length = random.below(30);
            records.insert(place, Record::Bytes(any_bytes(random, length)));
        }
        3 => records.swap(place, other),
        4 => overlong_ring(random, records),
        _ => {
            let damage = any_damage(random, &records[place]);
            let record = std::mem::replace(&mut records[place], Record::Restart);
            records[place] = damage
                .into_iter()
                .fold(record, |record, damage| record.damaged(damage));
        }
    }
}

/// One entry's ring longer than the book's can be.
fn overlong_ring(random: &mut Random, records: &mut [Record]) {
    let Record::Opening(opening) = &records[0] else {
        return;
    };
    let markets = u64::from(opening.services) + 1;
    let places = u64::from(opening.regions) * markets * u64::from(opening.window);
    let overlong = random.pick(&[places + 1, 2 * places + 1, u64::from(u32::MAX)]) as u32;
    let place = random.below(records.len());
    let mut later = records.iter_mut().skip(place);
    if let Some(Record::Entry(entry)) = later.find(|record| matches!(record, Record::Entry(_))) {
        entry.ring = overlong;
    }
}

/// Something that ends the replay at this record, or nearly does.
fn any_damage(random: &mut Random, record: &Record) -> Vec<Damage> {
    let length = record.bytes().len().max(1);
    let width = length as u32;
    match random.below(8) {
        0 => {
            let menu = [0, 5, 6, 13, 14, width - 1, width + 1, width + 6, u32::MAX];
            vec![Damage::length(random.pick(&menu))]
        }
        1 => {
            vec![Damage::kind(random.pick(&[
                0, 1, 63, 64, 65, 66, 67, 68, 69, 70, 0x0141, 0xFFFF,
            ]))]
        }
        2 => vec![Damage::zero(random.pick(&[1, 2, 128, 255]))],
        3 => vec![Damage::Cut(random.below(length))],
        4 => {
            // Shorter, with a length field that says so.
            let cut = random.below(length);
            vec![Damage::Cut(cut), Damage::length(cut as u32)]
        }
        5 => {
            let extra = random.between(1, 5) as usize;
            let longer = Damage::Longer(any_bytes(random, extra));
            vec![longer, Damage::length(width + extra as u32)]
        }
        6 => vec![another_entry_length(random, &record.bytes())],
        _ => {
            let place = random.below(length);
            vec![Damage::Put(place, any_bytes(random, 1))]
        }
    }
}

/// Another one of an entry's lengths: small, the most, or one whose bytes are as many as they were, counted in 32 bits.
fn another_entry_length(random: &mut Random, record: &[u8]) -> Damage {
    let which = random.below(7);
    let field = record.get(12 + 4 * which..16 + 4 * which);
    let length = field.map_or(0, |four| {
        u32::from_le_bytes([four[0], four[1], four[2], four[3]])
    });
    let wrapping = length.wrapping_add(1 << 30);
    let menu = [0, 1, 2, 3, u32::MAX, 1 << 31, wrapping, wrapping];
    Damage::entry_length(which, random.pick(&menu))
}

pub fn any_bytes(random: &mut Random, length: usize) -> Vec<u8> {
    (0..length).map(|_| random.word() as u8).collect()
}

/// Random bytes, or records of random contents whose kinds and lengths are often right.
pub fn scrambled(random: &mut Random) -> List {
    let opening = calls::unlinked(calls::opening(random));
    let mut records = Vec::new();
    if random.chance(70) {
        records.push(Record::Opening(opening_record(&opening)));
    }
    for _ in 0..random.below(6) {
        let length = random.below(60);
        let bytes = any_bytes(random, length);
        records.push(match random.below(8) {
            0 => Record::Bytes(bytes),
            1 => Record::Threshold(random.word() as i64).damaged(Damage::Put(14, bytes)),
            2 => scrambled_entry(random),
            3 => Record::Restart,
            4 => Record::Restart
                .damaged(Damage::Longer(bytes))
                .damaged(Damage::length(6 + length as u32))
                .damaged(Damage::kind(random.between(64, 70) as u16)),
            _ => Record::Limits {
                cap: random.word() as i32,
                floor: random.word() as i32,
            }
            .damaged(Damage::kind(random.between(66, 68) as u16)),
        });
    }
    let mut lent = lent(random, &opening);
    lent.answers = random.below(300);
    List { records, lent }
}

/// An entry of random contents and small random lengths.
fn scrambled_entry(random: &mut Random) -> Record {
    let mut lengths = || random.below(4);
    let [prices, marks, flows, factors, schedule, table, ring] = [(); 7].map(|()| lengths());
    let mut numbers = |length| -> Vec<i32> { (0..length).map(|_| random.word() as i32).collect() };
    Record::Entry(Entry {
        number: numbers(1)[0] as u32 & 1,
        kind: numbers(1)[0] as u8 & 3,
        prices: numbers(prices),
        marks: numbers(marks).iter().map(|&mark| mark as u8 & 1).collect(),
        flows: numbers(flows),
        factors: numbers(factors)
            .iter()
            .map(|&factor| factor as u32)
            .collect(),
        schedule: numbers(schedule),
        table: numbers(table),
        ring: ring as u32,
    })
}
