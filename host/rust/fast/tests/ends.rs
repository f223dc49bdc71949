//! Where a replay ends: calls and answers cut at every place, room of every length, and every byte of a list changed.

mod written;

use generator::{calls, Random};
use independent::{Call, Ledger};
use written::{replay, Lent};

/// A list over a small book, opening first, and the room that just suffices for it.
fn small_list(seed: u64) -> (Vec<Vec<u8>>, Lent) {
    let mut random = Random::new(seed);
    let mut opening = calls::unlinked(calls::opening(&mut random));
    (opening.window, opening.halves) = (opening.window.min(3), 1);
    opening.first = 2;
    let ring = calls::ring_length(&opening);
    let mut ledger = Ledger::open(&opening, ring).expect("a valid opening");
    let mut records = vec![written::opening(&opening).expect("a valid opening")];
    let mut lent = Lent {
        answers: 14,
        ring,
        other: ring,
        image: 148 + 4 * ring,
        numbers: 0,
        factors: 0,
        table: 0,
    };
    for _ in 0..12 {
        let mut call = calls::call(&mut random, &ledger);
        if let Call::Entry(entry, lent_ring, table) = &mut call {
            *lent_ring = (*lent_ring).min(ring);
            let numbers = entry.prices.len() + entry.flows.len() + entry.schedule.len();
            lent.numbers = lent.numbers.max(numbers);
            lent.factors = lent.factors.max(entry.factors.len());
            lent.table = lent.table.max(table.len());
        }
        let answer = ledger.call(&call);
        lent.answers += written::answer(Some(&call), &answer).len();
        records.push(written::call(&call));
    }
    (records, lent)
}

/// The answers cut into records.
fn cut(answers: &[u8]) -> Vec<&[u8]> {
    let (mut records, mut rest) = (Vec::new(), answers);
    while !rest.is_empty() {
        let length = u32::from_le_bytes([rest[0], rest[1], rest[2], rest[3]]);
        let (record, after) = rest.split_at(length as usize);
        records.push(record);
        rest = after;
    }
    records
}

/// "fewer bytes are left than its length says": as many answers as whole records, whatever follows them.
#[test]
fn calls_cut() {
    for seed in 0..8 {
        let (records, lent) = small_list(seed);
        let list = records.concat();
        let whole = replay(&list, &lent);
        let answers = cut(&whole);
        assert_eq!(answers.len(), records.len());
        let (mut ends, mut end) = (Vec::new(), 0);
        for record in &records {
            end += record.len();
            ends.push(end);
        }
        for length in 0..=list.len() {
            let played = ends.iter().filter(|&&end| end <= length).count();
            assert_eq!(replay(&list[..length], &lent), answers[..played].concat());
        }
    }
}

/// "the answer's record doesn't fit the rest of the answers' buffer"
#[test]
fn answers_cut() {
    for seed in 0..40 {
        let (records, lent) = small_list(seed);
        let list = records.concat();
        let whole = replay(&list, &lent);
        let answers = cut(&whole);
        for length in 0..lent.answers {
            let mut fitting = 0;
            let mut room = length;
            while fitting < answers.len() && answers[fitting].len() <= room {
                room -= answers[fitting].len();
                fitting += 1;
            }
            let shorter = Lent {
                answers: length,
                ..lent
            };
            assert_eq!(replay(&list, &shorter), answers[..fitting].concat());
        }
    }
}

/// Room one place short ends the replay at the first entry that needs it; nothing before it changes.
#[test]
fn room_short() {
    let mut shortened = 0;
    for seed in 0..200 {
        let (records, lent) = small_list(seed);
        let list = records.concat();
        let whole = replay(&list, &lent);
        let short = [
            (
                lent.numbers,
                Lent {
                    numbers: lent.numbers.wrapping_sub(1),
                    ..lent
                },
            ),
            (
                lent.factors,
                Lent {
                    factors: lent.factors.wrapping_sub(1),
                    ..lent
                },
            ),
            (
                lent.table,
                Lent {
                    table: lent.table.wrapping_sub(1),
                    ..lent
                },
            ),
        ];
        for (needed, shorter) in short {
            if needed == 0 {
                continue;
            }
            let played = replay(&list, &shorter);
            assert!(whole.starts_with(&played) && played.len() < whole.len());
            let next = &records[cut(&played).len()];
            assert_eq!(next[4], 65);
            shortened += 1;
        }
    }
    assert!(shortened > 300);
}

/// An entry's ring longer than the book's, an unknown kind, a zero byte that isn't, a length that is not its kind's.
#[test]
fn bad_records() {
    let (records, lent) = small_list(3);
    let whole = replay(&records.concat(), &lent);
    let answers = cut(&whole);
    for (place, record) in records.iter().enumerate() {
        let mut faults: Vec<(usize, u8)> = vec![(4, 63), (4, 70), (5, 1)];
        faults.push((4, if place == 0 { 65 } else { 64 }));
        faults.push((0, record[0].wrapping_add(1)));
        faults.push((0, record[0].wrapping_sub(1)));
        if record[4] <= 65 {
            faults.extend([(11, 1), (11, 255)]);
        }
        if record[4] == 65 {
            faults.extend([(39, 1), (39, 255)]);
        }
        for (byte, value) in faults {
            let mut bad = records.clone();
            bad[place][byte] = value;
            let played = replay(&bad.concat(), &lent);
            assert_eq!(played, answers[..place].concat(), "{place}, byte {byte}");
        }
    }
}

/// Any bytes end in some answers, within bounds and without a panic.
#[test]
fn changed_bytes() {
    let mut random = Random::new(11);
    for seed in 0..2_000 {
        let (records, lent) = small_list(seed);
        let mut list = records.concat();
        for _ in 0..random.between(1, 4) {
            let place = random.below(list.len());
            list[place] = random.word() as u8;
        }
        cut(&replay(&list, &lent));
    }
}
