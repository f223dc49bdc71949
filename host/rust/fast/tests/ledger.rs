//! `replay` against the ledger of `independent`, on lists of calls from a seed: every answer, byte by byte.

mod written;

use generator::{calls, Random};
use independent::rules::Refusal;
use independent::{Answer, Call, Kind, Ledger, Opening, Report, Values};
use written::{replay, Lent};

/// Room for anything that a list may hold; the image and the other ring as they are told.
fn room(ring: usize, other: usize, image: usize) -> Lent {
    Lent {
        answers: 1 << 17,
        ring,
        other,
        image,
        numbers: 1 << 15,
        factors: 64,
        table: 256,
    }
}

/// What a closed book answers.
fn closed(call: &Call) -> Answer {
    let zeros = Report {
        sum: 0,
        counted: 0,
        mark: 0,
        entries: 0,
    };
    Answer {
        number: 10,
        place: 0,
        values: match call {
            Call::Entry(_, _, table) => Values::Entry(0, table.clone()),
            Call::Report(..) => Values::Report(zeros),
            _ => Values::Nothing,
        },
    }
}

/// A list with restarts over the buffer and ring that `replay` is lent, and no entry lent more than the book's ring: its
/// bytes and its answers'.
fn written_list(
    random: &mut Random,
    opened: &mut Ledger,
    lent: &Lent,
    length: usize,
) -> (Vec<Vec<u8>>, Vec<Vec<u8>>) {
    let ring = opened.shape().ring();
    let (mut calls, mut answers) = (Vec::new(), Vec::new());
    for _ in 0..length {
        let mut call = calls::call(random, opened);
        match &mut call {
            Call::Entry(_, lent_ring, _) => *lent_ring = (*lent_ring).min(ring),
            Call::Restart(kind, image, other) => {
                (*kind, *image, *other) = (Kind::One, lent.image, lent.other.min(ring));
            }
            _ => {}
        }
        let answer = opened.call(&call);
        calls.push(written::call(&call));
        answers.push(written::answer(Some(&call), &answer));
    }
    (calls, answers)
}

fn accepted() -> Answer {
    Answer {
        number: 0,
        place: 0,
        values: Values::Nothing,
    }
}

/// How many of each kind and refusal were compared.
type Seen = std::collections::BTreeMap<(u16, u32), usize>;

fn note(seen: &mut Seen, answers: &[Vec<u8>]) {
    for answer in answers {
        let kind = u16::from_le_bytes([answer[4], answer[5]]);
        let number = u32::from_le_bytes([answer[6], answer[7], answer[8], answer[9]]);
        *seen.entry((kind, number)).or_default() += 1;
    }
}

/// One list over an opened book: rings of the right length or longer, buffers mostly long enough.
fn one_list(seed: u64, length: usize, seen: &mut Seen) {
    let mut random = Random::new(seed);
    let opening = calls::unlinked(calls::opening(&mut random));
    let ring = calls::ring_length(&opening);
    let mut ledger = Ledger::open(&opening, ring).expect("a valid opening");
    let longest = 148 + 4 * ring;
    let image = random.pick(&[
        longest,
        longest,
        longest,
        longest + 9,
        148 + 2 * ring,
        147,
        0,
    ]);
    let other = random.pick(&[ring, ring, ring, ring + 3, ring - 1]);
    let lent = room(ring + random.below(2), other, image);
    let (calls, answers) = written_list(&mut random, &mut ledger, &lent, length);
    let opening_record = written::opening(&opening).expect("a valid opening");
    let opening_answer = written::answer(None, &accepted());
    let played = replay(&[opening_record, calls.concat()].concat(), &lent);
    assert_eq!(
        played,
        [opening_answer, answers.concat()].concat(),
        "seed {seed}"
    );
    note(seen, &answers);
}

#[test]
fn lists() {
    let mut seen = Seen::new();
    for seed in 0..900 {
        one_list(seed, 40, &mut seen);
    }
    for seed in 900..904 {
        one_list(seed, 160, &mut seen);
    }
    let met: [(u16, &[u32]); 5] = [
        (65, &[0, 11, 13, 14, 15, 16, 17]),
        (66, &[0, 18, 44]),
        (67, &[0, 19]),
        (68, &[0, 21]),
        (69, &[0, 11, 23]),
    ];
    for (kind, numbers) in met {
        for &number in numbers {
            let times = seen.get(&(kind, number)).copied().unwrap_or(0);
            assert!(times >= 100, "kind {kind}, {number}: met {times} times");
        }
    }
}

/// Openings around every bound, refused ones too, and what the closed book then answers.
#[test]
fn openings() {
    let mut seen = Seen::new();
    for seed in 0..3_000 {
        let mut random = Random::new(0x09E4_0000 + seed);
        let (opening, lent_ring) = calls::damaged_opening(&mut random);
        let opening = calls::unlinked(opening);
        let Some(opening_record) = written::opening(&opening) else {
            continue;
        };
        let lent = room(lent_ring.min(1 << 18), 0, 0);
        let part = calls::ring_length(&opening).min(lent.ring);
        let opened = Ledger::open(&opening, part);
        let answer = Answer {
            number: opened.as_ref().err().map_or(0, |refusal| refusal.number),
            ..accepted()
        };
        let asked = calls_after(&mut random);
        let after: Vec<Vec<u8>> = match opened {
            Ok(mut ledger) => answers_of(&asked, |call| ledger.call(call)),
            Err(Refusal { .. }) => answers_of(&asked, closed),
        };
        let opening_answer = written::answer(None, &answer);
        note(&mut seen, std::slice::from_ref(&opening_answer));
        let calls: Vec<Vec<u8>> = asked.iter().map(written::call).collect();
        let played = replay(&[opening_record, calls.concat()].concat(), &lent);
        assert_eq!(
            played,
            [opening_answer, after.concat()].concat(),
            "seed {seed}"
        );
    }
    for number in [0, 11, 18, 19, 20, 44] {
        let times = seen.get(&(64, number)).copied().unwrap_or(0);
        assert!(times >= 30, "{number}: met {times} times");
    }
}

fn answers_of(asked: &[Call], mut play: impl FnMut(&Call) -> Answer) -> Vec<Vec<u8>> {
    let answered = asked.iter().map(|call| (call, play(call)));
    answered
        .map(|(call, answer)| written::answer(Some(call), &answer))
        .collect()
}

/// A few calls of every kind that need no book to be made: those of another book, lent no ring, and a restart that an
/// opened book refuses by 23.
fn calls_after(random: &mut Random) -> Vec<Call> {
    let another = calls::opened_unlinked(random);
    let (list, _) = calls::list(random, &another, 6);
    let mut asked = Vec::new();
    for mut call in list {
        match &mut call {
            Call::Entry(_, ring, _) => *ring = 0,
            Call::Restart(kind, image, ring) => (*kind, *image, *ring) = (Kind::One, 0, 0),
            _ => {}
        }
        asked.push(call);
    }
    asked
}

/// The real market's shape, with marks, restarts and periods.
#[test]
fn real_shape() {
    let opening = Opening {
        regions: 5,
        services: 10,
        window: 2_016,
        halves: 48,
        first: 280,
        parents: [255, 0, 1, 1, 3, 255, 255, 255],
        from: 255,
        to: 255,
        threshold: 100_000,
        cap: 60_000,
        floor: -60_000,
    };
    let ring = calls::ring_length(&opening);
    let mut random = Random::new(5);
    let lent = room(ring, ring, 148 + 4 * ring);
    let mut ledger = Ledger::open(&opening, ring).expect("a valid opening");
    let (calls, answers) = written_list(&mut random, &mut ledger, &lent, 60);
    let opening_record = written::opening(&opening).expect("a valid opening");
    let played = replay(&[opening_record, calls.concat()].concat(), &lent);
    let expected = [written::answer(None, &accepted()), answers.concat()].concat();
    assert_eq!(played, expected);
}
