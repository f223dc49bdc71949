//! Times replays of the beginnings of a list, the two in turn, and takes their differences.

use crate::clock;
use crate::lists::{List, Market};

use std::hint::black_box;

type Replay = fn(
    &[u8],
    &mut [u8],
    &mut [i32],
    &mut [i32],
    &mut [u8],
    &mut [i32],
    &mut [u32],
    &mut [i32],
) -> usize;

/// Records `from` to `to`, the second left out. The list's beginning up to each is timed, so that what stands before and
/// the call itself cancel out.
#[derive(Clone, Copy, Debug)]
pub struct Span {
    pub from: usize,
    pub to: usize,
}

/// Nanoseconds a record: the median of the rounds' differences, and the difference of the least times.
#[derive(Clone, Copy, Debug)]
pub struct Cost {
    pub median: f64,
    pub least: f64,
}

/// Both costs of a span.
#[derive(Clone, Copy, Debug)]
pub struct Costs {
    pub proved: Cost,
    pub fast: Cost,
}

/// What is lent to a replay, touched before anything is timed.
struct Room {
    answers: Vec<u8>,
    ring: Vec<i32>,
    other: Vec<i32>,
    image: Vec<u8>,
    numbers: Vec<i32>,
    factors: Vec<u32>,
    table: Vec<i32>,
}

impl Room {
    fn new(market: &Market, list: &List, other: bool) -> Room {
        let regions = usize::from(market.regions);
        let answer = 18 + 4 * market.prices();
        let other = if other { market.ring() } else { 0 };
        Room {
            answers: vec![1; answer * list.ends.len()],
            ring: vec![1; market.ring()],
            other: vec![1; other],
            image: vec![1; 148 + 4 * market.ring()],
            numbers: vec![1; market.prices() + regions + market.schedule()],
            factors: vec![1; regions],
            table: vec![1; market.prices()],
        }
    }

    fn play(&mut self, replay: Replay, calls: &[u8]) -> usize {
        replay(
            calls,
            &mut self.answers,
            &mut self.ring,
            &mut self.other,
            &mut self.image,
            &mut self.numbers,
            &mut self.factors,
            &mut self.table,
        )
    }

    /// Nanoseconds of one replay.
    fn time(&mut self, replay: Replay, calls: &[u8]) -> f64 {
        let start = clock::now();
        black_box(self.play(replay, black_box(calls)));
        clock::now() - start
    }
}

/// Measures spans of a list. `other` says whether the other ring is lent, so that restarts are taken.
pub fn measure(
    market: &Market,
    list: &List,
    spans: &[Span],
    rounds: usize,
    other: bool,
) -> Vec<Costs> {
    let mut room = Room::new(market, list, other);
    compare(&mut room, list, other);
    let players: [Replay; 2] = [guxhamole::replay, fast::replay];
    // times[player][span] has a round's two times at each place
    let mut times = vec![vec![Vec::new(); spans.len()]; 2];
    for round in 0..rounds {
        for (place, span) in spans.iter().enumerate() {
            for turn in 0..2 {
                let player = (turn + round) % 2;
                let before = room.time(players[player], &list.calls[..list.ends[span.from - 1]]);
                let after = room.time(players[player], &list.calls[..list.ends[span.to - 1]]);
                times[player][place].push((before, after));
            }
        }
    }
    let cost = |player: usize, place: usize| cost_of(&times[player][place], &spans[place]);
    (0..spans.len())
        .map(|place| Costs {
            proved: cost(0, place),
            fast: cost(1, place),
        })
        .collect()
}

fn cost_of(times: &[(f64, f64)], span: &Span) -> Cost {
    let records = (span.to - span.from) as f64;
    let mut differences: Vec<f64> = times.iter().map(|(before, after)| after - before).collect();
    differences.sort_by(f64::total_cmp);
    let least = |times: &mut dyn Iterator<Item = f64>| times.fold(f64::INFINITY, f64::min);
    let before = least(&mut times.iter().map(|(before, _)| *before));
    let after = least(&mut times.iter().map(|(_, after)| *after));
    Cost {
        median: differences[differences.len() / 2] / records,
        least: (after - before) / records,
    }
}

/// Both play the whole list, with the same answers: acceptances, but for restarts that aren't lent the other ring.
fn compare(room: &mut Room, list: &List, other: bool) {
    let written = room.play(fast::replay, &list.calls);
    let expected = room.answers[..written].to_vec();
    room.answers.fill(1);
    let written = room.play(guxhamole::replay, &list.calls);
    assert!(room.answers[..written] == expected, "the answers differ");
    let (mut rest, mut answered) = (&expected[..], 0);
    while !rest.is_empty() {
        let length = u32::from_le_bytes([rest[0], rest[1], rest[2], rest[3]]);
        let number = if rest[4] == 69 && !other { 11 } else { 0 };
        assert!(
            rest[6] == number,
            "call {answered} is refused by {}",
            rest[6]
        );
        rest = &rest[length as usize..];
        answered += 1;
    }
    assert!(
        answered == list.ends.len(),
        "only {answered} calls are played"
    );
}
