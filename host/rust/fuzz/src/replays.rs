//! Bytes as a list of calls: lengths of what is lent, then records.

use crate::bytes::Bytes;
use crate::pages::Pages;
use crate::Met;
use independent::player::{self, Lent};

/// The longest list, so that the ledger, which recomputes everything, stays quick.
const LONGEST: usize = 20_000;

/// What the opening's record asks for, a few more or fewer of each, by a byte each.
fn lent(bytes: &mut Bytes, calls: &[u8]) -> Lent {
    let field = |place: usize| usize::from(calls.get(place).copied().unwrap_or(0));
    let (regions, markets) = (field(6).min(8), field(7).min(10) + 1);
    let (window, halves) = ((field(8) + 256 * field(9)).min(64), field(10).min(48));
    let prices = regions * markets;
    let ring = prices * window;
    Lent {
        answers: match bytes.byte() {
            0..=200 => 4 * LONGEST,
            less => 37 * (usize::from(less) - 200),
        },
        ring: bytes.length(ring),
        other: bytes.length(ring),
        image: bytes.length(148 + 4 * ring),
        numbers: bytes.length(prices + regions + prices * 2 * halves),
        factors: bytes.length(regions),
        table: bytes.length(prices),
    }
}

pub fn run(room: &mut [Pages], data: &[u8]) -> Met {
    let (head, calls) = data.split_at(data.len().min(8));
    let calls = &calls[..calls.len().min(LONGEST)];
    let mut head = Bytes::new(head);
    let lent = lent(&mut head, calls);
    let at_end = head.byte().is_multiple_of(2);
    let expected = player::play(calls, &lent);
    let [one, two, three, four, five, six, seven, eight] = room else {
        unreachable!("eight slices")
    };
    let list = one.hold(calls, at_end);
    let answers = two.lend::<u8>(lent.answers, at_end);
    let ring = three.lend::<i32>(lent.ring, at_end);
    let other = four.lend::<i32>(lent.other, at_end);
    let image = five.lend::<u8>(lent.image, at_end);
    let numbers = six.lend::<i32>(lent.numbers, at_end);
    let factors = seven.lend::<u32>(lent.factors, at_end);
    let table = eight.lend::<i32>(lent.table, at_end);
    let written = guxhamole::replay(
        list.lent,
        answers.lent,
        ring.lent,
        other.lent,
        image.lent,
        numbers.lent,
        factors.lent,
        table.lent,
    );
    assert_eq!(written, expected.answers.len(), "bytes written");
    assert!(list.holds(calls), "calls");
    assert!(answers.begins_with(&expected.answers), "answers");
    assert!(image.begins_with(&expected.image), "image");
    assert!(ring.begins_with(&expected.ring), "ring");
    assert!(other.begins_with(&expected.other), "other ring");
    let beside = numbers.stands() && factors.stands() && table.stands();
    assert!(beside, "memory beside what is lent");
    vec![("replay", u32::from(written > 14))]
}
