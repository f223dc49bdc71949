//! One list of calls played by the compiled function and by the independent player, and what is said of a difference.

use crate::cutting::shortest_list;
use generator::lists::List;
use independent::player::{self, Lent, Played};
use records::split;
use std::fmt::{Display, Write};

/// What lent memory holds before the call, to see what stays.
const FILL: u8 = 0xA5;
const FILL_NUMBER: i32 = 0x5A5A_5A5A;

/// How much memory stands behind each lent slice, to see that nothing is written there.
const BEYOND: usize = 16;

/// A slice's memory: lent as far as its length, the rest beyond it.
fn memory<T: Copy>(length: usize, fill: T) -> Vec<T> {
    vec![fill; length + BEYOND]
}

/// Whether every place from one on is as it was.
fn stays<T: PartialEq>(memory: &[T], from: usize, fill: T) -> bool {
    memory[from..].iter().all(|place| *place == fill)
}

/// Whether memory holds what is expected, and is as it was after that.
fn holds<T: PartialEq>(memory: &[T], expected: &[T], fill: T) -> bool {
    memory.starts_with(expected) && stays(memory, expected.len(), fill)
}

/// What the compiled function answers and leaves in lent memory.
struct Compiled {
    written: usize,
    answers: Vec<u8>,
    image: Vec<u8>,
    ring: Vec<i32>,
    other: Vec<i32>,
    scratch_kept: bool,
}

fn compiled(calls: &[u8], lent: &Lent) -> Compiled {
    let mut answers = memory(lent.answers, FILL);
    let mut image = memory(lent.image, FILL);
    let mut ring = memory(lent.ring, FILL_NUMBER);
    let mut other = memory(lent.other, FILL_NUMBER);
    let mut numbers = memory(lent.numbers, FILL_NUMBER);
    let mut factors = memory(lent.factors, FILL_NUMBER as u32);
    let mut table = memory(lent.table, FILL_NUMBER);
    let written = guxhamole::replay(
        calls,
        &mut answers[..lent.answers],
        &mut ring[..lent.ring],
        &mut other[..lent.other],
        &mut image[..lent.image],
        &mut numbers[..lent.numbers],
        &mut factors[..lent.factors],
        &mut table[..lent.table],
    );
    Compiled {
        written,
        answers,
        image,
        ring,
        other,
        scratch_kept: stays(&numbers, lent.numbers, FILL_NUMBER)
            && stays(&factors, lent.factors, FILL_NUMBER as u32)
            && stays(&table, lent.table, FILL_NUMBER),
    }
}

impl Compiled {
    /// What differs from the independent player's, in a few words.
    fn difference(&self, expected: &Played) -> Option<&'static str> {
        let held = [
            (self.written == expected.answers.len(), "bytes written"),
            (holds(&self.answers, &expected.answers, FILL), "answers"),
            (holds(&self.image, &expected.image, FILL), "image"),
            (holds(&self.ring, &expected.ring, FILL_NUMBER), "ring"),
            (
                holds(&self.other, &expected.other, FILL_NUMBER),
                "other ring",
            ),
            (self.scratch_kept, "memory behind the lent slices"),
        ];
        let first = held.iter().find(|(as_expected, _)| !as_expected);
        first.map(|(_, name)| *name)
    }
}

/// What the compiled function answers and the image that it leaves, for lists that take the player too long; nothing is written
/// behind the answers, nor behind what is lent.
pub fn answered(calls: &[u8], lent: &Lent) -> (Vec<u8>, Vec<u8>) {
    let mut played = compiled(calls, lent);
    let kept = played.scratch_kept
        && stays(&played.answers, played.written, FILL)
        && stays(&played.image, lent.image, FILL)
        && stays(&played.ring, lent.ring, FILL_NUMBER)
        && stays(&played.other, lent.other, FILL_NUMBER);
    assert!(kept, "memory behind the answers or behind what is lent");
    played.answers.truncate(played.written);
    played.image.truncate(lent.image);
    (played.answers, played.image)
}

/// Both ways of playing a list.
fn both(list: &List) -> (Compiled, Played) {
    let calls = records::bytes(&list.records);
    (
        compiled(&calls, &list.lent),
        player::play(&calls, &list.lent),
    )
}

/// Plays a list both ways: what the independent player leaves. A difference prints the shortest list that shows one.
pub fn same(list: &List) -> Played {
    let differs = |list: &List| {
        let (compiled, expected) = both(list);
        compiled.difference(&expected).is_some()
    };
    let (compiled, expected) = both(list);
    if compiled.difference(&expected).is_some() {
        panic!("{}", described(&shortest_list(list, differs)));
    }
    expected
}

/// A list that shows a difference: a line a call, and both answers where they differ.
fn described(list: &List) -> String {
    let (compiled, expected) = both(list);
    let what = compiled.difference(&expected).unwrap_or("nothing");
    let mut text = format!("replay: a difference in {what}\nlent: {:?}\n", list.lent);
    let (proved, _) = split(&compiled.answers[..compiled.written.min(list.lent.answers)]);
    let (independent, _) = split(&expected.answers);
    for (place, record) in list.records.iter().enumerate() {
        let _ = writeln!(text, "{place}: {record}");
        let answers = [proved.get(place), independent.get(place)];
        if answers[0] != answers[1] {
            for (name, answer) in ["compiled", "independent"].iter().zip(answers) {
                let said = answer.map_or("no answer".to_string(), |answer| answer.to_string());
                let _ = writeln!(text, "     {name}: {said}");
            }
        }
    }
    let (written, of_player) = (compiled.written, expected.answers.len());
    let ended = expected.ended;
    let _ = writeln!(
        text,
        "written: compiled {written}, independent {of_player} ({ended})"
    );
    text += &differing("answers", &compiled.answers, &expected.answers, FILL);
    text += &differing("image", &compiled.image, &expected.image, FILL);
    text += &differing("ring", &compiled.ring, &expected.ring, FILL_NUMBER);
    text += &differing("other ring", &compiled.other, &expected.other, FILL_NUMBER);
    text
}

/// The first few places at which memory differs from what is expected there.
fn differing<T: Copy + PartialEq + Display>(
    name: &str,
    memory: &[T],
    expected: &[T],
    fill: T,
) -> String {
    let all = expected.iter().copied().chain(std::iter::repeat(fill));
    let places = memory.iter().zip(all).enumerate();
    places
        .filter(|(_, (proved, independent))| *proved != independent)
        .take(8)
        .map(|(place, (proved, independent))| {
            format!("{name}, place {place}: compiled {proved}, independent {independent}\n")
        })
        .collect()
}
