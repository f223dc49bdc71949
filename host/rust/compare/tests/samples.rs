//! The sample list of calls, which the program `player` is run on: the independent player's answers are those that the
//! program is held to.

use independent::player::{play, Lent};
use std::fs;
use std::path::Path;

/// How long what the program lends is.
const LENT: Lent = Lent {
    answers: 163_840,
    ring: 16_384,
    other: 16_384,
    image: 65_684,
    numbers: 16_384,
    factors: 16_384,
    table: 16_384,
};

/// A file of the program's crate.
fn file(name: &str) -> Vec<u8> {
    let crates = Path::new(env!("CARGO_MANIFEST_DIR")).join("../../../crates");
    fs::read(crates.join("player").join(name)).expect("a file of the program's")
}

#[test]
fn list_of_calls() {
    let played = play(&file("stdin"), &LENT);
    assert_eq!(played.ended, "all played");
    let (answers, rest) = records::split(&played.answers);
    assert!(rest.is_empty());
    let said: Vec<String> = answers.iter().map(|answer| answer.to_string()).collect();
    let expected = [
        "accepted",
        "accepted, count 0, table [100000, 90000, 85000]",
        "accepted, sum 100000, counted 1, mark 1, entries 1",
        "accepted, sum 90000, counted 1, mark 0, entries 1",
        "accepted, sum 85000, counted 1, mark 0, entries 1",
        "accepted",
        "accepted, count 3, table [60000, 54545, 50505]",
        "accepted, sum 100000, counted 1, mark 1, entries 2",
        "accepted, sum 90000, counted 1, mark 0, entries 2",
        "accepted, sum 85000, counted 1, mark 0, entries 2",
        "refused by 18",
        "refused by 44",
        "accepted",
        "refused by 19",
        "accepted",
        "refused by 11, count 0, table [1, 2, 3]",
        "accepted, sum 100000, counted 1, mark 1, entries 2",
        "accepted, sum 90000, counted 1, mark 0, entries 2",
        "accepted, sum 85000, counted 1, mark 0, entries 2",
        "refused by 21, sum 0, counted 0, mark 0, entries 0",
        "accepted, count 3, table [50000, 45455, 42088]",
        "accepted, sum 100000, counted 1, mark 1, entries 3",
        "accepted, sum 90000, counted 1, mark 0, entries 3",
        "accepted, sum 85000, counted 1, mark 0, entries 3",
    ];
    assert_eq!(said, expected);
    assert_eq!(played.answers, file("stdout"));
}
