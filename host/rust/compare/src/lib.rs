//! What the comparisons share.

pub mod bills;
pub mod books;
pub mod cutting;
pub mod forms;
pub mod hundreds;
pub mod intervals;
pub mod isolation;
pub mod left;
pub mod lent;
pub mod limits;
pub mod links;
pub mod machines;
pub mod playing;
pub mod replay;
pub mod rewriting;
pub mod synthetic;
pub mod twins;
pub mod typed;

use std::io::Write;

/// How many rounds a comparison runs: 1, or as the environment variable GUXHAMOLE_LONG says.
pub fn rounds() -> u64 {
    match std::env::var("GUXHAMOLE_LONG") {
        Ok(rounds) => rounds.parse().expect("GUXHAMOLE_LONG: a number of rounds"),
        Err(_) => 1,
    }
}

/// Says what was compared, where test output is captured too.
pub fn say(line: &str) {
    let _ = writeln!(std::io::stderr(), "{line}");
}
