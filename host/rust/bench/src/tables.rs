//! Prints the tables.

use crate::timing::{Cost, Costs};

/// A number with commas.
pub fn grouped(number: usize) -> String {
    let digits = number.to_string();
    let mut grouped = String::new();
    for (place, digit) in digits.chars().enumerate() {
        if place > 0 && (digits.len() - place).is_multiple_of(3) {
            grouped.push(',');
        }
        grouped.push(digit);
    }
    grouped
}

/// Whole nanoseconds, or one decimal below a hundred. Noise may put a difference of times below 0.
fn nanoseconds(cost: f64) -> String {
    if cost.abs() < 100.0 {
        format!("{cost:.1}")
    } else if cost < 0.0 {
        format!("{cost:.0}")
    } else {
        grouped(cost.round() as usize)
    }
}

pub fn head(name: &str) {
    println!("\n{name:<52}{:>22}{:>22}{:>14}", "proved", "fast", "ratio");
}

fn both(cost: &Cost) -> String {
    format!("{} ({})", nanoseconds(cost.median), nanoseconds(cost.least))
}

pub fn row(name: &str, costs: &Costs) {
    let ratio = |proved: f64, fast: f64| format!("{:.1}", proved / fast);
    let ratios = format!(
        "{} ({})",
        ratio(costs.proved.median, costs.fast.median),
        ratio(costs.proved.least, costs.fast.least)
    );
    let (proved, fast) = (both(&costs.proved), both(&costs.fast));
    println!("{name:<52}{proved:>22}{fast:>22}{ratios:>14}");
}

/// The head of rows without a ratio.
pub fn two_head(name: &str) {
    println!("\n{name:<52}{:>22}{:>22}", "proved", "fast");
}

/// Nanoseconds whose ratio says nothing: differences, which may be below 0.
pub fn two_row(name: &str, costs: &Costs) {
    let (proved, fast) = (both(&costs.proved), both(&costs.fast));
    println!("{name:<52}{proved:>22}{fast:>22}");
}

/// Millions of bytes a second, where a call is about so many bytes. The least times are the highest rates.
pub fn rate_row(name: &str, bytes: usize, costs: &Costs) {
    let rate = |cost: f64| grouped((1_000.0 * bytes as f64 / cost).round() as usize);
    let both = |cost: &Cost| format!("{} ({})", rate(cost.median), rate(cost.least));
    let (proved, fast) = (both(&costs.proved), both(&costs.fast));
    println!("{name:<52}{proved:>22}{fast:>22}");
}

/// How many times as much one takes as another.
pub fn over_row(name: &str, one: &Costs, other: &Costs) {
    let times = |one: &Cost, other: &Cost| {
        format!(
            "{:.2} ({:.2})",
            one.median / other.median,
            one.least / other.least
        )
    };
    let (proved, fast) = (
        times(&one.proved, &other.proved),
        times(&one.fast, &other.fast),
    );
    println!("{name:<52}{proved:>22}{fast:>22}");
}
