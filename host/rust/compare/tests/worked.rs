//! "From the guide and the bench": every case of document 01. The books, at threshold 95,000, begin with an image (request 2026-06 of
//! document 02), and are played through the archive, the independent book and the ledger.

use compare::books::*;
use compare::playing::{Playing, Start};
use independent::amount::amount_text;
use independent::index::index;
use independent::maker::{make, Making};
use independent::Opening;

/// Quarters of a total.
fn quarters(total: u32) -> [u32; 4] {
    [total / 4, total / 4, total / 4, total - 3 * (total / 4)]
}

#[test]
fn indexes() {
    let (c, b) = (quarters(4_777), quarters(3_844));
    assert_eq!(index(1_125_000, c, b, 1_359_100), Ok(1_398_100));
    assert_eq!(index(12_500, c, b, 15_100), Ok(15_500));
}

/// The book of these settings, loaded from its image.
fn begun(settings: &Opening) -> Playing {
    Playing::start(Start::blank(settings), false).expect("a valid image")
}

/// The guide's book after entry 0.
fn guide_after_entry_0() -> Playing {
    let mut book = begun(&guide());
    let prices = [100_000, 90_000, 85_000];
    assert_eq!(take_plain(&mut book, &prices), (prices.to_vec(), 0));
    book
}

#[test]
fn guide_cap_passed_on() {
    let mut book = guide_after_entry_0();
    let mut entry = plain(&book.ledger, &[100_000, 90_000, 85_000]);
    entry.flows = vec![0, 1, 1];
    entry.factors = vec![0, 11_000, 10_800];
    assert_eq!(take(&mut book, entry), (vec![60_000, 54_545, 50_505], 3));
}

#[test]
fn guide_no_flow() {
    let mut book = guide_after_entry_0();
    let mut entry = plain(&book.ledger, &[100_000, 90_000, 85_000]);
    entry.flows = vec![0, 0, 1];
    entry.factors = vec![0, 11_000, 10_800];
    assert_eq!(take(&mut book, entry), (vec![60_000, 90_000, 85_000], 1));
}

#[test]
fn guide_floor_passed_on() {
    let mut book = guide_after_entry_0();
    let mut entry = plain(&book.ledger, &[-70_000, -90_000, -85_000]);
    entry.flows = vec![-1, -1, -1];
    entry.factors = vec![0, 11_000, 10_800];
    assert_eq!(take(&mut book, entry), (vec![-60_000, -66_000, -71_280], 3));
}

/// "R 1, otherwise alike, entry 0 100,000, then 50,000", entry 5 at a price: administered at each entry up to 6.
fn administered_with_entry_5(at: i32) -> Vec<u32> {
    let mut book = begun(&worked(1, 0, 1, 1));
    let mut marks = vec![reported(&mut book, 0, 0).2];
    for price in [100_000, 50_000, 50_000, 50_000, 50_000, at] {
        take_plain(&mut book, &[price]);
        marks.push(reported(&mut book, 0, 0).2);
    }
    marks
}

#[test]
fn released_at_the_end_of_the_day() {
    assert_eq!(administered_with_entry_5(50_000), [0, 1, 1, 1, 1, 1, 0]);
    assert_eq!(administered_with_entry_5(95_000), [0, 1, 1, 1, 1, 1, 0]);
    assert_eq!(administered_with_entry_5(95_001), [0, 1, 1, 1, 1, 1, 1]);
}

#[test]
fn marked_interval_left_out() {
    let mut book = begun(&worked(1, 0, 2, 1));
    take_plain(&mut book, &[100]);
    take_plain(&mut book, &[200]);
    take_marked(&mut book, 300);
    assert_eq!(reported(&mut book, 0, 0), (300, 2, 0, 3));
    take_plain(&mut book, &[400]);
    assert_eq!(reported(&mut book, 0, 0), (600, 2, 0, 4));
}

#[test]
fn means() {
    let mut kinds = [0; 28];
    kinds[27] = 1;
    let mut prices = vec![0; 28 * 6];
    prices[27 * 6..].copy_from_slice(&[0, 1, 2, 3, 4, 5]);
    let mean = |prices: &[i32]| {
        let making = Making {
            halves: 1,
            cap: 60_000,
            floor: -60_000,
            energy: true,
            prices,
            kinds: &kinds,
        };
        make(&making).map(|rows| rows[1][0])
    };
    assert_eq!(mean(&prices), Ok(3));
    for price in &mut prices {
        *price = -*price;
    }
    assert_eq!(mean(&prices), Ok(-3));
}

/// The sheet of the sample, from reports and the amount text.
#[test]
fn day_sheet() {
    let mut book = begun(&worked(1, 1, 3, 1));
    take_plain(&mut book, &[100_000, 250]);
    take_plain(&mut book, &[-5_000, 0]);
    let lines: Vec<String> = (0..2)
        .map(|market| {
            let (sum, counted, mark, _) = reported(&mut book, 0, market);
            format!("0,{market},{counted},{},{mark}", amount_text(sum))
        })
        .collect();
    assert_eq!(lines, ["0,0,2,950.00,1", "0,1,2,2.50,0"]);
}
