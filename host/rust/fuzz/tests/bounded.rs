//! The fuzz target on a fixed number of inputs from fixed seeds: valid ones, mutated. GUXHAMOLE_FUZZ in the environment says
//! another number. A difference prints the shortest input found by cutting.

use compare::{cutting, say};
use generator::{calls, images, intervals, lists, Random};
use guxhamole::Book;
use independent::image::Fields;
use std::collections::BTreeMap;
use std::panic::catch_unwind;

/// Inputs of a gate's run.
const RUNS: u64 = 150_000;

fn runs() -> u64 {
    match std::env::var("GUXHAMOLE_FUZZ") {
        Ok(runs) => runs.parse().expect("GUXHAMOLE_FUZZ: a number of runs"),
        Err(_) => RUNS,
    }
}

/// An image that a list leads to or one of any fields.
fn image(random: &mut Random) -> Vec<u8> {
    if random.chance(50) {
        images::listed(random)
    } else {
        images::composed(random)
    }
}

/// An input that is not yet mutated, for each of the four targets.
fn seed(random: &mut Random) -> Vec<u8> {
    match random.below(5) {
        0 => [vec![0], image(random)].concat(),
        1 => {
            let length = random.below(12);
            let list = lists::list(random, length);
            [vec![1; 9], records::bytes(&list.records)].concat()
        }
        2 => interval(random),
        _ => typed(random),
    }
}

/// A book's size, a place, and records: mostly an interval of that book at that place.
fn interval(random: &mut Random) -> Vec<u8> {
    let book = intervals::book(random);
    let reading = intervals::reading(random, &book);
    let ends = match book.shape().link {
        Some((from, to)) => (from << 4 | to) as u8,
        None => 0,
    };
    let at_end = random.below(2) as u8;
    let mut input = vec![3, at_end, book.regions - 1, book.services, ends];
    input.extend([0; 3]);
    input.push(3);
    input.extend((reading.at as u64).to_le_bytes());
    input.extend([0; 9]);
    // The buffer's length: mostly the interval's.
    input.push(random.pick(&[0, 0, 0, 0, 0, 0, 0, 0, 128, 200]));
    input.extend(reading.records);
    input
}

/// A book of bytes, an opening or an image, then calls of random bytes; mostly zeros, which make valid ones.
fn typed(random: &mut Random) -> Vec<u8> {
    let mut input = vec![2, random.below(2) as u8];
    match random.below(3) {
        0 => {
            let image = image(random);
            let mut ring = vec![0; Fields::read(&image).shape().ring()];
            let book = Book::load(&image, &mut ring).expect("a valid image");
            input.push(0);
            input.extend(book.to_bytes());
            input.push(0);
            let few = &ring[..ring.len().min(63)];
            input.push(few.len() as u8);
            input.extend(few.iter().flat_map(|price| price.to_le_bytes()));
        }
        1 => {
            let opening = calls::opening(random);
            let record = records::Record::Opening(lists::opening_record(&opening)).bytes();
            input.push(1);
            input.extend(&record[6..11]);
            input.extend(&record[12..22]);
            input.extend([opening.from, opening.to]);
            input.extend(&record[22..]);
            input.push(0);
        }
        _ => {
            let mut image = image(random);
            image.truncate(60_000);
            input.push(2);
            input.extend((image.len() as u16).to_le_bytes());
            input.extend(image);
            input.push(0);
        }
    }
    for _ in 0..random.below(8) {
        any_call(random, &mut input);
    }
    input
}

/// A bill's bytes: a right one for a day of a few intervals, but for what differs now and then.
fn bill_call(random: &mut Random, input: &mut Vec<u8>) {
    let intervals = random.below(4) as u8;
    input.extend([13, random.pick(&[0, 0, 0, 0, 0, 1, 7, 255]), intervals]);
    for _ in 0..intervals {
        input.extend([0, random.pick(&[0, 0, 0, 1, 1, 2])]);
        few(random, input, &[100_000, 70_001, -500, 7, 7, 10_000_001]);
        few(random, input, &[0, 0, 1, 1, 2]);
        few(random, input, &[1, -1]);
        few(random, input, &[0, 0, 1_000, 1 << 16]);
    }
    if intervals > 0 {
        // A byte of the records: a kind, the region total, a region, a mark, or any.
        let any = random.below(60) as u8;
        let place = random.pick(&[4, 11, 16, 16, 18, 18, 19, any]);
        input.extend([place, 0, random.pick(&[0, 0, 0, 0, 1, 64])]);
    } else {
        input.extend([0, 0]);
    }
    input.push(random.pick(&[0, 0, 0, 0, 0, 0, 0, 3]));
    input.extend([0, 0]);
    for _ in 0..intervals {
        match random.below(6) {
            0 => input.extend([128, 1, 202, 154, 59]), // 1,000,000,001
            _ => input.push(random.below(128) as u8),
        }
        let wrong = random.chance(15).into();
        let mut rest = [0; 3];
        rest[random.below(3)] = wrong;
        input.extend(rest);
    }
    let length = random.pick(&[0, 0, 0, 0, 128, 192]);
    input.extend([length; 4]);
    input.extend([0, 0]);
}

/// One number that repeats, or mostly none.
fn few(random: &mut Random, input: &mut Vec<u8>, menu: &[i32]) {
    match random.chance(50) {
        true => input.push(0),
        false => {
            input.push(1);
            input.extend(random.pick(menu).to_le_bytes());
        }
    }
}

/// One call's bytes: its kind, then numbers that are small, wild or none.
fn any_call(random: &mut Random, input: &mut Vec<u8>) {
    if random.chance(15) {
        return bill_call(random, input);
    }
    input.push(random.below(18) as u8);
    for _ in 0..random.below(60) {
        input.push(match random.below(8) {
            0 => random.word() as u8,
            1 => random.pick(&[1, 127, 128, 191, 192, 255]),
            _ => 0,
        });
    }
}

/// Numbers about which rules turn.
const BOUNDS: [i64; 9] = [
    i64::MIN,
    -10_000_001,
    -10_000_000,
    -1,
    0,
    1,
    10_000_000,
    10_000_001,
    i64::MAX,
];

/// Bytes changed, put in, left out, doubled, and pieces of another input.
fn mutate(random: &mut Random, input: &mut Vec<u8>, other: &[u8]) {
    let place = random.below(input.len());
    match random.below(8) {
        0 | 1 => input[place] ^= 1 << random.below(8),
        2 => input[place] = random.pick(&[0, 1, 2, 7, 8, 9, 10, 11, 127, 128, 255]),
        3 => input.insert(place, random.word() as u8),
        4 => {
            let end = input.len().min(place + 1 + random.below(8));
            input.drain(place..end);
        }
        5 => {
            let number = random.pick(&BOUNDS).to_le_bytes();
            let width = random.pick(&[2, 4, 8]);
            let over = input.iter_mut().skip(place).take(width);
            over.zip(number).for_each(|(byte, new)| *byte = new);
        }
        6 => {
            let end = input.len().min(place + 1 + random.below(40));
            input.extend_from_within(place..end);
        }
        _ => {
            let from = random.below(other.len());
            input.truncate(place.max(1));
            input.extend(&other[from..]);
        }
    }
    if input.is_empty() {
        input.push(0);
    }
}

/// Runs an input; a difference prints the shortest one that shows one.
fn checked(input: &[u8]) -> fuzz::Met {
    let fails = |input: &[u8]| catch_unwind(|| fuzz::run(input)).is_err();
    match catch_unwind(|| fuzz::run(input)) {
        Ok(met) => met,
        Err(_) => {
            let short = cutting::shortest(input, fails);
            panic!("fuzz: a difference; the shortest input found: {short:02x?}");
        }
    }
}

#[test]
fn bounded() {
    let mut met: BTreeMap<(&'static str, u32), u64> = BTreeMap::new();
    let mut random = Random::new(0x30_0000);
    let mut other = seed(&mut random);
    for _ in 0..runs() {
        let mut input = seed(&mut random);
        for _ in 0..random.pick(&[0, 1, 1, 2, 4, 16]) {
            mutate(&mut random, &mut input, &other);
        }
        for answer in checked(&input) {
            *met.entry(answer).or_default() += 1;
        }
        other = input;
    }
    say(&format!("fuzz: {} runs, met {met:?}", runs()));
    if runs() >= RUNS {
        all_met(&met);
    }
}

/// The answers that a run over all inputs must have met.
fn all_met(met: &BTreeMap<(&'static str, u32), u64>) {
    let expected: [(&str, &[u32]); 18] = [
        ("check", &[0, 24, 25, 26]),
        ("load", &[0, 24, 25, 26]),
        ("opening", &[0, 18, 20, 44]),
        ("replay", &[1]),
        ("entry", &[0, 10, 11, 12, 13, 14, 15, 16, 17]),
        ("restart", &[0, 10, 11, 22, 23, 47]),
        ("threshold", &[0, 18, 44]),
        ("limits", &[0, 19]),
        ("report", &[0]),
        ("schedule", &[0]),
        ("text and index", &[0]),
        ("intervals left", &[0, 10, 11, 21, 22, 43]),
        ("draw", &[0, 10, 11]),
        ("bill", &[0, 10, 11, 13, 14, 15, 16, 17, 21, 40, 41, 45, 46]),
        ("wrong bill", &[0]),
        ("read", &[0, 10, 11, 40, 41, 45]),
        ("rewrite", &[0, 10, 23, 40, 41, 42]),
        ("write", &[0, 10, 11, 23]),
    ];
    for (name, numbers) in expected {
        for &number in numbers {
            let times = met.get(&(name, number)).copied().unwrap_or(0);
            assert!(times >= 50, "{name}, {number}: met {times} times");
        }
    }
}
