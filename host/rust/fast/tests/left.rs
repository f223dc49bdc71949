//! The intervals left by the fast book, against the ledger and the book of `independent`: after every entry of lists of calls, and
//! with fields and places that others changed.

mod fields;

use fields::book_of;
use generator::questions::{self, Question};
use generator::{calls, images, Random};
use independent::book::Book as Paper;
use independent::{Call, Ledger, Refusal};
use std::collections::BTreeMap;

/// An independent book with its ring, which a ledger goes beside.
struct Host {
    book: Paper,
    ring: Vec<i32>,
    ledger: Ledger,
}

impl Host {
    fn open(random: &mut Random) -> Host {
        let mut opening = calls::opening(random);
        opening.window = opening.window.min(40);
        let mut ring = vec![0; calls::ring_length(&opening)];
        Host {
            book: Paper::open(&opening, &mut ring).expect("a valid opening"),
            ledger: Ledger::open(&opening, ring.len()).expect("a valid opening"),
            ring,
        }
    }

    fn load(random: &mut Random) -> Host {
        let image = images::composed(random);
        let length = independent::image::Fields::read(&image).shape().ring();
        let mut ring = vec![0; length];
        Host {
            book: Paper::load(&image, &mut ring).expect("a valid image"),
            ledger: Ledger::load(&image, length).expect("a valid image"),
            ring,
        }
    }

    /// An entry or a threshold of a list; other calls change nothing that a question looks at.
    fn call(&mut self, call: &Call) {
        let answer = self.ledger.call(call);
        match call {
            Call::Entry(entry, _, table) if answer.number == 0 => {
                let entered = self.book.enter(&mut self.ring, entry, &mut table.clone());
                assert!(entered.is_ok());
            }
            Call::Threshold(threshold) if answer.number == 0 => {
                assert_eq!(self.book.set_threshold(*threshold), Ok(()));
            }
            _ => {}
        }
    }

    /// The ledger's answer, which is the book's too.
    fn ask(&self, question: &Question) -> Result<u32, Refusal> {
        let mut ring = self.ring.clone();
        ring.resize(question.ring, 0);
        let expected = self.ledger.intervals_left(
            question.ring,
            question.region,
            question.market,
            question.price,
        );
        assert_eq!(ask(&self.book, &ring, question), expected, "{question:?}");
        expected
    }
}

/// Asks the fast book and the independent one: the answer of both.
fn ask(book: &Paper, ring: &[i32], question: &Question) -> Result<u32, Refusal> {
    let (region, market, price) = (question.region, question.market, question.price);
    let expected = book.intervals_left(ring, region, market, price);
    let left = book_of(book).intervals_left(ring, region, market, price);
    let left = left.map_err(|refusal| (refusal.number, refusal.place));
    let told = expected.map_err(|refusal| (refusal.number, refusal.place));
    assert_eq!(left, told, "{question:?}: {book:?}");
    expected
}

fn kind(answer: Result<u32, Refusal>, window: u16) -> &'static str {
    match answer {
        Ok(0) => "none",
        Ok(1) => "1",
        Ok(left) if left == u32::from(window) => "W",
        Ok(_) => "between",
        Err(_) => "refused",
    }
}

#[test]
fn lists() {
    let mut met: BTreeMap<&str, u64> = BTreeMap::new();
    for seed in 0..800 {
        let mut random = Random::new(0x5000_0000 + seed);
        let mut host = match random.below(5) {
            0 => Host::load(&mut random),
            _ => Host::open(&mut random),
        };
        for _ in 0..40 {
            let call = calls::call(&mut random, &host.ledger);
            host.call(&call);
            let answer = host.ask(&questions::question(&mut random, &host.ledger));
            *met.entry(kind(answer, host.book.window)).or_default() += 1;
        }
    }
    for kind in ["none", "1", "between", "W", "refused"] {
        let times = met.get(kind).copied().unwrap_or(0);
        assert!(times >= 500, "{kind}: met {times} times");
    }
}

/// A place of the ring or a field of the book that others changed.
#[test]
fn changed() {
    let mut met: BTreeMap<u32, u64> = BTreeMap::new();
    for seed in 0..1_500 {
        let mut random = Random::new(0x5100_0000 + seed);
        let mut host = Host::open(&mut random);
        for _ in 0..random.below(30) {
            let call = calls::call(&mut random, &host.ledger);
            host.call(&call);
        }
        for _ in 0..8 {
            let mut question = questions::question(&mut random, &host.ledger);
            if random.chance(20) {
                question.price = questions::wrong_price(&mut random, question.market);
            }
            let (mut book, mut ring) = (host.book.clone(), host.ring.clone());
            let place = random.below(ring.len());
            match random.below(4) {
                0 => book = generator::intervals::damaged_book(&mut random, &book),
                1 => book.sums[random.below(11)] += 1,
                2 => ring[place] = random.pick(&[i32::MIN, -10_000_001, -1, 10_000_001]),
                _ => ring[place] ^= 1,
            }
            ring.resize(question.ring, 0);
            let number = ask(&book, &ring, &question).map_or_else(|refusal| refusal.number, |_| 0);
            *met.entry(number).or_default() += 1;
        }
    }
    for number in [0, 10, 11, 21, 22, 43] {
        let times = met.get(&number).copied().unwrap_or(0);
        assert!(times >= 50, "{number}: met {times} times");
    }
}
