//! Store and load against `independent`: damaged images meet the same refusals, and a loaded book goes on alike.

use fast::Book;
use generator::{calls, images, Random};
use independent::image::{first_refusal, Fields};
use independent::{Call, Kind, Ledger};

/// The ring length that an image asks for, if it can be told.
fn ring_of(image: &[u8]) -> usize {
    if first_refusal(image, None).is_ok() {
        Fields::read(image).shape().ring()
    } else {
        0
    }
}

/// "Loading puts the oldest at the window's first place, zeroes the others".
fn ring_after(image: &[u8]) -> Vec<i32> {
    let fields = Fields::read(image);
    let shape = fields.shape();
    let (mut ring, mut prices) = (Vec::new(), fields.prices.iter());
    for place in 0..shape.prices() {
        let count = usize::from(fields.counts[place / shape.markets()]);
        ring.extend(prices.by_ref().take(count));
        ring.resize((place + 1) * shape.window, 0);
    }
    ring
}

/// Loads by both, into a ring lent full of a number that no image holds.
fn load(image: &[u8], length: usize) -> Option<(Book, Vec<i32>)> {
    let mut ring = vec![-77; length];
    let expected = first_refusal(image, Some(length));
    let loaded = Book::load(image, &mut ring);
    let refusal = loaded.as_ref().err();
    let found = refusal.map(|refusal| (refusal.number, refusal.place));
    assert_eq!(
        found,
        expected
            .err()
            .map(|refusal| (refusal.number, refusal.place))
    );
    match loaded {
        Ok(_) => assert_eq!(ring, ring_after(image)),
        Err(_) => assert!(ring.iter().all(|&price| price == -77)),
    }
    loaded.ok().map(|book| (book, ring))
}

#[test]
fn loads() {
    let mut accepted = 0;
    for seed in 0..20_000 {
        let mut random = Random::new(0x1000_0000 + seed);
        let image = match random.below(5) {
            0 => images::scrambled(&mut random),
            1 => images::composed(&mut random),
            _ => {
                let image = images::composed(&mut random);
                images::damaged(&mut random, &image)
            }
        };
        let right = ring_of(&image);
        load(&image, right + random.pick(&[1, 2]));
        if let Some((book, ring)) = load(&image, right) {
            accepted += 1;
            let mut buffer = vec![0x5A; image.len() + 3];
            let store = match image[4] {
                1 => Book::store_kind_1,
                _ => Book::store,
            };
            assert_eq!(store(&book, &ring, &mut buffer), Ok(image.len()));
            assert_eq!(buffer, [&image[..], &[0x5A; 3]].concat());
            let short = &mut buffer[..image.len() - 1];
            assert_eq!(
                store(&book, &ring, short).map_err(|refusal| refusal.number),
                Err(23)
            );
        }
    }
    assert!(accepted > 3_000);
}

/// Takes an entry by the fast book and by the ledger: the same count, refusal and table.
fn enter(book: &mut Book, ring: &mut [i32], ledger: &mut Ledger, call: &Call) {
    let Call::Entry(entry, _, table) = call else {
        return;
    };
    let (mut found, mut expected) = (table.clone(), table.clone());
    let lent = fast::Entry {
        number: entry.number,
        kind: entry.kind,
        prices: &entry.prices,
        marks: &entry.marks,
        flows: &entry.flows,
        factors: &entry.factors,
        schedule: &entry.schedule,
    };
    let count = book.enter(ring, &lent, &mut found);
    let answer = ledger.enter(ring.len(), entry.clone(), &mut expected);
    let refusal = |refusal: fast::Refusal| (refusal.number, refusal.place);
    let count_expected = answer.map_err(|refusal| (refusal.number, refusal.place));
    assert_eq!(count.map_err(refusal), count_expected);
    assert_eq!(found, expected);
}

/// From any image, many of which no list leads to (10,000,000 entries among them), a few entries, and the image after them.
#[test]
fn loaded_books_go_on() {
    let mut full = 0;
    for seed in 0..3_000 {
        let mut random = Random::new(0x2000_0000 + seed);
        let image = images::composed(&mut random);
        let length = ring_of(&image);
        let (mut book, mut ring) = load(&image, length).expect("a valid image");
        let mut ledger = Ledger::load(&image, length).expect("a valid image");
        for _ in 0..6 {
            let call = calls::call(&mut random, &ledger);
            enter(&mut book, &mut ring, &mut ledger, &call);
        }
        full += u32::from(book.entries == 10_000_000);
        let expected = ledger.image_by(Kind::Two);
        let mut buffer = vec![0; expected.len()];
        assert_eq!(book.store(&ring, &mut buffer), Ok(buffer.len()));
        assert_eq!(buffer, expected);
    }
    assert!(full > 100);
}
