//! One additional link (request 2026-10 of document 02) by the compiled functions and by the independent ledger and book: cases worked by
//! hand of limits, ends, lengths, images and records, each with its answer.

use compare::books::{self, plain, take_plain};
use compare::intervals::compiled;
use compare::links::Host;
use compare::typed::{self, Pair};
use guxhamole::raw;
use independent::image::{self, Fields};
use independent::ledger::Entry;
use independent::{Call, Kind, Ledger, Opening, Values};

/// R 3, parents 255, 0, 1, S 0, W 1, H 1, threshold 95,000, limits ±60,000, with a link.
fn guide(from: u8, to: u8) -> Opening {
    Opening {
        from,
        to,
        ..books::guide()
    }
}

/// The ledger after entry 0 at 100,000, 0 and so on, by which region 0 is administered.
fn begun(settings: &Opening) -> Ledger {
    let mut ledger = books::begin(settings);
    let mut prices = vec![0; ledger.shape().prices()];
    prices[0] = 100_000;
    assert_eq!(take_plain(&mut ledger, &prices), (prices, 0));
    ledger
}

/// The book that an image of the ledger's loads to.
fn host(ledger: &Ledger) -> Host {
    Host::load(&ledger.image(), ledger.shape().ring()).expect("a valid image")
}

/// The compiled book that it loads to, and beside it the independent one.
fn pair(ledger: &Ledger) -> Pair {
    let loaded = Pair::load(&ledger.image(), ledger.shape().ring());
    loaded.expect("no difference").expect("a valid image")
}

/// Entry 1 with these prices, flows and factors.
fn second(ledger: &Ledger, prices: &[i32], flows: &[i32], factors: &[u32]) -> Entry {
    Entry {
        flows: flows.to_vec(),
        factors: factors.to_vec(),
        ..plain(ledger, prices)
    }
}

/// What entry 1 answers: number, place, count and table, the same by the ledger, a cached one, the book and the compiled one.
fn entered(
    settings: &Opening,
    prices: &[i32],
    flows: &[i32],
    factors: &[u32],
) -> (u32, u32, u32, Vec<i32>) {
    let mut ledger = begun(settings);
    let entry = second(&ledger, prices, flows, factors);
    let call = Call::Entry(entry, ledger.shape().ring(), vec![7; prices.len()]);
    let cached = ledger.clone().cached().call(&call);
    let kept = host(&ledger).call(&call);
    let compiled = pair(&ledger).call(&call).expect("no difference");
    let answer = ledger.call(&call);
    assert_eq!([&cached, &kept, &compiled], [&answer; 3]);
    let Values::Entry(count, table) = answer.values else {
        panic!("an entry's values");
    };
    (answer.number, answer.place, count, table)
}

/// What entry 1 publishes.
fn published(settings: &Opening, prices: &[i32], flows: &[i32], factors: &[u32]) -> Vec<i32> {
    let (number, _, _, table) = entered(settings, prices, flows, factors);
    assert_eq!(number, 0);
    table
}

const PRICES: [i32; 3] = [100_000, 90_000, 85_000];

/// Power goes A → C → B → A: a limit comes round to where it set out, and stops there. Rounding each link to the cent gives C 49,586.
#[test]
fn a_ring() {
    let answer = entered(&guide(0, 2), &PRICES, &[1; 4], &[11_000; 4]);
    assert_eq!(answer, (0, 0, 3, vec![60_000, 54_545, 49_587]));
}

/// C has two routes: 58,818 by B and 46,154 direct, of which the smaller binds, whichever it is.
#[test]
fn two_routes() {
    let short = published(
        &guide(2, 0),
        &PRICES,
        &[0, 1, 1, 1],
        &[0, 10_100, 10_100, 13_000],
    );
    assert_eq!(short, [60_000, 59_406, 46_154]);
    let long = published(
        &guide(2, 0),
        &PRICES,
        &[0, 1, 1, 1],
        &[0, 11_000, 11_000, 10_500],
    );
    assert_eq!(long, [60_000, 54_545, 49_587]);
}

/// With the flow the other way, or none, the direct route carries nothing to C, whose limit over it would bind.
#[test]
fn against_the_flow() {
    for flow in [-1, 0, i32::MIN] {
        let table = published(
            &guide(2, 0),
            &PRICES,
            &[0, 1, 1, flow],
            &[0, 10_100, 10_100, 13_000],
        );
        assert_eq!(table, [60_000, 59_406, 58_818]);
    }
}

/// The highest floor binds: -63,000 over the link, not -72,600 by B.
#[test]
fn floors() {
    let prices = [-100_000, -90_000, -95_000];
    let table = published(
        &guide(0, 2),
        &prices,
        &[0, -1, -1, 1],
        &[0, 11_000, 11_000, 10_500],
    );
    assert_eq!(table, [-60_000, -66_000, -63_000]);
}

/// The link need not close a ring; flows and factors of regions without parents are not looked at.
#[test]
fn no_parents() {
    let settings = Opening {
        from: 1,
        to: 0,
        ..books::worked(2, 0, 1, 1)
    };
    for (flow, factor) in [(0, 0), (-1, 9_999), (i32::MAX, 20_001)] {
        let flows = [flow, flow, 1];
        let table = published(
            &settings,
            &[100_000, 90_000],
            &flows,
            &[factor, factor, 11_000],
        );
        assert_eq!(table, [60_000, 54_545]);
    }
}

/// The guide's regions as they can be opened, with these ends: the opening's number. An image is refused by 26 and a book by 10 where it
/// is 20.
fn opened(from: u8, to: u8) -> u32 {
    let opening = Opening {
        threshold: 90_000,
        ..guide(from, to)
    };
    let number = Ledger::open(&opening, 3).map_or_else(|refusal| refusal.number, |_| 0);
    let image = Fields::blank(&opening).bytes_by(Kind::Two);
    let loaded = image::check(&image);
    assert_eq!(raw::image_check(&image), loaded);
    let opened = Pair::open(&opening, 3).expect("no difference");
    assert_eq!(opened.map_or_else(|refusal| refusal.number, |_| 0), number);
    let mut book = Host::open(&Opening {
        from: 255,
        to: 255,
        ..opening
    })
    .book;
    (book.from, book.to) = (from, to);
    let fault = book.fault();
    let reported = raw::report(compiled(&book), 0, 0).number;
    match number {
        0 => assert_eq!((loaded, fault, reported), (0, None, 0)),
        _ => assert_eq!((loaded, fault, reported), (26, Some("ends"), 10)),
    }
    number
}

#[test]
fn ends() {
    for (from, to) in [
        (255, 0),
        (0, 255),
        (0, 0),
        (1, 0),
        (0, 1),
        (1, 2),
        (2, 1),
        (3, 0),
        (0, 3),
        (254, 255),
    ] {
        assert_eq!(opened(from, to), 20, "{from}, {to}");
    }
    for (from, to) in [(0, 2), (2, 0), (255, 255)] {
        assert_eq!(opened(from, to), 0, "{from}, {to}");
    }
    let fork = Opening {
        threshold: 90_000,
        parents: books::parents(&[255, 0, 0]),
        ..guide(1, 2)
    };
    assert!(Ledger::open(&fork, 3).is_ok());
    assert!(Pair::open(&fork, 3).expect("no difference").is_ok());
}

/// 17 of the link's factor comes last, whatever its flow and marks; R flows or factors are 11.
#[test]
fn factors_and_lengths() {
    let link = guide(0, 2);
    for flow in [1, 0, -1] {
        let refused = entered(
            &link,
            &PRICES,
            &[1, 1, 1, flow],
            &[0, 11_000, 11_000, 9_999],
        );
        assert_eq!(refused, (17, 3, 0, vec![7; 3]));
    }
    let both = entered(&link, &PRICES, &[1; 4], &[0, 9_999, 11_000, 9_999]);
    assert_eq!(both, (17, 1, 0, vec![7; 3]));
    for (flows, factors) in [(3, 4), (4, 3), (3, 3), (5, 4), (4, 5)] {
        let answer = entered(&link, &PRICES, &vec![1; flows], &vec![11_000; factors]);
        assert_eq!(answer.0, 11, "{flows} flows, {factors} factors");
    }
    assert_eq!(
        entered(&books::guide(), &PRICES, &[1; 4], &[11_000; 4]).0,
        11
    );
}

/// Eight regions and the link have nine places.
#[test]
fn nine_places() {
    let settings = Opening {
        from: 7,
        to: 0,
        parents: [255, 0, 1, 2, 3, 4, 5, 6],
        ..books::worked(8, 0, 1, 1)
    };
    let prices = [100_000; 8];
    assert_eq!(published(&settings, &prices, &[1; 9], &[20_000; 9])[7], 469);
    let mut factors = [10_000; 9];
    factors[8] = 20_001;
    assert_eq!(entered(&settings, &prices, &[1; 9], &factors).1, 8);
    assert_eq!(entered(&settings, &prices, &[1; 8], &[10_000; 8]).0, 11);
}

/// The image of kind 2, byte for byte where it is new, and 47 before 23.
#[test]
fn stores() {
    let ledger = begun(&guide(0, 2));
    let host = host(&ledger);
    let number = |kind, room: usize| {
        let stored = host.store(kind, room).map(|image| image.len());
        let mut buffer = vec![0; room];
        assert_eq!(ledger.store(kind, &mut buffer), stored);
        let (kept, mut image) = (pair(&ledger), vec![0; room]);
        let book = guxhamole::Book::from_raw(*kept.kept().0);
        assert_eq!(typed::store(&book, kind, kept.kept().1, &mut image), stored);
        assert_eq!(image, buffer);
        stored.map_err(|refusal| refusal.number)
    };
    assert_eq!(number(Kind::One, 1_000), Err(47));
    assert_eq!(number(Kind::One, 0), Err(47));
    assert_eq!(number(Kind::Two, 167), Err(23));
    assert_eq!(number(Kind::Two, 168), Ok(168));
    let image = host.store(Kind::Two, 168).expect("room");
    assert_eq!(image, ledger.image());
    assert_eq!(image[..6], [168, 0, 0, 0, 2, 0]);
    assert_eq!(image[148..156], [0, 2, 0, 0, 255, 255, 255, 255]);
    assert_eq!(image[156..], [[160, 134, 1, 0], [0; 4], [0; 4]].concat());
    let restart = |kind, buffer, ring| {
        let call = Call::Restart(kind, buffer, ring);
        let answer = ledger.clone().call(&call);
        assert_eq!(pair(&ledger).call(&call).as_ref(), Ok(&answer));
        answer.number
    };
    assert_eq!(restart(Kind::One, 0, 0), 47);
    assert_eq!(restart(Kind::Two, 167, 0), 23);
    assert_eq!(restart(Kind::Two, 168, 4), 11);
    assert_eq!(restart(Kind::Two, 168, 3), 0);
}

/// What the loader answers to the image with some bytes changed, and its length field right.
fn checked(image: &[u8], length: usize, changes: &[(usize, u8)]) -> u32 {
    let mut image = image[..length].to_vec();
    image[..4].copy_from_slice(&(length as u32).to_le_bytes());
    for &(place, byte) in changes {
        image[place] = byte;
    }
    let loaded = Host::load(&image, 3).map_or_else(|refusal| refusal.number, |_| 0);
    assert_eq!(
        [image::check(&image), raw::image_check(&image)],
        [loaded; 2]
    );
    let pair = Pair::load(&image, 3).expect("no difference");
    assert_eq!(pair.map_or_else(|refusal| refusal.number, |_| 0), loaded);
    loaded
}

#[test]
fn loads() {
    let image = begun(&guide(0, 2)).image();
    let ends = |from, to| checked(&image, 168, &[(148, from), (149, to)]);
    assert_eq!([ends(0, 2), ends(2, 0), ends(255, 255)], [0; 3]);
    assert_eq!(
        [ends(1, 0), ends(255, 2), ends(0, 255), ends(0, 3)],
        [26; 4]
    );
    for (place, byte) in [(150, 1), (151, 1), (152, 0), (153, 0), (154, 254), (155, 0)] {
        assert_eq!(checked(&image, 168, &[(place, byte)]), 26, "{place}");
    }
    assert_eq!(checked(&image, 150, &[]), 24);
    assert_eq!(checked(&image, 155, &[]), 24);
    assert_eq!(checked(&image, 156, &[]), 27);
    assert_eq!(checked(&image, 150, &[(4, 3)]), 25);
    assert_eq!(checked(&image, 168, &[(4, 3)]), 25);
    assert_eq!(checked(&image, 168, &[(4, 1)]), 27);
    assert_eq!(
        checked(&image, 168, &[(156, 255), (157, 255), (158, 255)]),
        16
    );
}

/// Kind 1 called kind 2: its prices would be ends, or it is too short.
#[test]
fn relabelled() {
    let image = begun(&books::guide()).image();
    assert_eq!((image.len(), checked(&image, 160, &[])), (160, 0));
    assert_eq!(checked(&image, 160, &[(4, 2)]), 26);
    let blank = books::begin(&books::guide()).image();
    assert_eq!(checked(&blank, 148, &[(4, 2)]), 24);
}

/// "Kind 1 loads as having no such link, and such a book can be stored back to the very kind 1 image."
#[test]
fn without_the_link() {
    let host = host(&begun(&books::guide()));
    let [one, two] = Kind::ALL.map(|kind| host.store(kind, 200).expect("room"));
    assert_eq!((one.len(), two.len()), (160, 168));
    let [from_one, from_two] =
        [&one, &two].map(|image| Host::load(image, 3).expect("a valid image"));
    assert_eq!(from_one, from_two);
    assert_eq!((from_two.book.from, from_two.book.to), (255, 255));
    assert_eq!(from_two.store(Kind::One, 160).as_ref(), Ok(&one));
    let [by_one, by_two] = [&one, &two].map(|image| {
        let loaded = Pair::load(image, 3).expect("no difference");
        loaded.expect("a valid image")
    });
    assert_eq!(by_one.kept(), by_two.kept());
    assert_eq!(
        [by_one.image_by(Kind::Two), by_two.image_by(Kind::One)],
        [two, one]
    );
}
