//! Images of kind 2 (request 2026-10 of document 02) by the independent code and by the compiled functions: stored and loaded against kind
//! 1 with eight bytes put in or taken out, whole and damaged, with both round trips; and wrong stores and loads, each told apart many times.

use compare::intervals::compiled;
use compare::lent::Lent;
use compare::links::{opening, Host, ROOM};
use compare::say;
use compare::typed::{self, Pair};
use generator::{calls, images, Random};
use guxhamole::raw;
use independent::image::{self, Fields};
use independent::{Kind, Refusal};
use std::collections::BTreeMap;

/// Where the eight bytes of kind 2 stand.
const NEW: usize = 148;

/// The image of kind 2 from that of kind 1, which knows no ends: `wrong` is what a wrong store does.
fn put_in(one: &[u8], ends: [u8; 2], wrong: &str) -> Vec<u8> {
    let [from, to] = match wrong {
        "ends exchanged" => [ends[1], ends[0]],
        _ => ends,
    };
    let kept = if wrong == "zeros are kept" { 0 } else { 255 };
    let new = [from, to, 0, 0, kept, kept, kept, kept];
    let mut image = match wrong {
        "prices from 148" => [one, &new].concat(),
        _ => [&one[..NEW], &new, &one[NEW..]].concat(),
    };
    images::mend_length(&mut image);
    image[4] = if wrong == "kind stays" { 1 } else { 2 };
    image
}

const WRONG_STORES: [&str; 5] = [
    "ends exchanged",
    "zeros are kept",
    "prices from 148",
    "kind stays",
    "47 after 23",
];

/// What a store answers.
fn stored(host: &Host, kind: Kind, room: usize, wrong: &str) -> Result<Vec<u8>, u32> {
    let mut plain = host.clone();
    (plain.book.from, plain.book.to) = (255, 255);
    let one = plain.store(Kind::One, ROOM).expect("room");
    let refused = kind == Kind::One && host.book.from != 255;
    let image = match kind {
        Kind::One => one,
        Kind::Two => put_in(&one, [host.book.from, host.book.to], wrong),
    };
    let tests = match wrong {
        "47 after 23" => [(image.len() > room, 23), (refused, 47)],
        _ => [(refused, 47), (image.len() > room, 23)],
    };
    match tests.into_iter().find(|(holds, _)| *holds) {
        Some((_, number)) => Err(number),
        None => Ok(image),
    }
}

/// A book after a list, or one that no list leads to.
fn host(random: &mut Random) -> Host {
    let mut opening = opening(random, 6);
    if random.chance(50) {
        opening.threshold = calls::held_threshold(random, opening.cap);
        let image = images::composed_of(random, &opening).bytes_by(Kind::Two);
        let ring = Fields::read(&image).shape().ring();
        return Host::load(&image, ring).expect("a valid image");
    }
    let mut host = Host::open(&opening);
    let opened = independent::Ledger::open(&opening, host.ring.len()).expect("a valid opening");
    let length = random.below(12);
    for call in calls::list(random, &opened, length).0 {
        host.call(&call);
    }
    host
}

#[test]
fn stores() {
    let mut random = Random::new(148);
    let (mut met, mut told) = (BTreeMap::new(), BTreeMap::new());
    for _ in 0..6_000 {
        let host = host(&mut random);
        let kind = random.pick(&Kind::ALL);
        let length = stored(&host, Kind::Two, ROOM, "").expect("room").len();
        let room = random.pick(&[
            0,
            147,
            length - 9,
            length - 8,
            length - 1,
            length,
            length + 7,
        ]);
        let right = host.store(kind, room);
        compiled_stores(&host, kind, room, &right);
        let right = right.map_err(|refusal| refusal.number);
        assert_eq!(stored(&host, kind, room, ""), right, "{host:?}");
        *met.entry((kind, right.as_ref().err().copied().unwrap_or(0)))
            .or_insert(0) += 1;
        for wrong in WRONG_STORES {
            let other = stored(&host, kind, room, wrong) != right;
            *told.entry(wrong).or_insert(0) += usize::from(other);
        }
        round_trips(&host);
    }
    say(&format!("links, stores: {met:?}; told apart {told:?}"));
    assert!(met.values().all(|&times| times > 100) && met.len() == 5);
    assert!(told.values().all(|&times| times > 100));
}

/// The compiled store answers the same, by the crate and by the C face, writes the same image and nothing behind it.
fn compiled_stores(host: &Host, kind: Kind, room: usize, right: &Result<Vec<u8>, Refusal>) {
    let book = guxhamole::Book::from_raw(compiled(&host.book));
    let image = right.as_deref().unwrap_or_default();
    let length = right.as_ref().map(Vec::len).map_err(|refusal| *refusal);
    let mut lent = Lent::filled(room);
    let stored = typed::store(&book, kind, &host.ring, lent.slice_mut());
    assert_eq!(stored, length, "{host:?}");
    assert!(lent.holds(image), "{host:?}");
    let mut lent = Lent::filled(room);
    let answer = raw::Stored {
        number: length.err().map_or(0, |refusal| refusal.number),
        length: image.len() as u64,
    };
    assert_eq!(
        typed::raw_store(&book, kind, &host.ring, lent.slice_mut()),
        answer
    );
    assert!(lent.holds(image), "{host:?}");
}

/// A stored image loads to the same book, its windows turned to their start, and stores to the same bytes, by every kind that holds it;
/// so does the compiled one.
fn round_trips(host: &Host) {
    let shape = host.book.shape();
    for kind in Kind::ALL.into_iter().filter(|kind| kind.holds(&shape)) {
        let image = host.store(kind, ROOM).expect("room");
        let again = Host::load(&image, shape.ring()).expect("a stored image");
        assert_eq!(again.book.sums, host.book.sums);
        assert_eq!(again.book.shape(), shape);
        let pair = Pair::load(&image, shape.ring()).expect("no difference");
        let pair = pair.expect("a stored image");
        for other in Kind::ALL.into_iter().filter(|kind| kind.holds(&shape)) {
            assert_eq!(again.store(other, ROOM), host.store(other, ROOM));
            assert_eq!(Ok(pair.image_by(other)), host.store(other, ROOM));
        }
    }
}

fn named_two(bytes: &[u8]) -> bool {
    bytes.len() > 5 && bytes[4..6] == [2, 0]
}

/// What a load that knows kind 1 alone answers, its 11 aside: kind 2 is to it what kind 3 is.
fn by_kind_1(bytes: &[u8]) -> u32 {
    let mut bytes = bytes.to_vec();
    if named_two(&bytes) {
        bytes[4] = 3;
    }
    image::check(&bytes)
}

/// What a load answers to bytes, its 11 aside.
fn checked(bytes: &[u8], wrong: &str) -> u32 {
    let number = by_kind_1(bytes);
    if number != 25 || !named_two(bytes) || wrong == "kind 2 is unknown" {
        return number;
    }
    if bytes.len() < 156 {
        return if wrong == "kind 2 from 148" { 26 } else { 24 };
    }
    let from = if wrong == "kind 2 from 148" {
        NEW
    } else {
        NEW + 8
    };
    let mut one = [&bytes[..NEW], &bytes[from..]].concat();
    images::mend_length(&mut one);
    one[4] = 1;
    let number = by_kind_1(&one);
    match number {
        26 => 26,
        _ if new_fault(bytes, wrong) => 26,
        _ => number,
    }
}

/// Whether one of bytes 148 to 155 is not as it must be, of a head that is.
fn new_fault(bytes: &[u8], wrong: &str) -> bool {
    let ends = (bytes[148], bytes[149]);
    let (regions, parents) = (bytes[6], &bytes[12..20]);
    let below = |(from, to): (u8, u8)| from < regions && to < regions && from != to;
    let parent = |(child, parent): (u8, u8)| parents[usize::from(child)] == parent;
    let linked = |(from, to): (u8, u8)| match wrong {
        "a child's parent alone" => parent((from, to)),
        "linked ends load" => false,
        _ => parent((from, to)) || parent((to, from)),
    };
    let none = ends == (255, 255) || (wrong == "one 255 is none" && ends.0 == 255);
    let bad_ends = !none && (!below(ends) || linked(ends));
    let zeros = bytes[150] != 0 || bytes[151] != 0;
    let kept = bytes[152..156] != [255; 4];
    match wrong {
        "ends are not tested" => zeros || kept,
        "zeros are not tested" => bad_ends || kept,
        "kept bytes are not tested" => bad_ends || zeros,
        _ => bad_ends || zeros || kept,
    }
}

const WRONG_LOADS: [&str; 8] = [
    "kind 2 is unknown",
    "kind 2 from 148",
    "a child's parent alone",
    "linked ends load",
    "one 255 is none",
    "ends are not tested",
    "zeros are not tested",
    "kept bytes are not tested",
];

/// What 26 says of bytes 148 to 155.
const NEW_FAULTS: [&str; 3] = ["ends", "bytes 150 and 151", "bytes 152 to 155"];

#[test]
fn loads() {
    let mut random = Random::new(156);
    let (mut met, mut told) = (BTreeMap::new(), BTreeMap::new());
    let mut faults = BTreeMap::new();
    for _ in 0..40_000 {
        let host = host(&mut random);
        let kind = calls::image_kind(&mut random, &host.book.shape());
        let mut image = host.store(kind, ROOM).expect("room");
        if random.chance(90) {
            image = images::damaged_link(&mut random, &image);
        }
        if random.chance(25) {
            image = images::damaged(&mut random, &image);
        }
        let number = image::check(&image);
        assert_eq!(checked(&image, ""), number, "{image:?}");
        *met.entry(number).or_insert(0) += 1;
        let fault = (number == 26).then(|| image::head_fault(&image)).flatten();
        if let Some(fault) = fault {
            *faults.entry(fault).or_insert(0) += 1;
        }
        for wrong in WRONG_LOADS {
            *told.entry(wrong).or_insert(0) += usize::from(checked(&image, wrong) != number);
        }
        loaded(&image, number);
    }
    say(&format!(
        "links, loads: answers {met:?}, told apart {told:?}"
    ));
    let often = |number: &u32| met[number] > 50;
    assert!([0, 16, 24, 25, 26, 27].iter().all(often), "{met:?}");
    let often = |fault: &&str| faults[fault] > 100;
    assert!(NEW_FAULTS.iter().all(often), "{faults:?}");
    assert!(told.values().all(|&times| times > 50), "{told:?}");
}

/// An image that loads stores to the same bytes by its own kind; another doesn't load. The compiled check and load answer the same.
fn loaded(image: &[u8], number: u32) {
    assert_eq!(raw::image_check(image), number, "{image:?}");
    let ring = match number {
        0 => Fields::read(image).shape().ring(),
        _ => 0,
    };
    let pair = Pair::load(image, ring).unwrap_or_else(|what| panic!("{what}: {image:?}"));
    match Host::load(image, ring) {
        Ok(host) => {
            let kind = if image[4] == 1 { Kind::One } else { Kind::Two };
            assert_eq!(host.store(kind, image.len()).as_deref(), Ok(image));
            assert_eq!(pair.expect("what loads").image_by(kind), image);
        }
        Err(refusal) if refusal.number == 11 => assert_eq!(number, 16),
        Err(refusal) => assert_eq!(refusal.number, number),
    }
}
