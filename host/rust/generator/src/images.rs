//! Images: valid ones and damaged ones; of books without entries, with which a list may begin, and of others.

use crate::calls;
use crate::random::Random;
use independent::image::{Fields, HEAD};
use independent::rules::NO_PARENT;
use independent::{Kind, Ledger, Opening};

/// The settings of a book without entries and with no period marked; an image of them loads, whatever their threshold.
pub fn settings(random: &mut Random) -> Opening {
    let mut settings = calls::opening(random);
    settings.threshold = calls::held_threshold(random, settings.cap);
    settings
}

/// An image of such a book: a list may begin with it.
pub fn blank(random: &mut Random) -> Vec<u8> {
    let settings = settings(random);
    blank_of(random, &settings)
}

/// An image of a book of these settings.
pub fn blank_of(random: &mut Random, settings: &Opening) -> Vec<u8> {
    let kind = calls::image_kind(random, &settings.shape());
    Fields::blank(settings).bytes_by(kind)
}

/// A ledger with which a list begins: opened, or from an image.
pub fn begun(random: &mut Random) -> Ledger {
    if random.chance(60) {
        return calls::opened(random);
    }
    let settings = settings(random);
    begun_with(random, &settings)
}

/// A ledger that begins with an image of a book of these settings.
pub fn begun_with(random: &mut Random, settings: &Opening) -> Ledger {
    let image = blank_of(random, settings);
    match Ledger::begin(&image, calls::ring_length(settings)) {
        Ok(Some(ledger)) => ledger,
        refused => panic!("{settings:?}: {refused:?}"),
    }
}

/// An image that a list of calls leads to.
pub fn listed(random: &mut Random) -> Vec<u8> {
    let begun = begun(random);
    let length = random.below(14);
    let (_, ledger) = calls::list(random, &begun, length);
    let kind = calls::image_kind(random, ledger.shape());
    ledger.image_by(kind)
}

/// A valid image put together field by field; many of these no list leads to.
pub fn composed(random: &mut Random) -> Vec<u8> {
    let settings = settings(random);
    let fields = composed_of(random, &settings);
    let kind = calls::image_kind(random, &fields.shape());
    fields.bytes_by(kind)
}

/// The fields of such an image, of a book of these settings but with a window that is not long.
pub fn composed_of(random: &mut Random, opening: &Opening) -> Fields {
    let (regions, markets) = (opening.regions as usize, opening.services as usize + 1);
    let window = opening.window.min(40);
    let most = window.min(6) as i64;
    let entries = match random.below(6) {
        0 => random.between(0, 3) as u32,
        1 => random.pick(&[9_999_998, 9_999_999, 10_000_000]),
        _ => random.between(0, 10_000_000) as u32,
    };
    let mut fields = Fields {
        window: window as u16,
        entries,
        ..Fields::blank(opening)
    };
    for region in 0..regions {
        let wanted = match random.below(4) {
            0 => 0,
            1 => most,
            _ => random.between(0, most),
        };
        fields.counts[region] = wanted.min(entries.into()) as u16;
        for market in 0..markets {
            fields.periods[11 * region + market] = random.chance(30).into();
            for _ in 0..fields.counts[region] {
                let price = random.pick(&[0, 1, 250, 60_000, 9_999_999, 10_000_000]);
                let negative = market == 0 && random.chance(50);
                fields.prices.push(if negative { -price } else { price });
            }
        }
    }
    fields
}

/// Writes a little-endian number where the image has room for it.
fn put(image: &mut [u8], offset: usize, width: usize, value: i64) {
    if offset + width <= image.len() {
        image[offset..offset + width].copy_from_slice(&value.to_le_bytes()[..width]);
    }
}

/// Makes the length field the image's length.
pub fn mend_length(image: &mut [u8]) {
    let length = image.len() as i64;
    put(image, 0, 4, length);
}

/// The count of prices that the image's counts and markets ask for, where its head is there.
fn prices_wanted(image: &[u8]) -> usize {
    let two = |offset: usize| usize::from(u16::from_le_bytes([image[offset], image[offset + 1]]));
    let counts: usize = (0..8).map(|region| two(44 + 2 * region)).sum();
    counts * (usize::from(image[7]) + 1)
}

/// Where the prices of an image of its kind begin.
fn head(image: &[u8]) -> usize {
    match image[4..6] {
        [2, 0] => Kind::Two.head(),
        _ => HEAD,
    }
}

/// Gives the image the length that its counts ask for, if that is not long.
fn mend_prices(image: &mut Vec<u8>) {
    if image.len() >= HEAD {
        let wanted = prices_wanted(image);
        if wanted <= 1_000 {
            image.resize(head(image) + 4 * wanted, 0);
            mend_length(image);
        }
    }
}

/// One field set to a bound, one past it, or a wild value.
fn damage_field(random: &mut Random, image: &mut [u8]) {
    if image.len() < HEAD {
        return;
    }
    let (regions, window, halves) = (image[6], image[8], image[10]);
    let (regions, day) = (i64::from(regions), 6 * i64::from(halves));
    let entries = i64::from(u32::from_le_bytes([
        image[20], image[21], image[22], image[23],
    ]));
    let most = 10_000_000i64;
    let highest = 100_000_000_000i64;
    match random.below(16) {
        0 => put(image, 0, 4, image.len() as i64 + random.between(-1, 1)),
        1 => put(
            image,
            4,
            2,
            random.pick(&[0, 1, 2, 3, 256, 257, 258, 65_535]),
        ),
        2 => put(
            image,
            6,
            1,
            random.pick(&[0, 1, 7, 8, 9, 255, regions - 1, regions + 1]),
        ),
        3 => put(image, 7, 1, random.pick(&[0, 1, 2, 9, 10, 11, 255])),
        4 => put(
            image,
            8,
            2,
            random.pick(&[0, 1, 2, 2_015, 2_016, 2_017, 65_535]),
        ),
        5 => put(image, 10, 1, random.pick(&[0, 1, 2, 47, 48, 49, 255])),
        6 => {
            let offset = random.pick(&[11, 26, 27]);
            put(image, offset, 1, random.pick(&[0, 1, 128, 255]));
        }
        7 => {
            let region = random.below(8);
            let none = i64::from(NO_PARENT);
            let own = region as i64;
            let menu = [0, own - 1, own, own + 1, 7, 8, 254, none];
            put(image, 12 + region, 1, random.pick(&menu));
        }
        8 => {
            let menu = [0, 1, 2, 3, most - 1, most, most + 1, 4_294_967_295];
            put(image, 20, 4, random.pick(&menu));
        }
        9 => {
            let menu = [0, day - 1, day, day + 1, 287, 288, 65_535];
            put(image, 24, 2, random.pick(&menu));
        }
        10 => {
            let menu = [
                0,
                1,
                -1,
                95_000,
                highest - 1,
                highest,
                highest + 1,
                i64::MIN,
                i64::MAX,
            ];
            put(image, 28, 8, random.pick(&menu));
        }
        11 => {
            let menu = [0, 1, -1, most, most + 1, i64::from(i32::MAX), 2_147_483_648];
            put(image, 36, 4, random.pick(&menu));
        }
        12 => {
            let menu = [
                0,
                1,
                -1,
                -most,
                -most - 1,
                i64::from(i32::MIN),
                2_147_483_647,
            ];
            put(image, 40, 4, random.pick(&menu));
        }
        13 => {
            let window = i64::from(window);
            let menu = [
                0,
                1,
                window - 1,
                window,
                window + 1,
                entries,
                entries + 1,
                65_535,
            ];
            let region = random.below(8);
            put(image, 44 + 2 * region, 2, random.pick(&menu));
        }
        14 => put(
            image,
            60 + random.below(88),
            1,
            random.pick(&[0, 1, 2, 255]),
        ),
        _ => {
            let head = head(image);
            let prices = image.len().saturating_sub(head) / 4;
            if prices > 0 {
                let menu = [
                    -1,
                    0,
                    most,
                    most + 1,
                    -most,
                    -most - 1,
                    i64::from(i32::MIN),
                    i64::from(i32::MAX),
                ];
                let place = head + 4 * random.below(prices);
                put(image, place, 4, random.pick(&menu));
            }
        }
    }
}

/// One byte changed, mostly in the head.
fn damage_byte(random: &mut Random, image: &mut [u8]) {
    if image.is_empty() {
        return;
    }
    let place = if random.chance(60) {
        random.below(image.len().min(HEAD))
    } else {
        random.below(image.len())
    };
    image[place] = match random.below(4) {
        0 => image[place] ^ (1 << random.below(8)),
        1 => image[place].wrapping_add(1),
        2 => image[place].wrapping_sub(1),
        _ => random.word() as u8,
    };
}

/// Cut short: at any place, or near the head's end.
fn cut(random: &mut Random, image: &mut Vec<u8>) {
    let length = if random.chance(30) {
        random.between(144, 160) as usize
    } else {
        random.below(image.len() + 1)
    };
    image.truncate(length);
}

/// Made longer by a few bytes, whole prices among them.
fn lengthen(random: &mut Random, image: &mut Vec<u8>) {
    for _ in 0..random.pick(&[1, 2, 3, 4, 8, 44]) {
        image.push(random.word() as u8);
    }
}

/// An image of random bytes, often with the length and kind that let them be looked at.
pub fn scrambled(random: &mut Random) -> Vec<u8> {
    let length = random.pick(&[0, 1, 4, 6, 147, 148, 149, 152, 156, 236, 300]);
    let mut image: Vec<u8> = (0..length).map(|_| random.word() as u8).collect();
    if random.chance(70) {
        mend_length(&mut image);
        put(&mut image, 4, 2, random.pick(&[1, 2]));
    }
    if random.chance(50) {
        let head = image.len().min(HEAD);
        for byte in &mut image[6.min(head)..head] {
            if random.chance(85) {
                *byte = 0;
            }
        }
    }
    image
}

/// A damaged copy: one to three damages, the length field or the whole length mended or not.
pub fn damaged(random: &mut Random, image: &[u8]) -> Vec<u8> {
    let mut image = image.to_vec();
    if random.chance(30) {
        image = damaged_link(random, &image);
    }
    for _ in 0..random.pick(&[1, 1, 1, 2, 3]) {
        match random.below(10) {
            0 => cut(random, &mut image),
            1 => lengthen(random, &mut image),
            2 | 3 => damage_byte(random, &mut image),
            _ => damage_field(random, &mut image),
        }
    }
    match random.below(4) {
        0 => mend_length(&mut image),
        1 => mend_prices(&mut image),
        _ => {}
    }
    image
}

/// A copy with one damage of what kind 2 has more than kind 1: the ends, the zeros, the four bytes that are kept, the kind itself, or a
/// cut about the end of either head. An image of kind 1 may be called one of kind 2.
pub fn damaged_link(random: &mut Random, image: &[u8]) -> Vec<u8> {
    let mut image = image.to_vec();
    let regions = i64::from(image.get(6).copied().unwrap_or_default());
    let ends = [0, 1, 2, regions - 1, regions, 7, 8, 254, 255];
    match random.below(8) {
        0 => put(&mut image, 148, 1, random.pick(&ends)),
        1 => put(&mut image, 149, 1, random.pick(&ends)),
        2 => {
            put(&mut image, 148, 1, random.pick(&ends));
            put(&mut image, 149, 1, random.pick(&ends));
        }
        3 => put(&mut image, 148, 2, random.pick(&[0, 65_535])),
        4 => put(
            &mut image,
            150 + random.below(2),
            1,
            random.pick(&[0, 1, 255]),
        ),
        5 => put(
            &mut image,
            152 + random.below(4),
            1,
            random.pick(&[0, 1, 254, 255]),
        ),
        6 => put(&mut image, 4, 2, random.pick(&[1, 2, 3, 258])),
        _ => {
            image.truncate(random.between(147, 161) as usize);
            put(&mut image, 4, 2, random.pick(&[1, 2, 2, 2, 3]));
            if random.chance(80) {
                mend_length(&mut image);
            }
        }
    }
    image
}
