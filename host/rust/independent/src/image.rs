//! "The image": writer, checker and reader. Kind 2, with the ends of an additional link, is request 2026-10's of document 02, whose
//! words say so where they are quoted.

use crate::rules::*;

/// An image's fields but for its length, kind and zeros. Any values: a test may write an image that is refused.
#[derive(Clone, Debug, PartialEq, Eq)]
pub struct Fields {
    pub regions: u8,
    pub services: u8,
    pub window: u16,
    pub halves: u8,
    pub parents: [u8; 8],
    /// The ends of the additional link, which an image of kind 1 has no place for.
    pub from: u8,
    pub to: u8,
    pub entries: u32,
    pub position: u16,
    pub threshold: i64,
    pub cap: i32,
    pub floor: i32,
    pub counts: [u16; 8],
    pub periods: [u8; 88],
    pub prices: Vec<i32>,
}

/// "148: for each region and market its counted prices"
pub const HEAD: usize = 148;

/// "Image kind 2 has at 148 the two ends (255, 255 for none), two zeros, at 152 four bytes of 255 kept for 2026-11" (request 2026-10).
const ENDS: usize = 148;
const ZEROS: usize = 150;
const KEPT: usize = 152;

/// The image kinds, in the order that books outgrow them.
#[derive(Clone, Copy, Debug, PartialEq, Eq, PartialOrd, Ord)]
pub enum Kind {
    One,
    Two,
}

impl Kind {
    pub const ALL: [Kind; 2] = [Kind::One, Kind::Two];

    /// The kind field.
    pub fn number(self) -> u16 {
        match self {
            Kind::One => 1,
            Kind::Two => 2,
        }
    }

    /// The kind that a field names.
    fn named(number: u64) -> Option<Kind> {
        match number {
            1 => Some(Kind::One),
            2 => Some(Kind::Two),
            _ => None,
        }
    }

    /// The kind that at least 148 bytes are read by: kind 2 where they name it and have its head, else kind 1.
    fn of(bytes: &[u8]) -> Kind {
        let named = Kind::named(number(bytes, 4, 2));
        let whole = named.filter(|kind| bytes.len() >= kind.head());
        whole.unwrap_or(Kind::One)
    }

    /// Where the prices begin: "and prices from 156" (request 2026-10).
    pub fn head(self) -> usize {
        match self {
            Kind::One => HEAD,
            Kind::Two => 156,
        }
    }

    /// Whether a book can be stored so; else 47.
    pub fn holds(self, shape: &Shape) -> bool {
        self == Kind::Two || shape.link.is_none()
    }

    /// The first kind that a book can be stored by.
    pub fn holding(shape: &Shape) -> Kind {
        match shape.link {
            None => Kind::One,
            Some(_) => Kind::Two,
        }
    }
}

impl Fields {
    /// The image of the first kind that holds the book.
    pub fn bytes(&self) -> Vec<u8> {
        self.bytes_by(Kind::holding(&self.shape()))
    }

    /// "Little-endian. 0: length, 4 bytes. 4: kind 1, 2 bytes. 6: R. 7: S. 8: W, 2 bytes. 10: H. 11: zero. 12: parents.
    /// 20: entries taken, 4 bytes. 24: the next entry's position, 2 bytes; 26: two zeros. 28: threshold, 8 bytes.
    /// 36: cap. 40: floor, 4 bytes each. 44: eight 2-byte counts of prices. 60: 88 period bytes, 0 or 1."
    pub fn bytes_by(&self, kind: Kind) -> Vec<u8> {
        let mut bytes = vec![0; kind.head() + 4 * self.prices.len()];
        let length = bytes.len() as u32;
        let mut put = |offset: usize, field: &[u8]| {
            bytes[offset..offset + field.len()].copy_from_slice(field);
        };
        put(0, &length.to_le_bytes());
        put(4, &kind.number().to_le_bytes());
        put(6, &[self.regions]);
        put(7, &[self.services]);
        put(8, &self.window.to_le_bytes());
        put(10, &[self.halves]);
        put(12, &self.parents);
        put(20, &self.entries.to_le_bytes());
        put(24, &self.position.to_le_bytes());
        put(28, &self.threshold.to_le_bytes());
        put(36, &self.cap.to_le_bytes());
        put(40, &self.floor.to_le_bytes());
        for (region, count) in self.counts.iter().enumerate() {
            put(44 + 2 * region, &count.to_le_bytes());
        }
        put(60, &self.periods);
        if kind == Kind::Two {
            put(ENDS, &[self.from, self.to]);
            put(KEPT, &[255; 4]);
        }
        for (place, price) in self.prices.iter().enumerate() {
            put(kind.head() + 4 * place, &price.to_le_bytes());
        }
        bytes
    }

    /// The fields of at least 148 bytes; whole prices after them. "Kind 1 loads as having no such link" (request 2026-10).
    pub fn read(bytes: &[u8]) -> Fields {
        let number = |offset, width| number(bytes, offset, width);
        let kind = Kind::of(bytes);
        let ends = match kind {
            Kind::One => [NO_END; 2],
            Kind::Two => [bytes[ENDS], bytes[ENDS + 1]],
        };
        let mut fields = Fields {
            regions: number(6, 1) as u8,
            services: number(7, 1) as u8,
            window: number(8, 2) as u16,
            halves: number(10, 1) as u8,
            parents: [0; 8],
            from: ends[0],
            to: ends[1],
            entries: number(20, 4) as u32,
            position: number(24, 2) as u16,
            threshold: number(28, 8) as i64,
            cap: number(36, 4) as u32 as i32,
            floor: number(40, 4) as u32 as i32,
            counts: [0; 8],
            periods: [0; 88],
            prices: Vec::new(),
        };
        fields.parents.copy_from_slice(&bytes[12..20]);
        for region in 0..8 {
            fields.counts[region] = number(44 + 2 * region, 2) as u16;
        }
        fields.periods.copy_from_slice(&bytes[60..148]);
        for price in bytes[kind.head()..].chunks_exact(4) {
            let four = [price[0], price[1], price[2], price[3]];
            fields.prices.push(i32::from_le_bytes(four));
        }
        fields
    }

    /// The book's shape, of fields within their limits.
    pub fn shape(&self) -> Shape {
        Shape {
            regions: self.regions.into(),
            services: self.services.into(),
            window: self.window.into(),
            halves: self.halves.into(),
            parents: self.parents,
            link: link(self.from, self.to),
        }
    }

    /// The image of a book of these settings "without entries and with no period marked" (request 2026-06 of document 02).
    pub fn blank(settings: &Opening) -> Fields {
        Fields {
            regions: settings.regions as u8,
            services: settings.services as u8,
            window: settings.window as u16,
            halves: settings.halves as u8,
            parents: settings.parents,
            from: settings.from,
            to: settings.to,
            entries: 0,
            position: settings.first as u16,
            threshold: settings.threshold,
            cap: settings.cap,
            floor: settings.floor,
            counts: [0; 8],
            periods: [0; 88],
            prices: Vec::new(),
        }
    }

    /// The settings that stand "for the opening's" where the book has no entries and no period marked. Position (first position + t)
    /// mod D of the next entry, t = 0, is the first position.
    pub fn settings(&self) -> Option<Opening> {
        let marked = self.periods.iter().any(|&period| period != 0);
        if self.entries != 0 || marked {
            return None;
        }
        Some(Opening {
            regions: self.regions.into(),
            services: self.services.into(),
            window: self.window.into(),
            halves: self.halves.into(),
            first: self.position.into(),
            parents: self.parents,
            from: self.from,
            to: self.to,
            threshold: self.threshold,
            cap: self.cap,
            floor: self.floor,
        })
    }

    /// "a field in bytes 6 to 147 outside what Open or 10 allows, or a zero byte, unused count or unused period not
    /// zero": the first such field's name. The two zeros and byte 11 are tested by `head_fault`.
    fn fault(&self) -> Option<&'static str> {
        let (regions, services) = (u32::from(self.regions), u32::from(self.services));
        let (window, halves) = (u32::from(self.window), u32::from(self.halves));
        if !regions_allowed(regions) {
            return Some("regions");
        }
        if !services_allowed(services) {
            return Some("services");
        }
        if !window_allowed(window) {
            return Some("window");
        }
        if !halves_allowed(halves) {
            return Some("half-hours");
        }
        if !parents_allowed(&self.parents, regions) {
            return Some("parents");
        }
        if self.entries > MOST_ENTRIES {
            return Some("entries taken");
        }
        if !position_allowed(self.position.into(), halves) {
            return Some("position");
        }
        if !threshold_allowed(self.threshold.into()) {
            return Some("threshold");
        }
        if !cap_allowed(self.cap.into()) {
            return Some("cap");
        }
        if !floor_allowed(self.floor.into()) {
            return Some("floor");
        }
        for region in 0..8 {
            let count = self.counts[region as usize];
            if region >= regions && count != 0 {
                return Some("unused count");
            }
            if u32::from(count) > window {
                return Some("count above window");
            }
            if u32::from(count) > self.entries {
                return Some("count above entries taken");
            }
        }
        for region in 0..8 {
            for market in 0..11 {
                let period = self.periods[(11 * region + market) as usize];
                let used = region < regions && market <= services;
                if used && period > 1 {
                    return Some("period");
                }
                if region >= regions && period != 0 {
                    return Some("period of an unused region");
                }
                if !used && period != 0 {
                    return Some("period of an unused market");
                }
            }
        }
        None
    }
}

/// Why an image is refused by 26: a name for each rule, to see that tests reach them all.
pub const HEAD_FAULTS: [&str; 21] = [
    "byte 11",
    "bytes 26 and 27",
    "regions",
    "services",
    "window",
    "half-hours",
    "parents",
    "entries taken",
    "position",
    "threshold",
    "cap",
    "floor",
    "unused count",
    "count above window",
    "count above entries taken",
    "period",
    "period of an unused region",
    "period of an unused market",
    "ends",
    "bytes 150 and 151",
    "bytes 152 to 155",
];

/// The first fault that 26 names, of at least 148 bytes.
pub fn head_fault(bytes: &[u8]) -> Option<&'static str> {
    if bytes[11] != 0 {
        return Some("byte 11");
    }
    if bytes[26] != 0 || bytes[27] != 0 {
        return Some("bytes 26 and 27");
    }
    let fields = Fields::read(bytes);
    fields.fault().or_else(|| link_fault(bytes, &fields))
}

/// "26 bytes 148 to 155" (request 2026-10). Of kind 1 they are prices.
fn link_fault(bytes: &[u8], fields: &Fields) -> Option<&'static str> {
    if Kind::of(bytes) == Kind::One {
        return None;
    }
    let Fields { from, to, .. } = *fields;
    if !ends_allowed(from, to, &fields.parents, fields.regions.into()) {
        return Some("ends");
    }
    if bytes[ZEROS] != 0 || bytes[ZEROS + 1] != 0 {
        return Some("bytes 150 and 151");
    }
    let kept = &bytes[KEPT..KEPT + 4];
    kept.iter()
        .any(|&byte| byte != 255)
        .then_some("bytes 152 to 155")
}

/// An unsigned little-endian number.
pub(crate) fn number(bytes: &[u8], offset: usize, width: usize) -> u64 {
    let mut value = 0;
    for place in (offset..offset + width).rev() {
        value = value * 256 + u64::from(bytes[place]);
    }
    value
}

/// "Load: 24 under 148 bytes or length field not the lent length; 25 kind; 26 a field in bytes 6 to 147 …; 27 length
/// formula; 11; 16, place counted from 0 among the image's prices." "24 kind 2 under 156 bytes" (request 2026-10). Without a ring, 11 is
/// left out.
pub fn first_refusal(bytes: &[u8], ring_length: Option<usize>) -> Result<(), Refusal> {
    unless(bytes.len() >= HEAD, 24)?;
    unless(number(bytes, 0, 4) == bytes.len() as u64, 24)?;
    let kind = Kind::named(number(bytes, 4, 2));
    unless(kind.is_none_or(|kind| bytes.len() >= kind.head()), 24)?;
    let kind = kind.ok_or(refusal(25))?;
    unless(head_fault(bytes).is_none(), 26)?;
    let fields = Fields::read(bytes);
    let shape = fields.shape();
    // "Length = 148 + 4 × M × (sum of counts)"; "prices from 156, from which 27 then reckons" (request 2026-10).
    let counts: usize = fields.counts.iter().map(|&count| usize::from(count)).sum();
    unless(
        bytes.len() == kind.head() + 4 * shape.markets() * counts,
        27,
    )?;
    if let Some(ring_length) = ring_length {
        unless(ring_length == shape.ring(), 11)?;
    }
    price_refusal(&fields, &shape)
}

/// "16, place counted from 0 among the image's prices"
fn price_refusal(fields: &Fields, shape: &Shape) -> Result<(), Refusal> {
    // "for each region and market its counted prices, oldest first"
    let mut place = 0;
    for region in 0..shape.regions {
        for market in 0..shape.markets() {
            for _ in 0..fields.counts[region] {
                if !price_allowed(market == 0, fields.prices[place]) {
                    return Err(refusal_at(16, place));
                }
                place += 1;
            }
        }
    }
    Ok(())
}

/// "an image check over its own bytes: … 0 or the load's number, 11 left out"
pub fn check(bytes: &[u8]) -> u32 {
    match first_refusal(bytes, None) {
        Ok(()) => 0,
        Err(refusal) => refusal.number,
    }
}
