//! "Interval records from the plant bus", request 2026-01 of document 02, with "Regions in number order", request 2026-08, and the
//! additional link's record of 2026-10; their words are quoted here: a reader that goes from record to record, and a writer. The form
//! before 2026-08 is in `earlier`.

use crate::book::Book;
use crate::rules::*;

/// "Kind 16 heads an interval"
pub(crate) const HEAD: u16 = 16;

/// "Kind 17 is a region"
pub(crate) const REGION: u16 = 17;

/// "In the records they are a kind 18, flow (4) and factor (4), after the last region, read and written exactly when the book has the
/// link"
pub(crate) const LINK: u16 = 18;

/// An entry, "its schedule aside".
#[derive(Clone, Debug, PartialEq, Eq, Hash)]
pub struct Interval {
    pub number: u32,
    pub kind: u8,
    pub prices: Vec<i32>,
    pub marks: Vec<u8>,
    pub flows: Vec<i32>,
    pub factors: Vec<u32>,
}

impl Interval {
    /// The lengths that an entry's slices have; else 11.
    pub(crate) fn fits(&self, shape: &Shape) -> bool {
        self.prices.len() == shape.prices()
            && self.marks.len() == shape.regions
            && self.flows.len() == shape.flows()
            && self.factors.len() == shape.flows()
    }
}

/// "A record, little-endian throughout, is its length (4 bytes, the whole record), a two-byte kind, then the body."
fn record(kind: u16, body: &[u8]) -> Vec<u8> {
    let length = (4 + 2 + body.len()) as u32;
    [&length.to_le_bytes()[..], &kind.to_le_bytes(), body].concat()
}

/// The length that a known kind has in a book of so many markets, counted on a record of zeros. The additional link's kind is known in
/// every book.
pub(crate) fn known_length(kind: u16, markets: usize) -> Option<usize> {
    match kind {
        HEAD => Some(head(0, 0, 0).len()),
        REGION => Some(region(0, 0, 0, 0, &vec![0; markets]).len()),
        LINK => Some(link_record(0, 0).len()),
        _ => None,
    }
}

/// "number (4), day kind (1), regions (1)"
fn head(number: u32, kind: u8, regions: u8) -> Vec<u8> {
    record(
        HEAD,
        &[&number.to_le_bytes()[..], &[kind, regions]].concat(),
    )
}

/// "region (1), mark (1), flow (4), factor (4), M prices (4 each)"
fn region(region: u8, mark: u8, flow: i32, factor: u32, prices: &[i32]) -> Vec<u8> {
    let mut body = vec![region, mark];
    body.extend(flow.to_le_bytes());
    body.extend(factor.to_le_bytes());
    for price in prices {
        body.extend(price.to_le_bytes());
    }
    record(REGION, &body)
}

/// "flow (4) and factor (4)"
fn link_record(flow: i32, factor: u32) -> Vec<u8> {
    record(LINK, &[flow.to_le_bytes(), factor.to_le_bytes()].concat())
}

/// Bytes that are taken from the front.
pub(crate) struct Front<'a> {
    pub(crate) rest: &'a [u8],
}

impl<'a> Front<'a> {
    /// The bytes from a place on; beyond their end there are none.
    pub(crate) fn at(records: &'a [u8], place: usize) -> Front<'a> {
        Front {
            rest: records.get(place..).unwrap_or(&[]),
        }
    }

    fn take(&mut self, length: usize) -> Option<&'a [u8]> {
        let (taken, rest) = self.rest.split_at_checked(length)?;
        self.rest = rest;
        Some(taken)
    }

    /// The next bytes of a body that has them.
    pub(crate) fn field<const WIDTH: usize>(&mut self) -> [u8; WIDTH] {
        let taken = self.take(WIDTH).expect("a body as long as its kind's");
        taken.try_into().expect("the width taken")
    }

    pub(crate) fn byte(&mut self) -> u8 {
        self.field::<1>()[0]
    }

    /// The next record's kind and body: "40: a record missing or cut short, a length below 6 or, for a known kind, another than
    /// it has".
    fn record(&mut self, markets: usize) -> Result<(u16, Front<'a>), Refusal> {
        let mut start = Front { rest: self.rest };
        let (Some(length), Some(kind)) = (start.take(4), start.take(2)) else {
            return Err(refusal(40));
        };
        let length = length
            .iter()
            .rev()
            .fold(0, |n, &b| 256 * n + usize::from(b));
        let kind = u16::from(kind[0]) + 256 * u16::from(kind[1]);
        unless(length >= 6, 40)?;
        let rest = self.take(length).ok_or(refusal(40))?;
        let known = known_length(kind, markets);
        unless(known.is_none_or(|known| known == length), 40)?;
        Ok((kind, Front { rest: &rest[6..] }))
    }

    /// The body of a record of the kind that is due; "41: a kind … that doesn't belong there".
    pub(crate) fn due(&mut self, kind: u16, markets: usize) -> Result<Front<'a>, Refusal> {
        let (found, body) = self.record(markets)?;
        unless(found == kind, 41)?;
        Ok(body)
    }
}

/// The interval at a place of the records, and the place after it: "per record 40, 41", 45.
pub(crate) fn interval_at(
    shape: &Shape,
    records: &[u8],
    at: usize,
) -> Result<(Interval, usize), Refusal> {
    let markets = shape.markets();
    let mut front = Front::at(records, at);
    let mut body = front.due(HEAD, markets)?;
    let (number, kind) = (u32::from_le_bytes(body.field()), body.byte());
    // "or a region total in the head, that doesn't belong there"
    unless(usize::from(body.byte()) == shape.regions, 41)?;
    // "Region records now follow their head as 0, 1 and so on."
    let mut bodies = Vec::new();
    for next in 0..shape.regions {
        let mut body = front.due(REGION, markets)?;
        // "45: a region record that isn't the next region"
        unless(usize::from(body.byte()) == next, 45)?;
        bodies.push(body);
    }
    let mut interval = Interval {
        number,
        kind,
        ..in_order(bodies, markets)
    };
    front.link(shape, &mut interval)?;
    Ok((interval, records.len() - front.rest.len()))
}

impl Front<'_> {
    /// The additional link's flow and factor, "an extra last place", where the book has it.
    pub(crate) fn link(&mut self, shape: &Shape, interval: &mut Interval) -> Result<(), Refusal> {
        if shape.link.is_some() {
            let mut body = self.due(LINK, shape.markets())?;
            interval.flows.push(i32::from_le_bytes(body.field()));
            interval.factors.push(u32::from_le_bytes(body.field()));
        }
        Ok(())
    }
}

impl Book {
    /// "given a book and a place, a call reads one and answers the place after it". What it reads takes the place of what is
    /// lent. "10, 11 … come first; per record 40, 41", and 45, which "in the reader … takes the place of 42".
    pub fn read_interval(
        &self,
        records: &[u8],
        at: usize,
        lent: &mut Interval,
    ) -> Result<usize, Refusal> {
        self.sound()?;
        let shape = self.shape();
        unless(lent.fits(&shape), 11)?;
        let (interval, next) = interval_at(&shape, records, at)?;
        *lent = interval;
        Ok(next)
    }

    /// "our writer goes upward, from the buffer's start": the interval's length. "10, 11 and the writer's 23".
    pub fn write_interval(&self, interval: &Interval, buffer: &mut [u8]) -> Result<usize, Refusal> {
        self.sound()?;
        let shape = self.shape();
        unless(interval.fits(&shape), 11)?;
        let mut bytes = head(interval.number, interval.kind, self.regions);
        for r in 0..shape.regions {
            let prices: Vec<i32> = (0..shape.markets())
                .map(|market| interval.prices[shape.place(r, market)])
                .collect();
            let (mark, flow) = (interval.marks[r], interval.flows[r]);
            bytes.extend(region(r as u8, mark, flow, interval.factors[r], &prices));
        }
        // "after the last region"
        for place in shape.regions..shape.flows() {
            let (flow, factor) = (interval.flows[place], interval.factors[place]);
            bytes.extend(link_record(flow, factor));
        }
        unless(bytes.len() <= buffer.len(), 23)?;
        buffer[..bytes.len()].copy_from_slice(&bytes);
        Ok(bytes.len())
    }
}

/// The four slices from the regions' bodies, upward and behind the region's number.
pub(crate) fn in_order<'a>(
    bodies: impl IntoIterator<Item = Front<'a>>,
    markets: usize,
) -> Interval {
    let mut interval = Interval {
        number: 0,
        kind: 0,
        prices: Vec::new(),
        marks: Vec::new(),
        flows: Vec::new(),
        factors: Vec::new(),
    };
    for mut body in bodies {
        interval.marks.push(body.byte());
        interval.flows.push(i32::from_le_bytes(body.field()));
        interval.factors.push(u32::from_le_bytes(body.field()));
        for _ in 0..markets {
            interval.prices.push(i32::from_le_bytes(body.field()));
        }
    }
    interval
}
