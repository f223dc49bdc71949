//! Interval records, requests 2026-01, 2026-08 and 2026-10 of document 02: a reader, a writer, and a rewriter of the earlier form.
//! Quotations are document 02's.

use crate::book::{unless, Book, Refusal, REGIONS};
use crate::bytes::{decode, eight_at, encode, i32_at, put, u16_at, u32_at};

/// Lengths and kinds of a head and of a region's record before its prices.
const HEAD: usize = 12;
const HEAD_KIND: u64 = 16;
const REGION: usize = 16;
const REGION_KIND: u64 = 17;

/// Length and kind of the additional link's record.
const LINK: usize = 14;
const LINK_KIND: u64 = 18;

/// What a writer is lent, but for its buffer.
#[derive(Clone, Copy, Debug)]
pub struct Interval<'a> {
    pub number: u32,
    pub kind: u8,
    pub prices: &'a [i32],
    pub marks: &'a [u8],
    pub flows: &'a [i32],
    pub factors: &'a [u32],
}

/// What a reader or a draw fills.
#[derive(Debug)]
pub struct IntervalMut<'a> {
    pub prices: &'a mut [i32],
    pub marks: &'a mut [u8],
    pub flows: &'a mut [i32],
    pub factors: &'a mut [u32],
}

/// The place after an interval, its number and its day kind.
#[derive(Clone, Copy, Debug, PartialEq, Eq)]
pub struct Found {
    pub next: usize,
    pub number: u32,
    pub kind: u8,
}

/// Length and kind, a record's first six bytes, as one number; two zero bytes above them.
#[inline]
fn start(length: usize, kind: u64) -> u64 {
    kind << 32 | length as u64
}

/// The bits of length and kind.
const START: u64 = (1 << 48) - 1;

/// "40: a record missing or cut short, a length below 6 or, for a known kind, another than it has"; 41 for another kind than
/// the one that is due. Answers the record's length.
fn check(bytes: &[u8], due: u16, markets: usize) -> Result<usize, Refusal> {
    unless(bytes.len() >= 6, 40)?;
    let (length, kind) = (u32_at(bytes, 0) as usize, u16_at(bytes, 4));
    let known = match u64::from(kind) {
        HEAD_KIND => length == HEAD,
        REGION_KIND => length == REGION + 4 * markets,
        LINK_KIND => length == LINK,
        _ => true,
    };
    unless((6..=bytes.len()).contains(&length) && known, 40)?;
    unless(kind == due, 41)?;
    Ok(length)
}

impl Book {
    /// "a call reads one and answers the place after it": 10, 11, then "per record 40, 41" and 45. An interval is tested as a
    /// whole, and gone through record by record only to find its refusal.
    pub fn read_interval(
        &self,
        records: &[u8],
        at: usize,
        interval: IntervalMut,
    ) -> Result<Found, Refusal> {
        unless(self.valid(), 10)?;
        let lent = [
            interval.marks.len(),
            interval.flows.len(),
            interval.factors.len(),
        ];
        unless(self.slices_right(interval.prices.len(), lent), 11)?;
        self.read_lent(records, at, interval)
    }

    /// A reading by a valid book into slices that have their lengths: from 40 on.
    #[inline]
    pub(crate) fn read_lent(
        &self,
        records: &[u8],
        at: usize,
        interval: IntervalMut,
    ) -> Result<Found, Refusal> {
        let (length, size) = (self.interval_length(), self.region_length());
        let bytes = records.get(at..).unwrap_or_default();
        let whole = bytes.get(..length).unwrap_or_default();
        if !self.in_number_order(whole) {
            return Err(self.refusal_of(bytes, 45));
        }
        let (head, rest) = whole.split_at(HEAD);
        let (regions, link) = self.split_link(rest);
        let rows = interval.prices.chunks_exact_mut(self.markets());
        for (region, (record, row)) in regions.chunks_exact(size).zip(rows).enumerate() {
            interval.marks[region] = record[7];
            interval.flows[region] = i32_at(record, 8);
            interval.factors[region] = u32_at(record, 12);
            decode(&record[REGION..], row);
        }
        if !link.is_empty() {
            let last = usize::from(self.regions);
            interval.flows[last] = i32_at(link, 6);
            interval.factors[last] = u32_at(link, 10);
        }
        Ok(Found {
            next: at + length,
            number: u32_at(head, 6),
            kind: head[10],
        })
    }

    /// "Given book and place, a rewriter takes one interval of the earlier form …, writes it from the buffer's start in the fixed order
    /// … and answers the place after the one taken": 10, 23, then 40 to 42, found as a reading's are.
    pub fn rewrite_interval(
        &self,
        records: &[u8],
        at: usize,
        buffer: &mut [u8],
    ) -> Result<usize, Refusal> {
        unless(self.valid(), 10)?;
        let (length, size) = (self.interval_length(), self.region_length());
        unless(length <= buffer.len(), 23)?;
        let bytes = records.get(at..).unwrap_or_default();
        let whole = bytes.get(..length).unwrap_or_default();
        let Some(places) = self.places(whole) else {
            return Err(self.refusal_of(bytes, 42));
        };
        let (head, rest) = whole.split_at(HEAD);
        let (new_head, new_rest) = buffer[..length].split_at_mut(HEAD);
        new_head.copy_from_slice(head);
        let (regions, link) = self.split_link(rest);
        let (new_regions, new_link) = new_rest.split_at_mut(regions.len());
        for (record, place) in new_regions.chunks_exact_mut(size).zip(places) {
            record.copy_from_slice(&regions[usize::from(place) * size..][..size]);
        }
        new_link.copy_from_slice(link);
        Ok(at + length)
    }

    /// The regions' records behind a head, and the additional link's, of which there is none where the book has none.
    #[inline]
    fn split_link<'a>(&self, rest: &'a [u8]) -> (&'a [u8], &'a [u8]) {
        rest.split_at(rest.len() - self.link_length())
    }

    /// Whether what stands behind the regions' records is what is due there.
    #[inline]
    fn link_right(&self, link: &[u8]) -> bool {
        link.is_empty() || u64::from_le_bytes(eight_at(link, 0)) & START == start(LINK, LINK_KIND)
    }

    /// Whether a head stands before the rest.
    #[inline]
    fn headed(&self, head: &[u8]) -> bool {
        let found = u64::from_le_bytes(eight_at(head, 0)) & START;
        found == start(HEAD, HEAD_KIND) && head[11] == self.regions
    }

    /// Whether every record of an interval is as it must be: length, kind and region, seven bytes, are compared as one number.
    #[inline]
    fn in_number_order(&self, interval: &[u8]) -> bool {
        let Some((head, rest)) = interval.split_at_checked(HEAD) else {
            return false;
        };
        let size = self.region_length();
        let (regions, link) = self.split_link(rest);
        let mut right = self.headed(head) & self.link_right(link);
        for (turn, record) in regions.chunks_exact(size).enumerate() {
            let expected = start(size, REGION_KIND) | (turn as u64) << 48;
            right &= u64::from_le_bytes(eight_at(record, 0)) << 8 == expected << 8;
        }
        right
    }

    /// Which record is each region's, where every record is as it must be in the earlier form: R regions below R are all different where
    /// all of them are met.
    #[inline]
    fn places(&self, interval: &[u8]) -> Option<[u8; REGIONS]> {
        let (head, rest) = interval.split_at_checked(HEAD)?;
        let (regions, link) = self.split_link(rest);
        let mut right = self.headed(head) & self.link_right(link);
        let size = self.region_length();
        let expected = start(size, REGION_KIND);
        let (mut places, mut met) = ([0; REGIONS], 0u32);
        for (turn, record) in regions.chunks_exact(size).enumerate() {
            let found = u64::from_le_bytes(eight_at(record, 0));
            let region = record[6];
            right &= found & START == expected && region < self.regions;
            places[usize::from(region) % REGIONS] = turn as u8;
            met |= 1 << (region % 32);
        }
        (right && met + 1 == 1 << self.regions).then_some(places)
    }

    /// The first refusal of records that are refused; a region is refused by 45 unless it is the next, or by 42, "a region from R up or
    /// given before".
    #[cold]
    fn refusal_of(&self, bytes: &[u8], region_by: u32) -> Refusal {
        let refused = |number: u32| Refusal { number, place: 0 };
        let mut rest = bytes;
        let mut met = 0u32;
        for turn in 0..=u32::from(self.regions) {
            let due = if turn == 0 { HEAD_KIND } else { REGION_KIND };
            let length = match check(rest, due as u16, self.markets()) {
                Ok(length) => length,
                Err(refusal) => return refusal,
            };
            if turn == 0 && rest[11] != self.regions {
                return refused(41);
            }
            if turn > 0 {
                let region = rest[6];
                let right = match region_by {
                    45 => u32::from(region) + 1 == turn,
                    _ => region < self.regions && met >> region & 1 == 0,
                };
                if !right {
                    return refused(region_by);
                }
                met |= 1 << region;
            }
            rest = &rest[length..];
        }
        // All regions are there: it is the additional link's record that is refused.
        match check(rest, LINK_KIND as u16, self.markets()) {
            Err(refusal) => refusal,
            Ok(_) => unreachable!("such an interval is accepted"),
        }
    }

    /// "our writer goes upward, from the buffer's start": 10, 11, 23. Answers the interval's length.
    pub fn write_interval(&self, interval: &Interval, buffer: &mut [u8]) -> Result<usize, Refusal> {
        unless(self.valid(), 10)?;
        let lent = [
            interval.marks.len(),
            interval.flows.len(),
            interval.factors.len(),
        ];
        unless(self.slices_right(interval.prices.len(), lent), 11)?;
        let (length, size) = (self.interval_length(), self.region_length());
        unless(length <= buffer.len(), 23)?;
        let (head, rest) = buffer[..length].split_at_mut(HEAD);
        let regions = usize::from(self.regions);
        let (rest, link) = rest.split_at_mut(regions * size);
        put(head, 0, &start(HEAD, HEAD_KIND).to_le_bytes());
        put(head, 6, &interval.number.to_le_bytes());
        put(head, 10, &[interval.kind, self.regions]);
        let rows = interval.prices.chunks_exact(self.markets());
        for (region, (record, row)) in rest.chunks_exact_mut(size).zip(rows).enumerate() {
            put(record, 0, &start(size, REGION_KIND).to_le_bytes());
            put(record, 6, &[region as u8, interval.marks[region]]);
            put(record, 8, &interval.flows[region].to_le_bytes());
            put(record, 12, &interval.factors[region].to_le_bytes());
            encode(row, &mut record[REGION..]);
        }
        if !link.is_empty() {
            put(link, 0, &start(LINK, LINK_KIND).to_le_bytes());
            put(link, 6, &interval.flows[regions].to_le_bytes());
            put(link, 10, &interval.factors[regions].to_le_bytes());
        }
        Ok(length)
    }

    #[inline]
    fn region_length(&self) -> usize {
        REGION + 4 * self.markets()
    }

    #[inline]
    fn interval_length(&self) -> usize {
        HEAD + usize::from(self.regions) * self.region_length() + self.link_length()
    }

    /// Bytes of the additional link's record, where the book has it.
    #[inline]
    fn link_length(&self) -> usize {
        if self.has_link() {
            LINK
        } else {
            0
        }
    }

    /// 11: the prices' length, and those of marks, flows and factors.
    #[inline]
    pub(crate) fn slices_right(&self, prices: usize, others: [usize; 3]) -> bool {
        let links = self.links();
        prices == self.prices() && others == [usize::from(self.regions), links, links]
    }
}
