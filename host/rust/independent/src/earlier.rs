//! Interval records of the form before "Regions in number order", request 2026-08 of document 02, whose words are quoted here beside
//! those of 2026-01: the reader as it was, with regions in any order, and the rewriter, which puts whole records into their order and
//! looks at no number in them but the region's. The additional link's record (request 2026-10) stands after the last of them here too.

use crate::book::Book;
use crate::interval::{in_order, known_length, Front, Interval, HEAD, LINK, REGION};
use crate::rules::*;
use std::collections::BTreeMap;

impl Book {
    /// 2026-01's reader: "One head is followed by R region records, each region once, in any order". "10, 11 … come first; per record
    /// 40, 41, 42."
    pub fn read_earlier(
        &self,
        records: &[u8],
        at: usize,
        lent: &mut Interval,
    ) -> Result<usize, Refusal> {
        self.sound()?;
        let (shape, markets) = (self.shape(), self.shape().markets());
        unless(lent.fits(&shape), 11)?;
        let mut front = Front::at(records, at);
        let mut body = front.due(HEAD, markets)?;
        let (number, kind) = (u32::from_le_bytes(body.field()), body.byte());
        // "or a region total in the head, that doesn't belong there"
        unless(usize::from(body.byte()) == shape.regions, 41)?;
        let mut bodies = BTreeMap::new();
        for _ in 0..shape.regions {
            let mut body = front.due(REGION, markets)?;
            let region = usize::from(body.byte());
            // "42: a region from R up or given before"
            unless(region < shape.regions, 42)?;
            unless(bodies.insert(region, body).is_none(), 42)?;
        }
        let mut interval = Interval {
            number,
            kind,
            ..in_order(bodies.into_values(), markets)
        };
        front.link(&shape, &mut interval)?;
        *lent = interval;
        Ok(records.len() - front.rest.len())
    }

    /// "Given book and place, a rewriter takes one interval of the earlier form, refusing by 10, 23, then 40 to 42, writes it from the
    /// buffer's start in the fixed order with the same entry and answers the place after the one taken."
    pub fn rewrite_interval(
        &self,
        records: &[u8],
        at: usize,
        buffer: &mut [u8],
    ) -> Result<usize, Refusal> {
        self.sound()?;
        let (shape, markets) = (self.shape(), self.shape().markets());
        let link = shape.link.map(|_| LINK);
        let due = std::iter::once(HEAD).chain(vec![REGION; shape.regions]);
        let lengths = due
            .chain(link)
            .filter_map(|kind| known_length(kind, markets));
        let needed = lengths.sum();
        unless(buffer.len() >= needed, 23)?;
        let mut front = Front::at(records, at);
        let (head, mut body) = front.whole(HEAD, markets)?;
        let (_number, _day_kind) = (body.field::<4>(), body.byte());
        unless(usize::from(body.byte()) == shape.regions, 41)?;
        let mut given: Vec<(u8, &[u8])> = Vec::new();
        for _ in 0..shape.regions {
            let (record, mut body) = front.whole(REGION, markets)?;
            let region = body.byte();
            let before = given.iter().any(|(earlier, _)| *earlier == region);
            unless(usize::from(region) < shape.regions && !before, 42)?;
            given.push((region, record));
        }
        // "Region records now follow their head as 0, 1 and so on."
        given.sort_by_key(|(region, _)| *region);
        let mut written = vec![head];
        written.extend(given.into_iter().map(|(_, record)| record));
        if link.is_some() {
            written.push(front.whole(LINK, markets)?.0);
        }
        let written = written.concat();
        buffer[..written.len()].copy_from_slice(&written);
        Ok(records.len() - front.rest.len())
    }
}

impl<'a> Front<'a> {
    /// The record of the kind that is due, all its bytes, and its body.
    fn whole(&mut self, kind: u16, markets: usize) -> Result<(&'a [u8], Front<'a>), Refusal> {
        let before = self.rest;
        let body = self.due(kind, markets)?;
        Ok((&before[..before.len() - self.rest.len()], body))
    }
}
