//! "The ledger machine": the settings of opening and, in order, the accepted entries and settings. No sum, count, next
//! place, position or period is kept, unless a ledger is asked to remember what it would recompute.

use crate::cache::Cache;
use crate::checking::{entry_refusal, market_of};
use crate::image::{self, Kind};
use crate::publishing::{publish, Published};
use crate::rules::*;
use std::iter::repeat_with;

/// What an entry lends, but for ring and table.
#[derive(Clone, Debug, PartialEq, Eq)]
pub struct Entry {
    pub number: u32,
    pub kind: u8,
    pub prices: Vec<i32>,
    pub marks: Vec<u8>,
    pub flows: Vec<i32>,
    pub factors: Vec<u32>,
    pub schedule: Vec<i32>,
}

/// An accepted entry or setting.
#[derive(Clone, Debug, PartialEq, Eq)]
pub(crate) enum Event {
    Entry(Entry),
    Threshold(i64),
    Limits(i32, i32),
}

/// Where the history begins: at an opening, or at an image (without a history, or of one that is no longer known).
#[derive(Clone, Debug, PartialEq, Eq)]
pub(crate) struct Start {
    pub settings: Settings,
    /// The first entry's position.
    pub position: usize,
    /// Entries taken before the start.
    pub entries: u32,
    /// Prices counted at the start, oldest first, a list for each of R × M markets.
    pub counted: Vec<Vec<i32>>,
    /// Whether a market is administered at the start.
    pub administered: Vec<bool>,
}

/// A report's four numbers.
#[derive(Clone, Copy, Debug, PartialEq, Eq)]
pub struct Report {
    pub sum: i64,
    pub counted: u32,
    pub mark: u32,
    pub entries: u32,
}

/// The ledger: the whole history and nothing else. A cached one has the answers that the history would give in its place.
#[derive(Clone, Debug, PartialEq, Eq)]
pub struct Ledger {
    shape: Shape,
    start: Start,
    history: Vec<Event>,
    cache: Option<Cache>,
}

impl Ledger {
    /// "Open: 20 a setting; 11 ring length; 18 threshold; 19 cap or floor", 44 "directly after 18".
    pub fn open(opening: &Opening, ring_length: usize) -> Result<Ledger, Refusal> {
        let setting_allowed = regions_allowed(opening.regions)
            && services_allowed(opening.services)
            && window_allowed(opening.window)
            && halves_allowed(opening.halves)
            && position_allowed(opening.first, opening.halves)
            && parents_allowed(&opening.parents, opening.regions)
            && ends_allowed(opening.from, opening.to, &opening.parents, opening.regions);
        unless(setting_allowed, 20)?;
        unless(ring_length == opening.shape().ring(), 11)?;
        threshold_refusal(opening.threshold)?;
        unless(limits_allowed(opening.cap, opening.floor), 19)?;
        Ok(Ledger::opened(opening))
    }

    /// Request 2026-06 of document 02: "its list may begin with such an image of a book without entries and with no period marked, its
    /// settings standing for the opening's". Loaded into a ring of a length; `None` is an image of another book, with which no list begins.
    pub fn begin(bytes: &[u8], ring_length: usize) -> Result<Option<Ledger>, Refusal> {
        image::first_refusal(bytes, Some(ring_length))?;
        let fields = image::Fields::read(bytes);
        Ok(fields.settings().map(|settings| Ledger::opened(&settings)))
    }

    /// "It keeps the settings of opening": these, as yet with nothing accepted.
    fn opened(opening: &Opening) -> Ledger {
        let shape = opening.shape();
        let start = Start {
            settings: Settings {
                threshold: opening.threshold,
                cap: opening.cap,
                floor: opening.floor,
            },
            position: opening.first as usize,
            entries: 0,
            counted: vec![Vec::new(); shape.prices()],
            administered: vec![false; shape.prices()],
        };
        Ledger::starting(shape, start)
    }

    fn starting(shape: Shape, start: Start) -> Ledger {
        Ledger {
            shape,
            start,
            history: Vec::new(),
            cache: None,
        }
    }

    /// This ledger with a cache: it answers alike, in a time that does not grow with the history.
    pub fn cached(mut self) -> Ledger {
        let mut cache = Cache::new(&self.start);
        for event in self.history.drain(..) {
            cache.note(&self.shape, &event);
        }
        self.cache = Some(cache);
        self
    }

    /// An accepted entry or setting joins the history.
    fn note(&mut self, event: Event) {
        match &mut self.cache {
            Some(cache) => cache.note(&self.shape, &event),
            None => self.history.push(event),
        }
    }

    pub fn shape(&self) -> &Shape {
        &self.shape
    }

    /// "Entries number from 0": as many as were taken.
    pub fn entries_taken(&self) -> u32 {
        self.start.entries + self.entries_since() as u32
    }

    /// Entries taken since the start.
    fn entries_since(&self) -> usize {
        match &self.cache {
            Some(cache) => cache.entries(),
            None => self.past().entries.len(),
        }
    }

    /// The settings at the next entry: "those last set before it, by opening at first".
    pub fn settings(&self) -> Settings {
        match &self.cache {
            Some(cache) => cache.settings(),
            None => {
                let past = self.past();
                past.settings[past.entries.len()]
            }
        }
    }

    /// The next entry's position.
    pub fn position(&self) -> usize {
        position(&self.shape, &self.start, self.entries_since())
    }

    /// A market's counted prices after the last entry, oldest first.
    pub fn counted(&self, region: usize, market: usize) -> Vec<i32> {
        match &self.cache {
            Some(cache) => cache.counted(&self.shape, region, market).to_vec(),
            None => {
                let past = self.past();
                past.counted_before(region, market, past.entries.len())
            }
        }
    }

    /// A market's sum after the last entry.
    fn sum(&self, region: usize, market: usize) -> i128 {
        match &self.cache {
            Some(cache) => cache.sum(&self.shape, region, market),
            None => {
                let past = self.past();
                past.sum_before(region, market, past.entries.len())
            }
        }
    }

    /// A market's sums after one further entry, after two and so on, without end. Nobody makes these entries: they join the past
    /// that this question looks at and not the ledger, so that no bound on entries stops them.
    pub(crate) fn sums_to_come<'a>(
        &'a self,
        region: usize,
        market: usize,
        further: &'a Entry,
    ) -> Box<dyn Iterator<Item = i128> + 'a> {
        match &self.cache {
            Some(cache) => Box::new(cache.sums_to_come(&self.shape, region, market, further)),
            None => {
                let mut past = self.past();
                Box::new(repeat_with(move || {
                    past.entries.push(further);
                    past.sum_before(region, market, past.entries.len())
                }))
            }
        }
    }

    /// Whether a market is administered at the next entry.
    fn administered(&self, region: usize, market: usize) -> bool {
        match &self.cache {
            Some(cache) => cache.administered(&self.shape, region, market),
            None => {
                let past = self.past();
                past.administered(region, market, past.entries.len())
            }
        }
    }

    /// The entry: its refusals in order, then publishing by steps 1 to 4 into the lent table. Answers the count.
    pub fn enter(
        &mut self,
        ring_length: usize,
        entry: Entry,
        table: &mut [i32],
    ) -> Result<u32, Refusal> {
        let taken = self.entries_taken();
        entry_refusal(&self.shape, taken, &entry, ring_length, table.len())?;
        let published = self.published(&entry);
        table.copy_from_slice(&published.table);
        self.note(Event::Entry(entry));
        Ok(published.count)
    }

    /// "An entry publishes by steps 1 to 4".
    fn published(&self, entry: &Entry) -> Published {
        let mut administered = Vec::new();
        for region in 0..self.shape.regions {
            for market in 0..self.shape.markets() {
                administered.push(self.administered(region, market));
            }
        }
        publish(
            &self.shape,
            &self.settings(),
            self.position(),
            &administered,
            entry,
        )
    }

    /// "Settings: 10; 18 or 19", 44 "directly after 18".
    pub fn set_threshold(&mut self, threshold: i64) -> Result<(), Refusal> {
        threshold_refusal(threshold)?;
        self.note(Event::Threshold(threshold));
        Ok(())
    }

    /// "Settings: 10; 18 or 19."
    pub fn set_limits(&mut self, cap: i32, floor: i32) -> Result<(), Refusal> {
        unless(limits_allowed(cap, floor), 19)?;
        self.note(Event::Limits(cap, floor));
        Ok(())
    }

    /// "A report gives sum and prices counted after the last entry (0 before the first), mark 1 if administered at the
    /// next and else 0, and how many entries were accepted." "Report: 10; 21 region or market."
    pub fn report(&self, region: u32, market: u32) -> Result<Report, Refusal> {
        let (region, market) = market_of(&self.shape, region, market)?;
        Ok(Report {
            sum: self.sum(region, market) as i64,
            counted: self.counted(region, market).len() as u32,
            mark: self.administered(region, market).into(),
            entries: self.entries_taken(),
        })
    }

    /// "A restart is an image stored into a long enough buffer and loaded, from exactly its bytes, into another ring of
    /// the right length"; "P accepts both calls and does nothing". "a restart goes by kind 2, or by kind 1 where 47 allows it" (request
    /// 2026-10). Too short a buffer is refused by 23, another ring's wrong length by 11.
    pub fn restart(
        &self,
        kind: Kind,
        buffer_length: usize,
        ring_length: usize,
    ) -> Result<(), Refusal> {
        self.stored(kind, buffer_length)?;
        unless(ring_length == self.shape.ring(), 11)
    }

    /// "Store: … 23 buffer shorter than the image. Bytes after the image stay." Answers the image's length. A ledger never meets 10
    /// and 22.
    pub fn store(&self, kind: Kind, buffer: &mut [u8]) -> Result<usize, Refusal> {
        let image = self.stored(kind, buffer.len())?;
        buffer[..image.len()].copy_from_slice(&image);
        Ok(image.len())
    }

    /// The image that a buffer of a length takes. "47: storing as kind 1 a book with the link; after 22", and so before 23.
    fn stored(&self, kind: Kind, buffer_length: usize) -> Result<Vec<u8>, Refusal> {
        unless(kind.holds(&self.shape), 47)?;
        let image = self.image_by(kind);
        unless(buffer_length >= image.len(), 23)?;
        Ok(image)
    }

    /// "The image", of the first kind that holds the book.
    pub fn image(&self) -> Vec<u8> {
        self.image_by(Kind::holding(&self.shape))
    }

    /// "The image" of a kind, written from the history.
    pub fn image_by(&self, kind: Kind) -> Vec<u8> {
        self.fields().bytes_by(kind)
    }

    /// The image's fields.
    fn fields(&self) -> image::Fields {
        let shape = &self.shape;
        let (from, to) = shape.ends();
        let settings = self.settings();
        let mut fields = image::Fields {
            regions: shape.regions as u8,
            services: shape.services as u8,
            window: shape.window as u16,
            halves: shape.halves as u8,
            parents: shape.parents,
            from,
            to,
            entries: self.entries_taken(),
            position: self.position() as u16,
            threshold: settings.threshold,
            cap: settings.cap,
            floor: settings.floor,
            counts: [0; 8],
            periods: [0; 88],
            prices: Vec::new(),
        };
        for region in 0..shape.regions {
            fields.counts[region] = self.counted(region, 0).len() as u16;
            for market in 0..shape.markets() {
                let administered = self.administered(region, market);
                fields.periods[11 * region + market] = administered.into();
                fields.prices.extend(self.counted(region, market));
            }
        }
        fields
    }

    /// Loading an image into a ring of a length; the ledger goes on from there.
    pub fn load(bytes: &[u8], ring_length: usize) -> Result<Ledger, Refusal> {
        image::first_refusal(bytes, Some(ring_length))?;
        let fields = image::Fields::read(bytes);
        let shape = fields.shape();
        let mut prices = fields.prices.iter().copied();
        let (mut counted, mut administered) = (Vec::new(), Vec::new());
        for region in 0..shape.regions {
            let count = usize::from(fields.counts[region]);
            for market in 0..shape.markets() {
                counted.push(prices.by_ref().take(count).collect());
                administered.push(fields.periods[11 * region + market] == 1);
            }
        }
        let settings = Settings {
            threshold: fields.threshold,
            cap: fields.cap,
            floor: fields.floor,
        };
        let start = Start {
            settings,
            position: fields.position.into(),
            entries: fields.entries,
            counted,
            administered,
        };
        Ok(Ledger::starting(shape, start))
    }

    /// The history sorted into entries and the settings at each, and at the next.
    fn past(&self) -> Past<'_> {
        let mut entries = Vec::new();
        let mut settings = Vec::new();
        let mut now = self.start.settings;
        for event in &self.history {
            match event {
                Event::Entry(entry) => {
                    entries.push(entry);
                    settings.push(now);
                }
                Event::Threshold(threshold) => now.threshold = *threshold,
                Event::Limits(cap, floor) => (now.cap, now.floor) = (*cap, *floor),
            }
        }
        settings.push(now);
        Past {
            ledger: self,
            entries,
            settings,
        }
    }
}

/// "Accepted entry t, from 0 up, has position (first position + t) mod D."
fn position(shape: &Shape, start: &Start, t: usize) -> usize {
    (start.position + t) % shape.day()
}

/// A ledger's history as one question sees it. Entry t is counted from the start of the history.
struct Past<'a> {
    ledger: &'a Ledger,
    entries: Vec<&'a Entry>,
    /// "Threshold, cap and floor at t are those last set before it"; one more than there are entries.
    settings: Vec<Settings>,
}

impl Past<'_> {
    /// "the market's last W entry prices up to t at which its region was unmarked, or all if fewer", oldest first;
    /// here of the entries before t.
    fn counted_before(&self, region: usize, market: usize, t: usize) -> Vec<i32> {
        let shape = &self.ledger.shape;
        let place = shape.place(region, market);
        let mut all = self.ledger.start.counted[place].clone();
        for entry in &self.entries[..t] {
            if entry.marks[region] == 0 {
                all.push(entry.prices[place]);
            }
        }
        let surplus = all.len().saturating_sub(shape.window);
        all.split_off(surplus)
    }

    /// "Sum after t: the total" of these; here of the entries before t.
    fn sum_before(&self, region: usize, market: usize, t: usize) -> i128 {
        let counted = self.counted_before(region, market, t);
        counted.iter().map(|&price| i128::from(price)).sum()
    }

    /// "Entry t triggers a market if its sum after t is above the threshold at t"
    fn triggers(&self, region: usize, market: usize, t: usize) -> bool {
        self.sum_before(region, market, t + 1) > i128::from(self.settings[t].threshold)
    }

    /// "at position D−1 it releases a market that it doesn't trigger"
    fn releases(&self, region: usize, market: usize, t: usize) -> bool {
        let Ledger { shape, start, .. } = self.ledger;
        position(shape, start, t) == shape.day() - 1 && !self.triggers(region, market, t)
    }

    /// "A market is administered at t exactly when some j < t triggers it and no i with j ≤ i < t releases it." An image
    /// that says administered stands for a j before the history.
    fn administered(&self, region: usize, market: usize, t: usize) -> bool {
        let trigger: Vec<bool> = (0..t).map(|j| self.triggers(region, market, j)).collect();
        let release: Vec<bool> = (0..t).map(|i| self.releases(region, market, i)).collect();
        let at_start = self.ledger.start.administered[self.ledger.shape.place(region, market)];
        (at_start && !(0..t).any(|i| release[i]))
            || (0..t).any(|j| trigger[j] && !(j..t).any(|i| release[i]))
    }
}
