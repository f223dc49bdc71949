//! "A book" as a host keeps it: the record with its 88 sums and marks, the ring, rule 10, and "One interval" over them. Any
//! fields and any ring are allowed, also those that no list of calls leads to.

use crate::checking::{entry_refusal, market_of};
use crate::image::{self, Fields, Kind};
use crate::ledger::{Entry, Ledger, Report};
use crate::publishing::publish;
use crate::rules::*;

/// "The book record carries 88 sums and 88 period marks, at place 11 × region + market."
#[derive(Clone, Debug, PartialEq, Eq)]
pub struct Book {
    pub regions: u8,
    pub services: u8,
    pub window: u16,
    pub halves: u8,
    pub parents: [u8; 8],
    /// The ends of the additional link (request 2026-10 of document 02).
    pub from: u8,
    pub to: u8,
    pub threshold: i64,
    pub cap: i32,
    pub floor: i32,
    pub entries: u32,
    pub position: u16,
    pub counts: [u16; 8],
    pub nexts: [u16; 8],
    pub sums: [i64; 88],
    pub marks: [u8; 88],
}

/// Why a book is refused by 10: a name for each rule, to see that tests reach them all.
pub const FAULTS: [&str; 21] = [
    "regions",
    "services",
    "window",
    "half-hours",
    "parents",
    "ends",
    "threshold",
    "cap",
    "floor",
    "entries taken",
    "position",
    "unused count",
    "count above window",
    "count above entries taken",
    "next place of an unused region",
    "next place not the count",
    "next place past the window",
    "sum",
    "unused sum",
    "mark",
    "unused mark",
];

/// "a sum beyond ±20,160,000,000"
const MOST_SUM: i64 = 20_160_000_000;

impl Book {
    /// "Open: 20 a setting; 11 ring length; 18 threshold; 19 cap or floor", 44 "directly after 18". The ring is "zeroed by opening".
    pub fn open(opening: &Opening, ring: &mut [i32]) -> Result<Book, Refusal> {
        let ledger = Ledger::open(opening, ring.len())?;
        ring.fill(0);
        let shape = ledger.shape();
        Ok(Book {
            regions: shape.regions as u8,
            services: shape.services as u8,
            window: shape.window as u16,
            halves: shape.halves as u8,
            parents: shape.parents,
            from: opening.from,
            to: opening.to,
            threshold: opening.threshold,
            cap: opening.cap,
            floor: opening.floor,
            entries: 0,
            position: opening.first as u16,
            counts: [0; 8],
            nexts: [0; 8],
            sums: [0; 88],
            marks: [0; 88],
        })
    }

    /// "Any call on a book: 10, it is closed or a field is outside its limits".
    pub(crate) fn sound(&self) -> Result<(), Refusal> {
        unless(self.fault().is_none(), 10)
    }

    /// The first field "outside its limits", one of `FAULTS`. A closed book has 0 regions.
    pub fn fault(&self) -> Option<&'static str> {
        self.setting_fault()
            .or_else(|| (0..8).find_map(|region| self.window_fault(region)))
            .or_else(|| (0..88).find_map(|place| self.market_fault(place)))
    }

    /// The limits of what a book is "Opened with", and "entries taken above 10,000,000".
    fn setting_fault(&self) -> Option<&'static str> {
        let (regions, halves) = (u32::from(self.regions), u32::from(self.halves));
        let ends = ends_allowed(self.from, self.to, &self.parents, regions);
        let allowed = [
            ("regions", regions_allowed(regions)),
            ("services", services_allowed(self.services.into())),
            ("window", window_allowed(self.window.into())),
            ("half-hours", halves_allowed(halves)),
            ("parents", parents_allowed(&self.parents, regions)),
            ("ends", ends),
            ("threshold", threshold_allowed(self.threshold.into())),
            ("cap", cap_allowed(self.cap.into())),
            ("floor", floor_allowed(self.floor.into())),
            ("entries taken", self.entries <= MOST_ENTRIES),
            ("position", position_allowed(self.position.into(), halves)),
        ];
        let fault = allowed.into_iter().find(|(_, allowed)| !allowed);
        fault.map(|(name, _)| name)
    }

    /// "a count above W or above entries taken, next place not the count while below W", "an unused … count … not zero"; a
    /// "next place (0..W−1)".
    fn window_fault(&self, region: usize) -> Option<&'static str> {
        let (count, next) = (self.counts[region], self.nexts[region]);
        if region >= usize::from(self.regions) {
            return match (count, next) {
                (0, 0) => None,
                (0, _) => Some("next place of an unused region"),
                _ => Some("unused count"),
            };
        }
        if count > self.window {
            Some("count above window")
        } else if u32::from(count) > self.entries {
            Some("count above entries taken")
        } else if count < self.window && next != count {
            Some("next place not the count")
        } else if next >= self.window {
            Some("next place past the window")
        } else {
            None
        }
    }

    /// "a sum beyond ±20,160,000,000, an unused sum, count or mark not zero"
    fn market_fault(&self, place: usize) -> Option<&'static str> {
        let (region, market) = (place / 11, place % 11);
        let used = region < usize::from(self.regions) && market <= usize::from(self.services);
        let (sum, mark) = (self.sums[place], self.marks[place]);
        let within = (-MOST_SUM..=MOST_SUM).contains(&sum);
        match used {
            true if !within => Some("sum"),
            true if mark > 1 => Some("mark"),
            false if sum != 0 => Some("unused sum"),
            false if mark != 0 => Some("unused mark"),
            _ => None,
        }
    }

    /// The shape of a book whose fields are within their limits.
    pub fn shape(&self) -> Shape {
        Shape {
            regions: self.regions.into(),
            services: self.services.into(),
            window: self.window.into(),
            halves: self.halves.into(),
            parents: self.parents,
            link: link(self.from, self.to),
        }
    }

    /// The places of the used markets in the record, region by region.
    fn places(&self) -> impl Iterator<Item = usize> {
        let (regions, markets) = (usize::from(self.regions), usize::from(self.services) + 1);
        (0..regions * markets).map(move |place| 11 * (place / markets) + place % markets)
    }

    /// "One interval": steps 1 to 4 publish by the marks before the entry, then steps 5 and 6.
    pub fn enter(
        &mut self,
        ring: &mut [i32],
        entry: &Entry,
        table: &mut [i32],
    ) -> Result<u32, Refusal> {
        self.sound()?;
        let shape = self.shape();
        entry_refusal(&shape, self.entries, entry, ring.len(), table.len())?;
        let settings = Settings {
            threshold: self.threshold,
            cap: self.cap,
            floor: self.floor,
        };
        let administered: Vec<bool> = self.places().map(|place| self.marks[place] == 1).collect();
        let position = usize::from(self.position);
        let published = publish(&shape, &settings, position, &administered, entry);
        table.copy_from_slice(&published.table);
        for region in 0..shape.regions {
            if entry.marks[region] == 0 {
                self.join(region, ring, &entry.prices);
            }
        }
        self.periods(position == shape.day() - 1);
        self.position = ((position + 1) % shape.day()) as u16;
        self.entries += 1;
        Ok(published.count)
    }

    /// Step 5: "Each unmarked region's entry prices, never the capped ones, join its windows; the oldest leaves once W are
    /// counted." With a ring that others changed "sums then move by price in less the price read there".
    pub(crate) fn join(&mut self, region: usize, ring: &mut [i32], prices: &[i32]) {
        let shape = self.shape();
        let (count, next) = (self.counts[region], usize::from(self.nexts[region]));
        for market in 0..shape.markets() {
            let place = shape.place(region, market);
            let at = place * shape.window + next;
            let left = if count == self.window { ring[at] } else { 0 };
            ring[at] = prices[place];
            self.sums[11 * region + market] += i64::from(prices[place]) - i64::from(left);
        }
        self.counts[region] = self.window.min(count + 1);
        self.nexts[region] = ((next + 1) % shape.window) as u16;
    }

    /// Step 6: "Every market: sum above the threshold, administered from the next interval; otherwise, at position D−1, not
    /// administered; otherwise as before."
    fn periods(&mut self, last_of_day: bool) {
        for place in self.places() {
            if self.sums[place] > self.threshold {
                self.marks[place] = 1;
            } else if last_of_day {
                self.marks[place] = 0;
            }
        }
    }

    /// "Settings: 10; 18 or 19", 44 "directly after 18".
    pub fn set_threshold(&mut self, threshold: i64) -> Result<(), Refusal> {
        self.sound()?;
        threshold_refusal(threshold)?;
        self.threshold = threshold;
        Ok(())
    }

    /// "Settings: 10; 18 or 19."
    pub fn set_limits(&mut self, cap: i32, floor: i32) -> Result<(), Refusal> {
        self.sound()?;
        unless(limits_allowed(cap, floor), 19)?;
        (self.cap, self.floor) = (cap, floor);
        Ok(())
    }

    /// "A report gives a market's sum, prices counted and period mark, and the entries taken." "Report: 10; 21".
    pub fn report(&self, region: u32, market: u32) -> Result<Report, Refusal> {
        self.sound()?;
        let (region, market) = market_of(&self.shape(), region, market)?;
        let place = 11 * region + market;
        Ok(Report {
            sum: self.sums[place],
            counted: self.counts[region].into(),
            mark: self.marks[place].into(),
            entries: self.entries,
        })
    }

    /// A market's counted prices, oldest first.
    fn counted(&self, ring: &[i32], region: usize, market: usize) -> Vec<i32> {
        let shape = self.shape();
        let (count, next) = (
            usize::from(self.counts[region]),
            usize::from(self.nexts[region]),
        );
        let oldest = if count == shape.window { next } else { 0 };
        let start = shape.place(region, market) * shape.window;
        let places = (0..count).map(|turn| start + (oldest + turn) % shape.window);
        places.map(|place| ring[place]).collect()
    }

    /// "22 a counted price out of range or a total that isn't its sum", over all markets: their counted prices, oldest first.
    pub(crate) fn all_counted(&self, ring: &[i32]) -> Result<Vec<i32>, Refusal> {
        let shape = self.shape();
        let mut prices = Vec::new();
        for region in 0..shape.regions {
            for market in 0..shape.markets() {
                let counted = self.counted(ring, region, market);
                let allowed = counted.iter().all(|&p| price_allowed(market == 0, p));
                let total: i64 = counted.iter().map(|&price| i64::from(price)).sum();
                unless(allowed && total == self.sums[11 * region + market], 22)?;
                prices.extend(counted);
            }
        }
        Ok(prices)
    }

    /// "Store: 10; 11; 22 …; 23 buffer shorter than the image. Bytes after the image stay." Answers the image's length. "47: storing as
    /// kind 1 a book with the link; after 22" (request 2026-10).
    pub fn store(&self, kind: Kind, ring: &[i32], buffer: &mut [u8]) -> Result<usize, Refusal> {
        self.sound()?;
        unless(ring.len() == self.shape().ring(), 11)?;
        let prices = self.all_counted(ring)?;
        unless(kind.holds(&self.shape()), 47)?;
        let image = self.fields(prices).bytes_by(kind);
        unless(buffer.len() >= image.len(), 23)?;
        buffer[..image.len()].copy_from_slice(&image);
        Ok(image.len())
    }

    /// The image's fields.
    fn fields(&self, prices: Vec<i32>) -> Fields {
        Fields {
            regions: self.regions,
            services: self.services,
            window: self.window,
            halves: self.halves,
            parents: self.parents,
            from: self.from,
            to: self.to,
            entries: self.entries,
            position: self.position,
            threshold: self.threshold,
            cap: self.cap,
            floor: self.floor,
            counts: self.counts,
            periods: self.marks,
            prices,
        }
    }

    /// "Loading puts the oldest at the window's first place, zeroes the others and adds the sums up anew."
    pub fn load(bytes: &[u8], ring: &mut [i32]) -> Result<Book, Refusal> {
        image::first_refusal(bytes, Some(ring.len()))?;
        let fields = Fields::read(bytes);
        let shape = fields.shape();
        let mut book = Book {
            regions: fields.regions,
            services: fields.services,
            window: fields.window,
            halves: fields.halves,
            parents: fields.parents,
            from: fields.from,
            to: fields.to,
            threshold: fields.threshold,
            cap: fields.cap,
            floor: fields.floor,
            entries: fields.entries,
            position: fields.position,
            counts: fields.counts,
            nexts: fields.counts.map(|count| count % fields.window),
            sums: [0; 88],
            marks: fields.periods,
        };
        ring.fill(0);
        let mut prices = fields.prices.into_iter();
        for region in 0..shape.regions {
            let count = usize::from(book.counts[region]);
            for market in 0..shape.markets() {
                let start = shape.place(region, market) * shape.window;
                let window = &mut ring[start..start + count];
                window.fill_with(|| prices.next().unwrap_or_default());
                let total = window.iter().map(|&price| i64::from(price)).sum();
                book.sums[11 * region + market] = total;
            }
        }
        Ok(book)
    }
}
