//! Ranges and refusals that several calls share.

/// A refusal's number and place. "Place is 0 unless named."
#[derive(Clone, Copy, Debug, PartialEq, Eq)]
pub struct Refusal {
    pub number: u32,
    pub place: u32,
}

/// A refusal by a number without a place.
pub fn refusal(number: u32) -> Refusal {
    Refusal { number, place: 0 }
}

/// A refusal at a place in the lent slice.
pub fn refusal_at(number: u32, place: usize) -> Refusal {
    Refusal {
        number,
        place: place as u32,
    }
}

/// Refuses by a number unless something holds.
pub fn unless(holds: bool, number: u32) -> Result<(), Refusal> {
    if holds {
        Ok(())
    } else {
        Err(refusal(number))
    }
}

/// "10,000,000 entries taken"
pub const MOST_ENTRIES: u32 = 10_000_000;

/// "holds 255": no parent.
pub const NO_PARENT: u8 = 255;

/// "(255, 255 for none)": no additional link (request 2026-10 of document 02).
pub const NO_END: u8 = 255;

/// What a book is "Opened with"; of the additional link `from` is "the first named" region, `to` "the second".
#[derive(Clone, Copy, Debug, PartialEq, Eq)]
pub struct Opening {
    pub regions: u32,
    pub services: u32,
    pub window: u32,
    pub halves: u32,
    pub first: u32,
    pub parents: [u8; 8],
    pub from: u8,
    pub to: u8,
    pub threshold: i64,
    pub cap: i32,
    pub floor: i32,
}

impl Opening {
    /// The shape of an opening whose settings are within their limits.
    pub fn shape(&self) -> Shape {
        Shape {
            regions: self.regions as usize,
            services: self.services as usize,
            window: self.window as usize,
            halves: self.halves as usize,
            parents: self.parents,
            link: link(self.from, self.to),
        }
    }
}

/// The settings that never change: R, S, W, H, the parents and the additional link, all within their limits.
#[derive(Clone, Copy, Debug, PartialEq, Eq)]
pub struct Shape {
    pub regions: usize,
    pub services: usize,
    pub window: usize,
    pub halves: usize,
    pub parents: [u8; 8],
    /// The first named region and the second of the additional link, if the book has it.
    pub link: Option<(usize, usize)>,
}

/// The additional link of ends within their limits.
pub fn link(from: u8, to: u8) -> Option<(usize, usize)> {
    (from != NO_END).then_some((from.into(), to.into()))
}

impl Shape {
    /// "M = S+1 markets a region"
    pub fn markets(&self) -> usize {
        self.services + 1
    }

    /// "D = 6 × H intervals"
    pub fn day(&self) -> usize {
        6 * self.halves
    }

    /// "R × M prices (region by region)"
    pub fn prices(&self) -> usize {
        self.regions * self.markets()
    }

    /// "a lent ring of exactly R × M × W"
    pub fn ring(&self) -> usize {
        self.prices() * self.window
    }

    /// "(schedule R × M × 2 × H)"
    pub fn schedule(&self) -> usize {
        self.prices() * 2 * self.halves
    }

    /// "its flow and factor come as an extra last place" (request 2026-10): how many flows there are, and how many factors.
    pub fn flows(&self) -> usize {
        self.regions + usize::from(self.link.is_some())
    }

    /// The ends of the additional link as bytes, "255, 255 for none".
    pub fn ends(&self) -> (u8, u8) {
        let bytes = |(from, to): (usize, usize)| (from as u8, to as u8);
        self.link.map_or((NO_END, NO_END), bytes)
    }

    /// Where a market of a region stands among R × M, region by region.
    pub fn place(&self, region: usize, market: usize) -> usize {
        region * self.markets() + market
    }

    /// The parent of a region, if it has one.
    pub fn parent(&self, region: usize) -> Option<usize> {
        let parent = self.parents[region];
        if parent == NO_PARENT {
            None
        } else {
            Some(parent as usize)
        }
    }
}

/// The settings that calls change. "Threshold and limit settings act from the next entry."
#[derive(Clone, Copy, Debug, PartialEq, Eq)]
pub struct Settings {
    pub threshold: i64,
    pub cap: i32,
    pub floor: i32,
}

/// "regions R 1..8"
pub fn regions_allowed(regions: u32) -> bool {
    (1..=8).contains(&regions)
}

/// "services S 0..10"
pub fn services_allowed(services: u32) -> bool {
    services <= 10
}

/// "window W 1..2,016"
pub fn window_allowed(window: u32) -> bool {
    (1..=2_016).contains(&window)
}

/// "half-hours a day H 1..48"
pub fn halves_allowed(halves: u32) -> bool {
    (1..=48).contains(&halves)
}

/// "first position 0..D−1"
pub fn position_allowed(position: u32, halves: u32) -> bool {
    position < 6 * halves
}

/// "The parent of region r is a lower region linked to it, or 255 for none; region 0 and places from R up hold 255."
pub fn parents_allowed(parents: &[u8; 8], regions: u32) -> bool {
    (0..8u32).all(|region| {
        let parent = parents[region as usize];
        let may_be_linked = region > 0 && region < regions;
        parent == NO_PARENT || (may_be_linked && u32::from(parent) < region)
    })
}

/// "one additional link between two regions not already linked" (request 2026-10), or none.
pub fn ends_allowed(from: u8, to: u8, parents: &[u8; 8], regions: u32) -> bool {
    if from == NO_END && to == NO_END {
        return true;
    }
    let both_there = u32::from(from) < regions && u32::from(to) < regions;
    let child_of = |child: u8, parent: u8| parents.get(usize::from(child)) == Some(&parent);
    both_there && from != to && !child_of(from, to) && !child_of(to, from)
}

/// "threshold 1..100,000,000,000"
pub fn threshold_allowed(threshold: i128) -> bool {
    (1..=100_000_000_000).contains(&threshold)
}

/// "only multiples of 10,000 cents" (request 2026-06 of document 02).
pub fn in_hundreds(threshold: i64) -> bool {
    threshold % 10_000 == 0
}

/// What an opening and a setting take, but not rule 10 and no image: "18 threshold", and "(44: a threshold within range but no multiple
/// of 10,000; directly after 18.)"
pub fn threshold_refusal(threshold: i64) -> Result<(), Refusal> {
    unless(threshold_allowed(threshold.into()), 18)?;
    unless(in_hundreds(threshold), 44)
}

/// "cap 1..10,000,000"
pub fn cap_allowed(cap: i128) -> bool {
    (1..=10_000_000).contains(&cap)
}

/// "floor −10,000,000..−1"
pub fn floor_allowed(floor: i128) -> bool {
    (-10_000_000..=-1).contains(&floor)
}

/// "19 cap or floor"
pub fn limits_allowed(cap: i32, floor: i32) -> bool {
    cap_allowed(cap.into()) && floor_allowed(floor.into())
}

/// "energy beyond ±10,000,000 or service outside 0..10,000,000". "Market 0 is energy".
pub fn price_allowed(is_energy: bool, price: i32) -> bool {
    if is_energy {
        (-10_000_000..=10_000_000).contains(&price)
    } else {
        (0..=10_000_000).contains(&price)
    }
}

/// "held within floor and cap (energy) or 0 and cap (service)"
pub fn held(is_energy: bool, price: i128, cap: i32, floor: i32) -> i128 {
    let lowest = if is_energy { i128::from(floor) } else { 0 };
    let highest = i128::from(cap);
    if price < lowest {
        lowest
    } else if price > highest {
        highest
    } else {
        price
    }
}
