//! "A test load anyone can remake", request 2026-07 of document 02, whose words are quoted here: one draw after the other, each
//! number in its place as it is drawn.

use crate::book::Book;
use crate::interval::Interval;
use crate::rules::*;

/// What is drawn from.
struct Source {
    s: u64,
}

impl Source {
    /// "each draw replaces s by (s × 1,664,525 + 1,013,904,223) mod 4,294,967,296 and gives d = s div 65,536"
    fn draw(&mut self) -> i32 {
        self.s = (self.s * 1_664_525 + 1_013_904_223) % 4_294_967_296;
        (self.s / 65_536) as i32
    }

    /// "Energy is 1,500,000 if d < 64, else d mod 20,000 − 2,000"
    fn energy(&mut self) -> i32 {
        match self.draw() {
            0..64 => 1_500_000,
            d => d % 20_000 - 2_000,
        }
    }

    /// "a service is d mod 3,000"
    fn service(&mut self) -> i32 {
        self.draw() % 3_000
    }

    /// "flow is d mod 2,001 − 1,000"
    fn flow(&mut self) -> i32 {
        self.draw() % 2_001 - 1_000
    }

    /// "factor is 10,000 + d mod 2,000"
    fn factor(&mut self) -> u32 {
        10_000 + self.draw() as u32 % 2_000
    }
}

impl Book {
    /// "the caller gives book, number and day kind and gets the last s back; 10, then 11 over the filled slices". Number and day kind
    /// stand in the interval as they are given, and stay.
    pub fn synthetic(&self, seed: u32, lent: &mut Interval) -> Result<u32, Refusal> {
        self.sound()?;
        let shape = self.shape();
        unless(lent.fits(&shape), 11)?;
        let mut source = Source { s: seed.into() };
        // "An interval draws its R × M prices, then flow and factor for each region."
        for region in 0..shape.regions {
            lent.prices[shape.place(region, 0)] = source.energy();
            for market in 1..shape.markets() {
                lent.prices[shape.place(region, market)] = source.service();
            }
        }
        // "A test load draws one more pair for it", the additional link (request 2026-10).
        for place in 0..shape.flows() {
            lent.flows[place] = source.flow();
            lent.factors[place] = source.factor();
        }
        // "Marks are 0"
        lent.marks.fill(0);
        Ok(source.s as u32)
    }
}
