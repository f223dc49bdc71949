//! A test load, request 2026-07 of document 02, whose words are quoted here. No draw waits for the one before it: after any number of
//! draws s is a factor times the seed and a term more, mod 2³².

use crate::book::{unless, Book, Refusal, LINKS, MARKETS, REGIONS};
use crate::interval::IntervalMut;

/// The draws of the largest interval.
const MOST: usize = REGIONS * MARKETS + 2 * LINKS;

/// Factors and terms after 1, 2 and so on draws: "each draw replaces s by (s × 1,664,525 + 1,013,904,223) mod 4,294,967,296".
static STEPS: ([u32; MOST], [u32; MOST]) = {
    let mut steps = ([0; MOST], [0; MOST]);
    let (mut factor, mut term, mut draw) = (1u32, 0u32, 0);
    while draw < MOST {
        factor = factor.wrapping_mul(1_664_525);
        term = term.wrapping_mul(1_664_525).wrapping_add(1_013_904_223);
        (steps.0[draw], steps.1[draw]) = (factor, term);
        draw += 1;
    }
    steps
};

/// s after the draws of a step, counted from 0.
#[inline]
fn after(seed: u32, draw: usize) -> u32 {
    stepped(seed, STEPS.0[draw], STEPS.1[draw])
}

/// "d = s div 65,536" is its upper half.
#[inline]
fn stepped(seed: u32, factor: u32, term: u32) -> u32 {
    seed.wrapping_mul(factor).wrapping_add(term)
}

impl Book {
    /// "the caller gives book, number and day kind and gets the last s back; 10, then 11 over the filled slices".
    pub fn synthetic(&self, seed: u32, interval: IntervalMut) -> Result<u32, Refusal> {
        unless(self.valid(), 10)?;
        let lent = [
            interval.marks.len(),
            interval.flows.len(),
            interval.factors.len(),
        ];
        unless(self.slices_right(interval.prices.len(), lent), 11)?;
        self.draw_prices(seed, interval.prices);
        let (factors, terms) = (&STEPS.0[self.prices()..], &STEPS.1[self.prices()..]);
        let ((factors, _), (terms, _)) = (factors.as_chunks::<2>(), terms.as_chunks::<2>());
        let steps = factors.iter().zip(terms);
        let places = interval.flows.iter_mut().zip(interval.factors);
        for ((flow, loss), (factor, term)) in places.zip(steps) {
            let d = stepped(seed, factor[0], term[0]) >> 16;
            *flow = (d % 2_001) as i32 - 1_000;
            let d = stepped(seed, factor[1], term[1]) >> 16;
            *loss = 10_000 + d % 2_000;
        }
        interval.marks.fill(0);
        let draws = self.prices() + 2 * self.links();
        Ok(after(seed, draws - 1))
    }

    /// Every price as a service's, in one run; then the energies once more.
    #[inline]
    fn draw_prices(&self, seed: u32, prices: &mut [i32]) {
        let steps = STEPS.0.iter().zip(&STEPS.1);
        for (price, (&factor, &term)) in prices.iter_mut().zip(steps) {
            let d = (stepped(seed, factor, term) >> 16) as u16;
            *price = (d % 3_000).into();
        }
        for place in (0..prices.len()).step_by(self.markets()) {
            prices[place] = match after(seed, place) >> 16 {
                0..64 => 1_500_000,
                d => (d % 20_000) as i32 - 2_000,
            };
        }
    }
}
