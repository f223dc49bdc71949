//! What the two rings of a replay hold. The ledger knows a ring by its length alone; a host also sees what is in it.

use crate::image::Fields;
use crate::ledger::Entry;
use crate::rules::Shape;

/// The book's ring and the other one, which change places with each restart.
pub struct Rings {
    shape: Shape,
    /// The lent ring and the lent other ring; the second is empty until a restart loads into it.
    held: [Vec<i32>; 2],
    /// Which of the two is the book's.
    book: usize,
    /// Each region's next place.
    next: Vec<usize>,
}

impl Rings {
    /// "a lent ring of exactly R × M × W signed 32-bit numbers, zeroed by opening"
    pub fn opened(shape: &Shape) -> Rings {
        Rings {
            shape: *shape,
            held: [vec![0; shape.ring()], Vec::new()],
            book: 0,
            next: vec![0; shape.regions],
        }
    }

    /// "Each unmarked region's entry prices … join its windows"; "a market's window starts at (region × M + market) × W,
    /// and a region's … next place (0..W−1) serve all its markets".
    pub fn entered(&mut self, entry: &Entry) {
        let Shape { window, .. } = self.shape;
        for region in 0..self.shape.regions {
            if entry.marks[region] == 0 {
                for market in 0..self.shape.markets() {
                    let place = self.shape.place(region, market);
                    let at = place * window + self.next[region];
                    self.held[self.book][at] = entry.prices[place];
                }
                self.next[region] = (self.next[region] + 1) % window;
            }
        }
    }

    /// "Loading puts the oldest at the window's first place, zeroes the others".
    pub fn restarted(&mut self, image: &[u8]) {
        let fields = Fields::read(image);
        let mut prices = fields.prices.into_iter();
        let mut ring = vec![0; self.shape.ring()];
        for region in 0..self.shape.regions {
            let count = usize::from(fields.counts[region]);
            for market in 0..self.shape.markets() {
                let start = self.shape.place(region, market) * self.shape.window;
                let window = &mut ring[start..start + count];
                window.fill_with(|| prices.next().unwrap_or_default());
            }
            self.next[region] = count % self.shape.window;
        }
        self.book = 1 - self.book;
        self.held[self.book] = ring;
    }

    /// What the lent ring and the lent other ring hold in their first places.
    pub fn held(self) -> [Vec<i32>; 2] {
        self.held
    }
}
