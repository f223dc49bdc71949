//! Bytes as an image: the check, and a load into a ring of its length.

use crate::pages::Pages;
use crate::Met;
use guxhamole::{Book, Refusal};
use independent::book;
use independent::image::{self, Fields, HEAD};

/// The ring that the image's head asks for, if a book can have it.
fn ring_length(image: &[u8]) -> usize {
    if image.len() < HEAD {
        return 0;
    }
    let fields = Fields::read(&image[..HEAD]);
    let markets = usize::from(fields.services.min(10)) + 1;
    usize::from(fields.regions.min(8)) * markets * usize::from(fields.window.min(2_016))
}

/// Number and place, 0 for an acceptance.
fn verdict<T>(result: &Result<T, Refusal>) -> (u32, u32) {
    let place = |refusal: &Refusal| refusal.place().unwrap_or(0) as u32;
    let refusal = result.as_ref().err();
    refusal.map_or((0, 0), |refusal| (refusal.number(), place(refusal)))
}

pub fn run(room: &mut [Pages], data: &[u8]) -> Met {
    let image = &data[..data.len().min(Pages::most::<u8>())];
    let [first, second, ..] = room else {
        unreachable!("two slices at least")
    };
    let mut met = Met::new();
    for at_end in [true, false] {
        let lent = first.hold(image, at_end);
        let (checked, _) = verdict(&guxhamole::check(lent.lent));
        assert_eq!(checked, image::check(image), "image check");
        let ring = second.lend::<i32>(ring_length(image), at_end);
        let mut expected_ring = ring.lent.to_vec();
        let loaded = Book::load(lent.lent, ring.lent);
        let expected = book::Book::load(image, &mut expected_ring);
        let expected = expected.map_or_else(|r| (r.number, r.place), |_| (0, 0));
        assert_eq!(verdict(&loaded), expected, "load");
        assert!(ring.holds(&expected_ring), "ring after the load");
        assert!(lent.holds(image), "image");
        met = vec![("check", checked), ("load", expected.0)];
    }
    met
}
