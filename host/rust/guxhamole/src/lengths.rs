//! The lengths of lent slices, in elements, and the largest of each, so that a host can keep them in arrays.

/// "Regions R 1..8".
pub const MOST_REGIONS: usize = 8;

/// Markets a region, energy among them: "services S 0..10, M = S+1".
pub const MOST_MARKETS: usize = 11;

/// "window W 1..2,016".
pub const MOST_WINDOW: usize = 2_016;

/// "half-hours a day H 1..48".
pub const MOST_HALVES: usize = 48;

/// Stands for no region: as a region's parent, and as both ends of the additional link of a book that has none.
pub const NONE: u8 = 255;

/// Bytes of a book.
pub const BOOK_LENGTH: usize = 864;

/// Bytes of an image before its prices; an image of a book without prices has no others.
pub const IMAGE_HEAD: usize = 156;

/// The same of an image of kind 1, which has no place for the additional link.
pub const IMAGE_HEAD_KIND_1: usize = 148;

/// Bytes that hold every amount's text.
pub const TEXT_LENGTH: usize = 21;

/// The longest prices and table.
pub const MOST_PRICES: usize = prices_length(MOST_REGIONS, MOST_MARKETS - 1);

/// The longest ring.
pub const MOST_RING: usize = ring_length(MOST_REGIONS, MOST_MARKETS - 1, MOST_WINDOW);

/// The longest schedule of an entry.
pub const MOST_SCHEDULE: usize = schedule_length(MOST_REGIONS, MOST_MARKETS - 1, MOST_HALVES);

/// The longest image.
pub const MOST_IMAGE: usize = image_length(MOST_REGIONS, MOST_MARKETS - 1, MOST_WINDOW);

/// The most flows, and factors: those of a book of eight regions with the additional link.
pub const MOST_FLOWS: usize = flows_length(MOST_REGIONS, 0);

/// The longest interval's records, of such a book too.
pub const MOST_INTERVAL: usize = interval_length(MOST_REGIONS, MOST_MARKETS - 1, 0);

/// Prices and table of an entry: R × M.
pub const fn prices_length(regions: usize, services: usize) -> usize {
    regions * (services + 1)
}

/// A book's ring: R × M × W.
///
/// ```
/// // The real market's.
/// static RING: [i32; guxhamole::ring_length(5, 10, 2_016)] = [0; 110_880];
/// # assert_eq!(RING.len(), 110_880);
/// ```
pub const fn ring_length(regions: usize, services: usize, window: usize) -> usize {
    prices_length(regions, services) * window
}

/// The schedule of an entry: R × M × 2 × H.
pub const fn schedule_length(regions: usize, services: usize, halves: usize) -> usize {
    prices_length(regions, services) * 2 * halves
}

/// Flows of an entry, and factors: R, and one more where the book has the additional link. `from` is as its settings have it.
///
/// ```
/// use guxhamole::{flows_length, NONE};
///
/// assert_eq!((flows_length(5, NONE), flows_length(5, 1)), (5, 6));
/// ```
pub const fn flows_length(regions: usize, from: u8) -> usize {
    if from == NONE {
        regions
    } else {
        regions + 1
    }
}

/// The image of a book whose windows are full, in bytes: no image of the book, of either kind, is longer.
pub const fn image_length(regions: usize, services: usize, window: usize) -> usize {
    IMAGE_HEAD + 4 * ring_length(regions, services, window)
}

/// The records of an interval, in bytes: a head of 12, a record of 16 + 4 × M a region, and one of 14 for the additional link, where the
/// book has it. `from` is as its settings have it.
///
/// ```
/// use guxhamole::{interval_length, NONE};
///
/// // The real market's, as it is and with an additional link.
/// assert_eq!((interval_length(5, 10, NONE), interval_length(5, 10, 1)), (312, 326));
/// ```
pub const fn interval_length(regions: usize, services: usize, from: u8) -> usize {
    let links = flows_length(regions, from) - regions;
    12 + regions * (16 + 4 * (services + 1)) + 14 * links
}
