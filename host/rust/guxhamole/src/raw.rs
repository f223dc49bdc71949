//! The C face one to one: its structs, and each function over slices. A host needs [`crate::Book`] and the functions beside
//! it; this is for tests, which set a book's fields one by one and look at the zeros of a refused answer. The one place with
//! `unsafe`.

use crate::BOOK_LENGTH;
use core::mem::{offset_of, size_of};

/// What a book is opened with.
#[repr(C)]
#[derive(Clone, Copy, Debug, PartialEq, Eq)]
#[allow(missing_docs)] // Document 01's words; those of `crate::Settings` and `crate::Book` say more.
pub struct Settings {
    pub regions: u8,
    pub services: u8,
    pub window: u16,
    pub halves: u8,
    pub first: u16,
    pub parents: [u8; 8],
    pub from: u8,
    pub to: u8,
    pub threshold: i64,
    pub cap: i32,
    pub floor: i32,
}

/// A book by value, of any contents. The sum and the period mark of a market stand at 11 × region + market.
#[repr(C)]
#[derive(Clone, Copy, Debug, PartialEq, Eq)]
#[allow(missing_docs)]
pub struct Book {
    pub regions: u8,
    pub services: u8,
    pub window: u16,
    pub halves: u8,
    pub parents: [u8; 8],
    pub from: u8,
    pub to: u8,
    pub threshold: i64,
    pub cap: i32,
    pub floor: i32,
    pub entries: u32,
    pub position: u16,
    pub counts: [u16; 8],
    pub nexts: [u16; 8],
    pub sums: [i64; 88],
    pub marks: [u8; 88],
}

/// The answer of an opening, a setting and a load.
#[repr(C)]
#[derive(Clone, Copy, Debug, PartialEq, Eq)]
#[allow(missing_docs)]
pub struct Kept {
    pub book: Book,
    pub number: u32,
    pub place: u64,
}

/// The answer of an entry.
#[repr(C)]
#[derive(Clone, Copy, Debug, PartialEq, Eq)]
#[allow(missing_docs)]
pub struct Entered {
    pub book: Book,
    pub number: u32,
    pub place: u64,
    pub count: u32,
}

/// The answer of a report.
#[repr(C)]
#[derive(Clone, Copy, Debug, PartialEq, Eq)]
#[allow(missing_docs)]
pub struct Reading {
    pub number: u32,
    pub counted: u32,
    pub mark: u32,
    pub entries: u32,
    pub sum: i64,
}

/// The answer of a store and of an interval's writing.
#[repr(C)]
#[derive(Clone, Copy, Debug, PartialEq, Eq)]
#[allow(missing_docs)]
pub struct Stored {
    pub number: u32,
    pub length: u64,
}

/// The answer of an interval's reading.
#[repr(C)]
#[derive(Clone, Copy, Debug, PartialEq, Eq)]
#[allow(missing_docs)]
pub struct Found {
    pub number: u32,
    pub next: u64,
    pub entry: u32,
    pub day_kind: u32,
}

/// The answer of an interval's rewriting.
#[repr(C)]
#[derive(Clone, Copy, Debug, PartialEq, Eq)]
#[allow(missing_docs)]
pub struct Rewritten {
    pub number: u32,
    pub next: u64,
}

/// The answer of a draw.
#[repr(C)]
#[derive(Clone, Copy, Debug, PartialEq, Eq)]
#[allow(missing_docs)]
pub struct Drawn {
    pub number: u32,
    pub seed: u32,
    pub entry: u32,
    pub day_kind: u32,
}

/// The answer of a question for the intervals left.
#[repr(C)]
#[derive(Clone, Copy, Debug, PartialEq, Eq)]
#[allow(missing_docs)]
pub struct Left {
    pub number: u32,
    pub intervals: u32,
}

/// The answer of a bill's check.
#[repr(C)]
#[derive(Clone, Copy, Debug, PartialEq, Eq)]
#[allow(missing_docs)]
pub struct Billed {
    pub number: u32,
    pub place: u64,
    pub right: u32,
    pub line: u64,
}

/// The answer of the schedule maker.
#[repr(C)]
#[derive(Clone, Copy, Debug, PartialEq, Eq)]
#[allow(missing_docs)]
pub struct Rows {
    pub number: u32,
    pub place: u64,
    pub weekday: [i32; 48],
    pub weekend: [i32; 48],
}

// The layout that the archive was compiled with.
const _: () = {
    assert!(size_of::<usize>() == 8);
    assert!(size_of::<Settings>() == 40);
    assert!(offset_of!(Settings, services) == 1 && offset_of!(Settings, window) == 2);
    assert!(offset_of!(Settings, halves) == 4 && offset_of!(Settings, first) == 6);
    assert!(offset_of!(Settings, parents) == 8 && offset_of!(Settings, from) == 16);
    assert!(offset_of!(Settings, to) == 17 && offset_of!(Settings, threshold) == 24);
    assert!(offset_of!(Settings, cap) == 32 && offset_of!(Settings, floor) == 36);
    assert!(size_of::<Book>() == BOOK_LENGTH);
    assert!(offset_of!(Book, services) == 1 && offset_of!(Book, window) == 2);
    assert!(offset_of!(Book, halves) == 4 && offset_of!(Book, parents) == 5);
    assert!(offset_of!(Book, from) == 13 && offset_of!(Book, to) == 14);
    assert!(offset_of!(Book, threshold) == 16 && offset_of!(Book, cap) == 24);
    assert!(offset_of!(Book, floor) == 28 && offset_of!(Book, entries) == 32);
    assert!(offset_of!(Book, position) == 36 && offset_of!(Book, counts) == 38);
    assert!(offset_of!(Book, nexts) == 54 && offset_of!(Book, sums) == 72);
    assert!(offset_of!(Book, marks) == 776);
    assert!(size_of::<Kept>() == 880 && offset_of!(Kept, number) == 864);
    assert!(offset_of!(Kept, place) == 872);
    assert!(size_of::<Entered>() == 888 && offset_of!(Entered, count) == 880);
    assert!(offset_of!(Entered, number) == 864 && offset_of!(Entered, place) == 872);
    assert!(size_of::<Reading>() == 24 && offset_of!(Reading, sum) == 16);
    assert!(offset_of!(Reading, counted) == 4 && offset_of!(Reading, mark) == 8);
    assert!(size_of::<Stored>() == 16 && offset_of!(Stored, length) == 8);
    assert!(size_of::<Found>() == 24 && offset_of!(Found, number) == 0);
    assert!(offset_of!(Found, next) == 8 && offset_of!(Found, entry) == 16);
    assert!(offset_of!(Found, day_kind) == 20);
    assert!(size_of::<Rewritten>() == 16 && offset_of!(Rewritten, number) == 0);
    assert!(offset_of!(Rewritten, next) == 8);
    assert!(size_of::<Drawn>() == 16 && offset_of!(Drawn, number) == 0);
    assert!(offset_of!(Drawn, seed) == 4 && offset_of!(Drawn, entry) == 8);
    assert!(offset_of!(Drawn, day_kind) == 12);
    assert!(size_of::<Left>() == 8 && offset_of!(Left, intervals) == 4);
    assert!(size_of::<Billed>() == 32 && offset_of!(Billed, number) == 0);
    assert!(offset_of!(Billed, place) == 8 && offset_of!(Billed, right) == 16);
    assert!(offset_of!(Billed, line) == 24);
    assert!(size_of::<Rows>() == 400 && offset_of!(Rows, place) == 8);
    assert!(offset_of!(Rows, weekday) == 16 && offset_of!(Rows, weekend) == 208);
};

impl Book {
    /// "A closed book (all zero)".
    pub const CLOSED: Book = Book {
        regions: 0,
        services: 0,
        window: 0,
        halves: 0,
        parents: [0; 8],
        from: 0,
        to: 0,
        threshold: 0,
        cap: 0,
        floor: 0,
        entries: 0,
        position: 0,
        counts: [0; 8],
        nexts: [0; 8],
        sums: [0; 88],
        marks: [0; 88],
    };
}

mod face {
    use super::{
        Billed, Book, Drawn, Entered, Found, Kept, Left, Reading, Rewritten, Rows, Settings, Stored,
    };

    extern "C" {
        pub fn guxhamole_open(settings: Settings, ring: *mut i32, ring_length: usize) -> Kept;
        pub fn guxhamole_set_threshold(book: Book, threshold: i64) -> Kept;
        pub fn guxhamole_set_limits(book: Book, cap: i32, floor: i32) -> Kept;
        pub fn guxhamole_report(book: Book, region: u32, market: u32) -> Reading;
        pub fn guxhamole_enter(
            book: Book,
            ring: *mut i32,
            ring_length: usize,
            number: u32,
            day_kind: u8,
            prices: *const i32,
            prices_length: usize,
            marks: *const u8,
            marks_length: usize,
            flows: *const i32,
            flows_length: usize,
            factors: *const u32,
            factors_length: usize,
            schedule: *const i32,
            schedule_length: usize,
            table: *mut i32,
            table_length: usize,
        ) -> Entered;
        pub fn guxhamole_store_kind_2(
            book: Book,
            ring: *const i32,
            ring_length: usize,
            image: *mut u8,
            image_length: usize,
        ) -> Stored;
        pub fn guxhamole_store(
            book: Book,
            ring: *const i32,
            ring_length: usize,
            image: *mut u8,
            image_length: usize,
        ) -> Stored;
        pub fn guxhamole_load(
            image: *const u8,
            image_length: usize,
            ring: *mut i32,
            ring_length: usize,
        ) -> Kept;
        pub fn guxhamole_interval_read(
            book: Book,
            records: *const u8,
            records_length: usize,
            at: usize,
            prices: *mut i32,
            prices_length: usize,
            marks: *mut u8,
            marks_length: usize,
            flows: *mut i32,
            flows_length: usize,
            factors: *mut u32,
            factors_length: usize,
        ) -> Found;
        pub fn guxhamole_interval_write(
            book: Book,
            entry: u32,
            day_kind: u8,
            prices: *const i32,
            prices_length: usize,
            marks: *const u8,
            marks_length: usize,
            flows: *const i32,
            flows_length: usize,
            factors: *const u32,
            factors_length: usize,
            buffer: *mut u8,
            buffer_length: usize,
        ) -> Stored;
        pub fn guxhamole_interval_rewrite(
            book: Book,
            records: *const u8,
            records_length: usize,
            at: usize,
            buffer: *mut u8,
            buffer_length: usize,
        ) -> Rewritten;
        pub fn guxhamole_synthetic(
            book: Book,
            seed: u32,
            entry: u32,
            day_kind: u8,
            prices: *mut i32,
            prices_length: usize,
            marks: *mut u8,
            marks_length: usize,
            flows: *mut i32,
            flows_length: usize,
            factors: *mut u32,
            factors_length: usize,
        ) -> Drawn;
        pub fn guxhamole_intervals_left(
            book: Book,
            ring: *const i32,
            ring_length: usize,
            region: u32,
            market: u32,
            price: i32,
        ) -> Left;
        pub fn guxhamole_bill(
            book: Book,
            ring: *const i32,
            ring_length: usize,
            work: *mut i32,
            work_length: usize,
            records: *const u8,
            records_length: usize,
            schedule: *const i32,
            schedule_length: usize,
            region: u32,
            numbers: *const u32,
            numbers_length: usize,
            energy: *const u32,
            energy_length: usize,
            prices: *const i32,
            prices_length: usize,
            amounts: *const i64,
            amounts_length: usize,
        ) -> Billed;
        pub fn guxhamole_schedule(
            halves: u8,
            cap: i32,
            floor: i32,
            energy: u8,
            prices: *const i32,
            prices_length: usize,
            day_kinds: *const u8,
            day_kinds_length: usize,
        ) -> Rows;
        pub fn guxhamole_amount_text(cents: i64, buffer: *mut u8, buffer_length: usize) -> usize;
        pub fn guxhamole_image_check(image: *const u8, length: usize) -> u32;
        pub fn guxhamole_index(
            amount: u64,
            c1: u32,
            c2: u32,
            c3: u32,
            c4: u32,
            b1: u32,
            b2: u32,
            b3: u32,
            b4: u32,
            last: u64,
        ) -> i64;
        pub fn guxhamole_replay(
            calls: *const u8,
            calls_length: usize,
            answers: *mut u8,
            answers_length: usize,
            ring: *mut i32,
            ring_length: usize,
            other: *mut i32,
            other_length: usize,
            image: *mut u8,
            image_length: usize,
            numbers: *mut i32,
            numbers_length: usize,
            factors: *mut u32,
            factors_length: usize,
            table: *mut i32,
            table_length: usize,
        ) -> usize;
        pub fn guxhamole_abi() -> u32;
    }
}

// "The slices" in the comments below: each pointer is its slice's, so that it is aligned, not null even where the slice is empty,
// and good for the length beside it, `&` to read and `&mut` to read and write. They are borrowed for the whole call, and the
// borrow checker keeps what is written apart from everything else that is lent. Any contents and lengths are allowed, books of
// any fields too, and no function keeps a pointer.

/// "Open: 20 a setting; 11 ring length; 18 threshold; 19 cap or floor", 44 "directly after 18".
pub fn open(settings: Settings, ring: &mut [i32]) -> Kept {
    // SAFETY: the slices are as said above.
    unsafe { face::guxhamole_open(settings, ring.as_mut_ptr(), ring.len()) }
}

/// "Settings: 10; 18 or 19", 44 "directly after 18".
pub fn set_threshold(book: Book, threshold: i64) -> Kept {
    // SAFETY: numbers alone go in and out; any are allowed.
    unsafe { face::guxhamole_set_threshold(book, threshold) }
}

/// "Settings: 10; 18 or 19."
pub fn set_limits(book: Book, cap: i32, floor: i32) -> Kept {
    // SAFETY: numbers alone go in and out; any are allowed.
    unsafe { face::guxhamole_set_limits(book, cap, floor) }
}

/// "Report: 10; 21 region or market."
pub fn report(book: Book, region: u32, market: u32) -> Reading {
    // SAFETY: numbers alone go in and out; any are allowed.
    unsafe { face::guxhamole_report(book, region, market) }
}

/// "Entry: 10; 11 any slice's length", and so on to 17.
pub fn enter(book: Book, ring: &mut [i32], entry: crate::Entry<'_>, table: &mut [i32]) -> Entered {
    // SAFETY: the slices are as said above; those of the entry are read alone, and may overlap each other.
    unsafe {
        face::guxhamole_enter(
            book,
            ring.as_mut_ptr(),
            ring.len(),
            entry.number,
            entry.day_kind,
            entry.prices.as_ptr(),
            entry.prices.len(),
            entry.marks.as_ptr(),
            entry.marks.len(),
            entry.flows.as_ptr(),
            entry.flows.len(),
            entry.factors.as_ptr(),
            entry.factors.len(),
            entry.schedule.as_ptr(),
            entry.schedule.len(),
            table.as_mut_ptr(),
            table.len(),
        )
    }
}

/// "Store: 10; 11; 22 …; 23 buffer shorter than the image." By kind 2, which tells every book.
pub fn store_kind_2(book: Book, ring: &[i32], image: &mut [u8]) -> Stored {
    let (buffer, length) = (image.as_mut_ptr(), image.len());
    // SAFETY: the slices are as said above.
    unsafe { face::guxhamole_store_kind_2(book, ring.as_ptr(), ring.len(), buffer, length) }
}

/// By kind 1: the same, and "47: storing as kind 1 a book with the link; after 22".
pub fn store(book: Book, ring: &[i32], image: &mut [u8]) -> Stored {
    let (buffer, length) = (image.as_mut_ptr(), image.len());
    // SAFETY: the slices are as said above.
    unsafe { face::guxhamole_store(book, ring.as_ptr(), ring.len(), buffer, length) }
}

/// "Load: 24 …; 25 kind; 26 a field …; 27 length formula; 11; 16".
pub fn load(image: &[u8], ring: &mut [i32]) -> Kept {
    let (places, length) = (ring.as_mut_ptr(), ring.len());
    // SAFETY: the slices are as said above.
    unsafe { face::guxhamole_load(image.as_ptr(), image.len(), places, length) }
}

/// "10, 11 … come first; per record 40, 41", and 45 "in the reader … takes the place of 42". Any place is allowed, beyond the records'
/// end too.
pub fn interval_read(
    book: Book,
    records: &[u8],
    at: usize,
    interval: crate::IntervalMut<'_>,
) -> Found {
    // SAFETY: the slices are as said above.
    unsafe {
        face::guxhamole_interval_read(
            book,
            records.as_ptr(),
            records.len(),
            at,
            interval.prices.as_mut_ptr(),
            interval.prices.len(),
            interval.marks.as_mut_ptr(),
            interval.marks.len(),
            interval.flows.as_mut_ptr(),
            interval.flows.len(),
            interval.factors.as_mut_ptr(),
            interval.factors.len(),
        )
    }
}

/// "10, 11 and the writer's 23".
pub fn interval_write(book: Book, interval: crate::Interval<'_>, buffer: &mut [u8]) -> Stored {
    // SAFETY: the slices are as said above; those of the interval are read alone, and may overlap each other.
    unsafe {
        face::guxhamole_interval_write(
            book,
            interval.number,
            interval.day_kind,
            interval.prices.as_ptr(),
            interval.prices.len(),
            interval.marks.as_ptr(),
            interval.marks.len(),
            interval.flows.as_ptr(),
            interval.flows.len(),
            interval.factors.as_ptr(),
            interval.factors.len(),
            buffer.as_mut_ptr(),
            buffer.len(),
        )
    }
}

/// "refusing by 10, 23, then 40 to 42". Any place is allowed, as to a reading.
pub fn interval_rewrite(book: Book, records: &[u8], at: usize, buffer: &mut [u8]) -> Rewritten {
    let (bytes, length) = (records.as_ptr(), records.len());
    let (written, room) = (buffer.as_mut_ptr(), buffer.len());
    // SAFETY: the slices are as said above.
    unsafe { face::guxhamole_interval_rewrite(book, bytes, length, at, written, room) }
}

/// "10, then 11 over the filled slices". The answer's entry and day kind are those given, of any values.
pub fn synthetic(
    book: Book,
    seed: u32,
    entry: u32,
    day_kind: u8,
    interval: crate::IntervalMut<'_>,
) -> Drawn {
    // SAFETY: the slices are as said above.
    unsafe {
        face::guxhamole_synthetic(
            book,
            seed,
            entry,
            day_kind,
            interval.prices.as_mut_ptr(),
            interval.prices.len(),
            interval.marks.as_mut_ptr(),
            interval.marks.len(),
            interval.flows.as_mut_ptr(),
            interval.flows.len(),
            interval.factors.as_mut_ptr(),
            interval.factors.len(),
        )
    }
}

/// "43: a price outside the entry range, tested after 10, 11, 21 and store's 22".
pub fn intervals_left(book: Book, ring: &[i32], region: u32, market: u32, price: i32) -> Left {
    let (places, length) = (ring.as_ptr(), ring.len());
    // SAFETY: the slices are as said above.
    unsafe { face::guxhamole_intervals_left(book, places, length, region, market, price) }
}

/// "once 10, 11 and 21 pass" the refusals "of the records and entries, taken interval by interval", then 46. The second ring is written
/// from then on, after a refusal too.
pub fn bill(
    book: Book,
    ring: &[i32],
    work: &mut [i32],
    records: &[u8],
    schedule: &[i32],
    region: u32,
    lines: crate::Lines<'_>,
) -> Billed {
    // SAFETY: the slices are as said above; but for the second ring they are read alone, and may overlap each other.
    unsafe {
        face::guxhamole_bill(
            book,
            ring.as_ptr(),
            ring.len(),
            work.as_mut_ptr(),
            work.len(),
            records.as_ptr(),
            records.len(),
            schedule.as_ptr(),
            schedule.len(),
            region,
            lines.numbers.as_ptr(),
            lines.numbers.len(),
            lines.energy.as_ptr(),
            lines.energy.len(),
            lines.prices.as_ptr(),
            lines.prices.len(),
            lines.amounts.as_ptr(),
            lines.amounts.len(),
        )
    }
}

/// "Maker: 31 H or lengths; 32 kind not 0 or 1, or one kind missing; 19; 16 with place." 0 is a service, anything else energy.
pub fn schedule(halves: u8, limits: (i32, i32), energy: u8, prices: &[i32], kinds: &[u8]) -> Rows {
    let (cap, floor) = limits;
    // SAFETY: the slices are as said above.
    unsafe {
        face::guxhamole_schedule(
            halves,
            cap,
            floor,
            energy,
            prices.as_ptr(),
            prices.len(),
            kinds.as_ptr(),
            kinds.len(),
        )
    }
}

/// The bytes written; 0 where there is no room.
pub fn amount_text(cents: i64, buffer: &mut [u8]) -> usize {
    // SAFETY: the slices are as said above.
    unsafe { face::guxhamole_amount_text(cents, buffer.as_mut_ptr(), buffer.len()) }
}

/// 0, or the number of the first refusal.
pub fn image_check(image: &[u8]) -> u32 {
    // SAFETY: the slices are as said above.
    unsafe { face::guxhamole_image_check(image.as_ptr(), image.len()) }
}

/// The dollars, or -30.
pub fn index(amount: u64, c: [u32; 4], b: [u32; 4], last: u64) -> i64 {
    let ([c1, c2, c3, c4], [b1, b2, b3, b4]) = (c, b);
    // SAFETY: numbers alone go in and out; any are allowed.
    unsafe { face::guxhamole_index(amount, c1, c2, c3, c4, b1, b2, b3, b4, last) }
}

/// How many of the answers' bytes were written.
#[allow(clippy::too_many_arguments)] // The C face's slices, one by one.
pub fn replay(
    calls: &[u8],
    answers: &mut [u8],
    ring: &mut [i32],
    other: &mut [i32],
    image: &mut [u8],
    numbers: &mut [i32],
    factors: &mut [u32],
    table: &mut [i32],
) -> usize {
    // SAFETY: the slices are as said above.
    unsafe {
        face::guxhamole_replay(
            calls.as_ptr(),
            calls.len(),
            answers.as_mut_ptr(),
            answers.len(),
            ring.as_mut_ptr(),
            ring.len(),
            other.as_mut_ptr(),
            other.len(),
            image.as_mut_ptr(),
            image.len(),
            numbers.as_mut_ptr(),
            numbers.len(),
            factors.as_mut_ptr(),
            factors.len(),
            table.as_mut_ptr(),
            table.len(),
        )
    }
}

/// The archive's version.
pub fn abi() -> u32 {
    // SAFETY: it takes nothing and answers a number.
    unsafe { face::guxhamole_abi() }
}
