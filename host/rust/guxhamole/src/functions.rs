//! The functions that need no book: image check, schedule maker, index, amount text, replay, and the archive's version.

use crate::{raw, Refusal};

/// The version of the C face that this crate was written for.
pub const ABI: u32 = 2;

/// The archive's version; where it isn't [`ABI`], crate and archive do not belong together.
///
/// ```
/// assert_eq!(guxhamole::abi(), guxhamole::ABI);
/// ```
pub fn abi() -> u32 {
    raw::abi()
}

/// Whether a load would take these bytes, of either kind, whatever the ring's length: 24, 25, 26, 27, 16, whose place is 0 here.
///
/// ```
/// use guxhamole::Refusal;
///
/// assert_eq!(guxhamole::check(&[0; 147]), Err(Refusal::ImageLength));
/// ```
pub fn check(image: &[u8]) -> Result<(), Refusal> {
    Refusal::unless_accepted(raw::image_check(image), 0)
}

/// A market's scheduled prices: a row a day kind, places from H up zero.
#[derive(Clone, Copy, Debug, PartialEq, Eq)]
pub struct Schedule {
    /// Day kind 0.
    pub weekday: [i32; 48],
    /// Day kind 1: weekend or holiday.
    pub weekend: [i32; 48],
}

/// Makes the schedule of one market from 28 days × 6 × H prices, day by day, and 28 day kinds: 31, 32, 19, 16 with its place.
///
/// ```
/// // A day of one half-hour: five days at 100, two at 40, four times.
/// let (mut prices, mut kinds) = ([100; 168], [0; 28]);
/// for day in (0..28).filter(|day| day % 7 >= 5) {
///     prices[6 * day..6 * day + 6].fill(40);
///     kinds[day] = 1;
/// }
/// let schedule = guxhamole::schedule(1, 60_000, -60_000, true, &prices, &kinds)?;
/// assert_eq!((schedule.weekday[0], schedule.weekend[0]), (100, 40));
/// # Ok::<(), guxhamole::Refusal>(())
/// ```
pub fn schedule(
    halves: u8,
    cap: i32,
    floor: i32,
    energy: bool,
    prices: &[i32],
    day_kinds: &[u8],
) -> Result<Schedule, Refusal> {
    let made = raw::schedule(halves, (cap, floor), energy.into(), prices, day_kinds);
    Refusal::unless_accepted(made.number, made.place)?;
    Ok(Schedule {
        weekday: made.weekday,
        weekend: made.weekend,
    })
}

/// An amount in whole dollars, indexed by the four quarters of year c over those of year b, in tenths, and never below last
/// year's: 30.
///
/// ```
/// let (c, b) = ([1_178, 1_190, 1_200, 1_209], [950, 959, 965, 970]);
/// assert_eq!(guxhamole::index(1_125_000, c, b, 1_359_100), Ok(1_398_100));
/// ```
pub fn index(amount: u64, c: [u32; 4], b: [u32; 4], last: u64) -> Result<u64, Refusal> {
    let dollars = raw::index(amount, c, b, last);
    u64::try_from(dollars).map_err(|_| Refusal::new(dollars.unsigned_abs() as u32, 0))
}

/// An amount in dollars and cents, written as the first part of the buffer; the rest stays. 33 where it is too short:
/// [`crate::TEXT_LENGTH`] bytes hold every text.
///
/// ```
/// let mut buffer = [0; guxhamole::TEXT_LENGTH];
/// assert_eq!(guxhamole::amount_text(-5_000, &mut buffer), Ok("-50.00"));
/// ```
pub fn amount_text(cents: i64, buffer: &mut [u8]) -> Result<&str, Refusal> {
    let length = raw::amount_text(cents, buffer);
    let text = buffer.get(..length).unwrap_or_default();
    // What is written is a minus, digits and a point, so that it is text; no room is a length of 0.
    match core::str::from_utf8(text) {
        Ok(text) if length > 0 => Ok(text),
        _ => Err(Refusal::Text),
    }
}

/// Plays a list of calls from its opening on, as docs/RECORDS.md says: how many of the answers' bytes were written. A running
/// box calls [`crate::Book`]; this is for lists that are played whole. Their openings have no additional link, and their restarts go by
/// images of kind 1.
///
/// ```
/// // No opening stands first: nothing is played.
/// let written = guxhamole::replay(&[0; 38], &mut [0; 14], &mut [], &mut [], &mut [], &mut [], &mut [], &mut []);
/// assert_eq!(written, 0);
/// ```
#[allow(clippy::too_many_arguments)] // The C face's slices, one by one.
pub fn replay(
    calls: &[u8],
    answers: &mut [u8],
    ring: &mut [i32],
    other: &mut [i32],
    image: &mut [u8],
    numbers: &mut [i32],
    factors: &mut [u32],
    table: &mut [i32],
) -> usize {
    raw::replay(calls, answers, ring, other, image, numbers, factors, table)
}
