//! The refusals of every call.

use core::fmt;

/// Why a call was refused: the first of its refusals that holds. docs/REFUSALS.md says of each what a host should do.
///
/// ```
/// use guxhamole::Refusal;
///
/// let refusal = Refusal::Price(3);
/// assert_eq!((refusal.number(), refusal.place()), (16, Some(3)));
/// assert_eq!(refusal.to_string(), "refused 16 at 3: a price out of its market's range");
/// assert_eq!(Refusal::Full.to_string(), "refused 12: 10,000,000 entries taken");
/// ```
#[derive(Clone, Copy, Debug, PartialEq, Eq, Hash)]
#[non_exhaustive]
pub enum Refusal {
    /// 10: the book is closed, or a field is outside its limits.
    Book,
    /// 11: a lent slice's length.
    Length,
    /// 12: 10,000,000 entries taken.
    Full,
    /// 13: the entry's number is not the next.
    Number,
    /// 14: the day kind is neither 0 nor 1.
    DayKind,
    /// 15: a mark is neither 0 nor 1; the region.
    Mark(usize),
    /// 16: a price is out of its market's range; its place in the lent prices, or among the image's. The image check names no
    /// place and says 0.
    Price(usize),
    /// 17: the factor of a region that has a parent, or of the additional link, is out of range; the region, or R for that link.
    Factor(usize),
    /// 18: the threshold is out of range.
    Threshold,
    /// 19: the cap or the floor.
    Limits,
    /// 20: a setting of the opening; also ends of an additional link that are no two regions, or two that are linked already.
    Setting,
    /// 21: the region or the market of a report, or of a question for the intervals left; a bill's region.
    Market,
    /// 22: a counted price of the ring is out of range, or a sum isn't the total of its prices.
    Sums,
    /// 23: the buffer is shorter than the image, or than the interval's records.
    Buffer,
    /// 24: fewer than 148 bytes, of kind 2 fewer than 156, or a length field that isn't the image's length.
    ImageLength,
    /// 25: the image's kind is neither 1 nor 2.
    ImageKind,
    /// 26: a field of the image's bytes 6 to 147, of kind 2 to 155.
    ImageField,
    /// 27: the image's length is not what its kind and counts ask for.
    ImageTotal,
    /// 30: an argument of the index.
    Index,
    /// 31: the schedule maker's half-hours or lengths.
    MakerSizes,
    /// 32: a day kind of the schedule maker is neither 0 nor 1, or one of the two is missing.
    MakerKinds,
    /// 33: the buffer is too short for the text.
    Text,
    /// 40: a record of an interval is missing, cut short, or of another length than its kind has.
    Broken,
    /// 41: a record's kind, or the region total of an interval's head, doesn't belong there.
    RecordKind,
    /// 42: a record to be rewritten is of a region from R up, or of one that was given before.
    RecordRegion,
    /// 43: the price asked about is out of its market's range.
    PlannedPrice,
    /// 44: the threshold of an opening or a setting is within its range, but no multiple of 10,000 cents, a hundred dollars. An image may
    /// hold such a one.
    Hundreds,
    /// 45: a record that is read isn't the next region's. Records of the form before request 2026-08, in which regions stand in any order,
    /// are rewritten once by [`crate::Book::rewrite_interval`].
    RecordOrder,
    /// 46: the kilowatt-hours of a bill's line are above 1,000,000,000; the line.
    BilledEnergy(usize),
    /// 47: a book with the additional link cannot be stored by kind 1; [`crate::Book::store`] stores every book.
    ImageFirst,
    /// A number that this crate doesn't know: the archive is a later one ([`crate::abi`]).
    Other(u32),
}

impl Refusal {
    /// The refusal that an answer's number and place say.
    pub(crate) fn new(number: u32, place: u64) -> Refusal {
        let place = place as usize;
        match number {
            10 => Refusal::Book,
            11 => Refusal::Length,
            12 => Refusal::Full,
            13 => Refusal::Number,
            14 => Refusal::DayKind,
            15 => Refusal::Mark(place),
            16 => Refusal::Price(place),
            17 => Refusal::Factor(place),
            18 => Refusal::Threshold,
            19 => Refusal::Limits,
            20 => Refusal::Setting,
            21 => Refusal::Market,
            22 => Refusal::Sums,
            23 => Refusal::Buffer,
            24 => Refusal::ImageLength,
            25 => Refusal::ImageKind,
            26 => Refusal::ImageField,
            27 => Refusal::ImageTotal,
            30 => Refusal::Index,
            31 => Refusal::MakerSizes,
            32 => Refusal::MakerKinds,
            33 => Refusal::Text,
            40 => Refusal::Broken,
            41 => Refusal::RecordKind,
            42 => Refusal::RecordRegion,
            43 => Refusal::PlannedPrice,
            44 => Refusal::Hundreds,
            45 => Refusal::RecordOrder,
            46 => Refusal::BilledEnergy(place),
            47 => Refusal::ImageFirst,
            _ => Refusal::Other(number),
        }
    }

    /// Accepted (0), or the refusal.
    pub(crate) fn unless_accepted(number: u32, place: u64) -> Result<(), Refusal> {
        match number {
            0 => Ok(()),
            _ => Err(Refusal::new(number, place)),
        }
    }

    /// Document 01's number, or document 02's from 40 on.
    pub fn number(self) -> u32 {
        self.described().0
    }

    /// The place in the lent slice, where the refusal names one; of 15 to 17 of a bill the place within their own entry.
    pub fn place(self) -> Option<usize> {
        match self {
            Refusal::Mark(place) | Refusal::Price(place) | Refusal::Factor(place) => Some(place),
            Refusal::BilledEnergy(line) => Some(line),
            _ => None,
        }
    }

    /// Number and meaning, side by side so that they cannot part.
    fn described(self) -> (u32, &'static str) {
        match self {
            Refusal::Book => (10, "the book is closed, or a field is outside its limits"),
            Refusal::Length => (11, "a lent slice's length"),
            Refusal::Full => (12, "10,000,000 entries taken"),
            Refusal::Number => (13, "the entry's number is not the next"),
            Refusal::DayKind => (14, "a day kind that is neither 0 nor 1"),
            Refusal::Mark(_) => (15, "a mark that is neither 0 nor 1"),
            Refusal::Price(_) => (16, "a price out of its market's range"),
            Refusal::Factor(_) => (17, "a link's factor out of range"),
            Refusal::Threshold => (18, "a threshold out of range"),
            Refusal::Limits => (19, "a cap or floor out of range"),
            Refusal::Setting => (20, "a setting out of range, or ends that cannot be linked"),
            Refusal::Market => (21, "no such region or market"),
            Refusal::Sums => (22, "the ring is not the book's"),
            Refusal::Buffer => (23, "a buffer shorter than the image or the interval"),
            Refusal::ImageLength => (24, "the image was cut, or is none"),
            Refusal::ImageKind => (25, "no image of a book, of kind 1 or 2"),
            Refusal::ImageField => (26, "a field of the image outside its limits"),
            Refusal::ImageTotal => (27, "another length than kind and counts ask for"),
            Refusal::Index => (30, "an argument of the index out of range"),
            Refusal::MakerSizes => (31, "half-hours or lengths of the schedule maker"),
            Refusal::MakerKinds => (32, "day kinds of the schedule maker"),
            Refusal::Text => (33, "a buffer too short for the text"),
            Refusal::Broken => (
                40,
                "a record missing, cut short, or of another length than its kind has",
            ),
            Refusal::RecordKind => (
                41,
                "a record's kind, or a head's region total, that doesn't belong there",
            ),
            Refusal::RecordRegion => (42, "a record of a region from R up or given before"),
            Refusal::PlannedPrice => (43, "a price asked about, out of its market's range"),
            Refusal::Hundreds => (44, "a threshold that is no multiple of 10,000 cents"),
            Refusal::RecordOrder => (45, "a region's record that isn't the next region's"),
            Refusal::BilledEnergy(_) => (46, "a line's kilowatt-hours above 1,000,000,000"),
            Refusal::ImageFirst => (47, "a book with the additional link, stored by kind 1"),
            Refusal::Other(number) => (number, "a refusal of a later archive"),
        }
    }
}

impl fmt::Display for Refusal {
    fn fmt(&self, f: &mut fmt::Formatter<'_>) -> fmt::Result {
        let (number, meaning) = self.described();
        match self.place() {
            Some(place) => write!(f, "refused {number} at {place}: {meaning}"),
            None => write!(f, "refused {number}: {meaning}"),
        }
    }
}

impl core::error::Error for Refusal {}

#[cfg(test)]
mod tests {
    use super::Refusal;

    /// Every number comes back as it went in, with its place where it has one, and none is unknown but those that are.
    #[test]
    fn numbers_come_back() {
        for number in (1..=100).chain([u32::MAX]) {
            let refusal = Refusal::new(number, 7);
            assert_eq!(refusal.number(), number);
            let placed = (15..=17).contains(&number) || number == 46;
            assert_eq!(refusal.place(), placed.then_some(7));
            let known = [10..=27, 30..=33, 40..=47];
            let known = known.iter().any(|numbers| numbers.contains(&number));
            assert_eq!(refusal == Refusal::Other(number), !known);
        }
    }
}
