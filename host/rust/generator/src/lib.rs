//! Seeded, bounded lists of calls, their records, images, interval records, draws of a test load, questions for the intervals left,
//! bills, calls of the schedule maker and index arguments for the differential test.

pub mod bills;
pub mod calls;
pub mod draws;
pub mod images;
pub mod indexes;
pub mod intervals;
pub mod lists;
pub mod makings;
pub mod questions;
pub mod random;
mod ties;
pub mod weeks;

pub use random::Random;
