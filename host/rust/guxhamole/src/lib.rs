//! A book of administered electricity prices for a running box: the compiled, proved functions of libcapi.a over a book and a
//! ring that the host keeps. No allocation, no `std`.
//!
//! Proved of each function, for all arguments: it ends, reads and writes only what it is lent, keeps no pointer and no state of
//! its own, and its whole outcome is that of the definitions of document 01, and of document 02 for interval records
//! ([`Book::read_interval`], [`Book::write_interval`], [`Book::rewrite_interval`]), for the intervals left ([`Book::intervals_left`]),
//! for the test load ([`Book::synthetic`]) and for a retailer's bill ([`Book::check_bill`]). A refused call changes nothing, but for the
//! second ring of a bill, which is there to be worked in.
//!
//! # What the host must do
//!
//! The theorem speaks of lists of calls that begin with an opening, or with the load of an image of a book without entries and with no
//! period marked: whatever they are and however many, every answer is the ledger machine's (README, "How to read the theorem"). A host
//! has that theorem if it
//!
//! - hands each call the book that the call before left: it keeps one [`Book`], from [`Book::open`] or [`Book::load`], and calls
//!   its methods; it neither goes back to an older copy nor puts a book together from bytes or fields;
//! - lends each entry, each store, each question for the intervals left and each bill the ring that the book was opened or loaded
//!   with, and lets nothing but these calls write it;
//! - restarts by [`Book::store`], or by [`Book::store_kind_1`] where 47 allows it, and, from exactly the image's bytes, [`Book::load`]
//!   into another ring, and goes on with the book and ring that the load left.
//!
//! A host that breaks these rules still has safe calls: a damaged book is refused by 10, a ring that isn't the book's by 22 when
//! it is stored or asked about, a damaged image by 24 to 27 or 16. What keeps its form, such as an older copy, may go unnoticed.
//!
//! # An interval
//!
//! ```
//! use guxhamole::{Book, Entry, Refusal, Settings};
//!
//! // One region, energy alone, a window of two prices, a day of six intervals.
//! let settings = Settings { regions: 1, services: 0, window: 2, halves: 1, threshold: 90_000, ..Settings::default() };
//! let settings = Settings { parents: [255; 8], ..settings };
//! let mut ring = [0; 2];
//! let mut book = Book::open(settings, &mut ring)?;
//!
//! let entry = Entry {
//!     number: 0,
//!     day_kind: 0,
//!     prices: &[100_000],
//!     marks: &[0],
//!     flows: &[0],
//!     factors: &[10_000],
//!     schedule: &[0; 2],
//! };
//! let mut table = [0];
//! let changed = book.enter(&mut ring, entry, &mut table)?;
//! assert_eq!((changed, table), (0, [100_000]));
//!
//! // The sum exceeds the threshold: from the next interval on energy is held within floor and cap.
//! assert!(book.report(0, 0)?.administered);
//! let entry = Entry { number: 1, prices: &[80_000], ..entry };
//! let changed = book.enter(&mut ring, entry, &mut table)?;
//! assert_eq!((changed, table), (1, [60_000]));
//!
//! // Sent again, an interval counts once.
//! assert_eq!(book.enter(&mut ring, entry, &mut table), Err(Refusal::Number));
//! assert_eq!(book.entries(), 2);
//! # Ok::<(), Refusal>(())
//! ```
#![no_std]
#![deny(unsafe_code, unsafe_op_in_unsafe_fn, missing_docs)]

#[cfg(test)]
extern crate std;

mod bill;
mod book;
mod functions;
mod interval;
mod lengths;
mod refusal;
mod synthetic;

#[allow(unsafe_code)] // The one place: the C functions are called there and nowhere else.
pub mod raw;

pub use bill::{Judgement, Lines};
pub use book::{Book, Entry, Report, Settings};
pub use functions::{abi, amount_text, check, index, replay, schedule, Schedule, ABI};
pub use interval::{Found, Interval, IntervalMut};
pub use lengths::*;
pub use refusal::Refusal;
pub use synthetic::Drawn;
