//! Document 01's book by hand, for speed: the baseline that the proved functions are measured against. Running sums,
//! lent slices, no allocation; rule 10 and every other refusal at every call, as there. Document 02's interval records,
//! intervals left, test load and bills beside it, its additional link (`routes`), and the schedule maker.
//! Quotations are document 01's unless a file says otherwise.

#![no_std]
#![forbid(unsafe_code)]

pub mod bill;
pub mod book;
mod bytes;
pub mod entry;
pub mod image;
pub mod interval;
mod left;
pub mod maker;
mod publishing;
mod replay;
pub mod routes;
mod synthetic;

pub use book::{Book, Opening, Refusal, Report};
pub use entry::Entry;
pub use maker::schedule;
pub use replay::replay;
