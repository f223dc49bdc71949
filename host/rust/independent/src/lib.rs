//! Document 01 written a second time, from the paper alone, and a player of docs/RECORDS.md over it. It shares no
//! definition and no code with the proved book: the ledger keeps the whole history and recomputes every sum, count,
//! position and period from it, and limits go over every route one by one. Beside it stand a cache of what it recomputes,
//! for windows of thousands of prices, and the book as a host keeps it, with its ring; and document 02's interval records,
//! with the earlier form and its rewriter, intervals left, thresholds in whole hundreds, test load, a retailer's bill, and one
//! additional link.
//! Quotations are document 01's unless a file says otherwise.

pub mod amount;
pub mod bill;
pub mod book;
mod cache;
pub mod calls;
mod checking;
mod earlier;
pub mod image;
pub mod index;
pub mod interval;
pub mod ledger;
mod left;
pub mod maker;
pub mod player;
pub mod publishing;
pub mod rings;
pub mod rounding;
pub mod rules;
mod synthetic;

pub use calls::{Answer, Call, Values};
pub use image::Kind;
pub use ledger::{Ledger, Report};
pub use rules::{Opening, Refusal};
