//! docs/RECORDS.md as a writer of calls and a splitter of answers. It knows the layout and no book, so that any lengths,
//! any numbers and any damage can be written.

pub mod answers;
pub mod calls;

pub use answers::{split, Answer, Values};
pub use calls::{bytes, Damage, Entry, Opening, Record};

/// The kinds of calls.
pub const OPENING: u16 = 64;
pub const ENTRY: u16 = 65;
pub const THRESHOLD: u16 = 66;
pub const LIMITS: u16 = 67;
pub const REPORT: u16 = 68;
pub const RESTART: u16 = 69;
