//! The same calls in Rust, written for speed and without a look at the proved code's proofs: standard library only, no allocation,
//! everything in the lent slices and on the stack, as the proved library works.

mod allocation;
mod book;
mod cells;
mod list;
mod rows;
mod totals;
mod words;

pub use allocation::allocate;
pub use book::{record_reading, register, set_shape};
pub use list::{make_calls, settle_list};
pub use totals::totals;

pub const ACCEPTED: u64 = 0;
pub const BOOK_ILL_FORMED: u64 = 1;
pub const OUT_OF_RANGE: u64 = 2;
pub const QUALITY_REFUSED: u64 = 3;
pub const METER_UNKNOWN: u64 = 4;
pub const ISSUE_NOT_ABOVE: u64 = 5;
pub const NO_ROOM: u64 = 6;
pub const VOLUMES_SHORT: u64 = 7;
pub const TAKE_UNSET: u64 = 8;
pub const SHAPE_MISSING: u64 = 9;
pub const WEIGHTED_BELOW_ONE: u64 = 10;
pub const TOLERANCE_EXCEEDED: u64 = 11;
pub const TOTALS_SHORT: u64 = 12;
pub const CELLS_SHORT: u64 = 13;
pub const LIST_MISSHAPEN: u64 = 19;
