//! The second method: document 01, and the requests of document 02, worked another way, to compare the proved library with.
//!
//! It is no transcription of the definitions under `crates/*/specs`. A book is a map from MPANs to meters that keeps every
//! reading; cells are sums in 128 bits; shares are exact fractions; the last watt-hours go out by sorting the units; droppings are
//! worked from the meters of a unit, not from its cells; totals are of meters picked out tariff by tariff; running cells change by the
//! difference of two sums over all meters, worked anew before and after each call.

pub mod allocation;
pub mod book;
pub mod cells;
pub mod droppings;
pub mod fraction;
pub mod meaning;
pub mod ranges;
pub mod running;
pub mod slice;
pub mod totals;
pub mod words;

pub use book::Book;
pub use meaning::Meaning;
pub use running::Running;
