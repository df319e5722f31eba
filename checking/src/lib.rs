//! Cepnhoy's checking program: it works figures of document 01 by a second method and compares the proved library with them.

pub mod books;
pub mod boundaries;
pub mod call;
pub mod cells;
pub mod check;
pub mod compare;
pub mod damage;
pub mod droppings;
pub mod entry;
pub mod figures;
pub mod large;
pub mod lent;
pub mod model;
pub mod moved;
mod named;
pub mod observe;
pub mod probe;
pub mod profile;
pub mod random;
pub mod reach;
pub mod run;
pub mod settle;
pub mod shrink;
pub mod situation;
pub mod totals;
