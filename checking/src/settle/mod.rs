//! The program `settle`: its format by a second implementation, random period files, and runs of the program on them.

pub mod drive;
pub mod files;
pub mod format;
