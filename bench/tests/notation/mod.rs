//! 01's notation as cells.

pub use dudowiej_bench::notation::*;
