//! What the programs of this folder share.

pub mod shared;
pub mod shop;
