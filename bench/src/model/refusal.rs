//! What is turned away (01, "What is turned away"), and an entry's answer as one number.

use std::ops::{Deref, DerefMut};

/// 01's numbers 1 to 16, then those of 02; 8, TWICE, is no longer given (02, W-209).
#[derive(Clone, Copy, Debug, PartialEq, Eq)]
pub enum Number {
    Length = 1,
    Width,
    Count,
    Long,
    Short,
    Cell,
    Fresh,
    Extra = 9,
    Size,
    Ends,
    Open,
    Edges,
    Label,
    Rows,
    Room,
    Bytes,
    Text,
    Other,
    Figure,
    Full,
    Last,
    Index,
    Same,
    Big,
    Names,
    Blocks,
    Damage,
    Sizes,
    Padding,
    Head,
    None,
    Column,
    Early,
}

/// Their names, by number from 1.
pub const NAMES: [&str; 34] = [
    "LENGTH", "WIDTH", "COUNT", "LONG", "SHORT", "CELL", "FRESH", "TWICE", "EXTRA", "SIZE", "ENDS", "OPEN", "EDGES", "LABEL", "ROWS", "ROOM",
    "BYTES", "TEXT", "OTHER", "FIGURE", "FULL", "LAST", "INDEX", "SAME", "BIG", "NAMES", "BLOCKS", "DAMAGE", "SIZES", "PADDING", "HEAD", "NONE",
    "COLUMN", "EARLY",
];

/// The number that is never given again.
pub const NEVER: usize = 8;

/// Something for each refusal by its number, and at 0 for what is no refusal.
pub struct ByNumber<T>([T; NAMES.len() + 1]);

impl<T: Copy + Default> Default for ByNumber<T> {
    fn default() -> ByNumber<T> {
        ByNumber([T::default(); NAMES.len() + 1])
    }
}

impl<T> Deref for ByNumber<T> {
    type Target = [T];
    fn deref(&self) -> &[T] {
        &self.0
    }
}

impl<T> DerefMut for ByNumber<T> {
    fn deref_mut(&mut self) -> &mut [T] {
        &mut self.0
    }
}

/// All numbers that can be given.
pub fn given() -> impl Iterator<Item = usize> {
    (1..=NAMES.len()).filter(|&number| number != NEVER)
}

/// Which input a refusal concerns.
#[derive(Clone, Copy, Debug, PartialEq, Eq)]
pub enum Input {
    Table = 1,
    Plan,
    Goal,
    Room,
    Text,
    Figure,
    Names,
    File,
    Columns,
}

#[derive(Clone, Copy, Debug, PartialEq, Eq)]
pub struct Refusal {
    pub number: Number,
    pub input: Input,
    pub place: usize,
}

/// An entry's two values, or its refusal.
pub type Answer = Result<(usize, usize), Refusal>;

/// The answer as the exported functions give it: 2^16 · first + 2^32 · second, or of a refusal number + 2^8 · input + 2^16 · place.
pub fn packed(answer: Answer) -> u64 {
    match answer {
        Ok((first, second)) => (first as u64) << 16 | (second as u64) << 32,
        Err(refusal) => refusal.number as u64 | (refusal.input as u64) << 8 | (refusal.place as u64) << 16,
    }
}
