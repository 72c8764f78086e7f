//! What the programs for a shop's cells share: the shop's names, and a file's cells.

use crate::shared;
use dudowiej::{name, Refusal, TABLE_CELLS};
use std::process::ExitCode;

pub const RED: u32 = name(1, 0);
pub const BLUE: u32 = name(2, 0);
pub const WHITE: u32 = name(3, 0);
pub const BLACK: u32 = name(4, 0);
pub const RING: u32 = name(11, 0);
pub const BROOCH: u32 = name(12, 0);
pub const BOWL: u32 = name(13, 1);
pub const LARGE: u32 = name(22, 0);
pub const SOFT: u32 = name(31, 0);
pub const HARD: u32 = name(33, 0);
pub const SHELF: u32 = name(35, 1);

/// The cells of the file that the one argument names are handed on. One cell more than a table may have is read, so that too long a file is
/// seen to be one.
pub fn with_cells(program: &str, work: impl FnOnce(&[u32]) -> Result<(), Refusal>) -> ExitCode {
    shared::with_file(program, 4 * (TABLE_CELLS + 1), |bytes| work(&cells_of(bytes)))
}

/// Bytes as little-endian cells. Bytes that are not whole cells are none, as in planlist, and so no table: 1 at 0.
fn cells_of(bytes: &[u8]) -> Vec<u32> {
    let cells = bytes.chunks_exact(4);
    if !cells.remainder().is_empty() {
        return Vec::new();
    }
    cells.map(|cell| u32::from_le_bytes(cell.try_into().expect("four bytes"))).collect()
}

/// The shop's word for the name of a number.
pub fn name_of(number: u16) -> &'static str {
    match number {
        1 => "red",
        2 => "blue",
        3 => "white",
        4 => "black",
        11 => "ring",
        12 => "brooch",
        13 => "bowl",
        21 => "small",
        22 => "large",
        31 => "soft",
        32 => "medium",
        33 => "hard",
        34 => "heat",
        35 => "shelf",
        _ => "?",
    }
}
