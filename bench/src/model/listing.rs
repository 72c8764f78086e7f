//! What the listing program prints (01, "On both sides").

use std::fmt::Write;

use super::least::least;
use super::read::{read_table, TABLE_CELLS};
use super::term::Symbol;

/// The listing of a table given as bytes.
pub fn listing(bytes: &[u8]) -> String {
    let words = bytes.chunks_exact(4);
    if !words.remainder().is_empty() || bytes.len() > 4 * TABLE_CELLS {
        return "refused 1 at 0\n".to_string();
    }
    let cells: Vec<u32> = words.map(|b| u32::from_le_bytes([b[0], b[1], b[2], b[3]])).collect();
    let table = match read_table(&cells) {
        Ok(table) => table,
        Err(refusal) => return format!("refused {} at {}\n", refusal.number as u32, refusal.place),
    };
    let plan = least(&table);
    let mut text = format!("rows {} width {} edges {}\n", table.rows.len(), table.width, plan.branches.len());
    for branch in &plan.branches {
        let symbol = match Symbol::of(branch.cell).expect("a row's cell") {
            Symbol::Variable(number) => format!("v{number}"),
            Symbol::Name { number, arguments } => format!("n{number}/{arguments}"),
            Symbol::Number(value) => format!("i{value}"),
        };
        let rows = branch.rows();
        writeln!(text, "{} {} {symbol} {}-{}", branch.depth(), branch.place(), rows.start, rows.end - 1).expect("a string takes all");
    }
    text
}
