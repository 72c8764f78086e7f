//! What no table, row, goal, plan, text, reply, program or file exceeds. Rooms of these sizes are always large enough.

/// The columns of a table.
pub const COLUMNS: usize = 8;
/// The rows of a table.
pub const ROWS: usize = 64;
/// The cells of a row.
pub const ROW_CELLS: usize = 32;
/// The cells of a goal.
pub const GOAL_CELLS: usize = 32;
/// The cells of a table: its width, its number of rows, and the rows.
pub const TABLE_CELLS: usize = 2 + ROWS * ROW_CELLS;
/// The cells of a plan.
pub const PLAN_CELLS: usize = 6_082;
/// The bytes of a text.
pub const TEXT_BYTES: usize = 65_535;
/// The names of a table.
pub const NAMES: usize = 2_048;
/// The cells of a reply.
pub const REPLY_CELLS: usize = 1_024;
/// The clauses of a plan that is handed back as Prolog.
pub const CLAUSES: usize = 127;
/// The bytes of such a program, for a table that was read from a text and with the text's own names.
pub const PROGRAM_BYTES: usize = 131_072;
/// The bytes of a block of a file.
pub const BLOCK_BYTES: usize = 512;
/// The bytes of a file.
pub const FILE_BYTES: usize = 66 * BLOCK_BYTES;
/// The most that a figure may be.
pub const MOST_FIGURE: u32 = 15;
/// The numbers of a record.
pub const RECORD_CELLS: usize = 14_340;

/// The cells and the names that a text may mean, whether or not they are a table's: with rooms of these sizes too large a table is refused
/// as a table.
pub(crate) const TEXT_CELLS: usize = 32_768;
pub(crate) const TEXT_NAMES: usize = 32_766;
