//! The entries as the header declares them (include/dudowiej.h), for programs that lend rooms of their own or measure the calls.
//! Everything else in this crate is safe, and calls these.
//!
//! A list is a pointer and a length. A pointer is aligned and not null, even where the length is 0, and good for as many elements as the
//! length says; what a call writes shares no memory with its other inputs. Slices and references give all of this. Each entry takes any
//! cells at all, and answers one number:
//!
//! ```text
//! answered    2^16 * first + 2^32 * second           first < 2^16, second < 2^32
//! refused     number + 2^8 * input + 2^16 * place    1 <= number < 2^8, input < 2^8, place < 2^48
//! ```

use crate::limits::RECORD_CELLS;

/// A record's numbers, as W-207 lays them out: the table's number of cells, the figure, the table, and what is worked out for every run of
/// its rows.
pub type Record = [u32; RECORD_CELLS];

/// One goal of a list. Before the call `start` and `count` say where its cells lie; the rest is written by [`dudowiej_run_jobs`].
#[repr(C)]
#[derive(Debug, Clone, Copy, Default, PartialEq, Eq)]
pub struct Job {
    /// Where the goal's cells start among the lent cells.
    pub start: usize,
    /// How many they are.
    pub count: usize,
    /// The refusal's number, or 0.
    pub number: usize,
    /// The refusal's place, from the goal's own first cell, or 0.
    pub place: usize,
    /// Bit r is set when row r unifies with the goal.
    pub hits: u64,
    /// The branches tried.
    pub tried: usize,
}

/// One goal of a list whose replies are wanted too. Before the call `start` and `count` say where its cells lie; the rest is written by
/// [`dudowiej_reply_jobs`], and is 0 but for number and place where the goal is refused.
#[repr(C)]
#[derive(Debug, Clone, Copy, Default, PartialEq, Eq)]
pub struct ReplyJob {
    /// Where the goal's cells start among the lent cells.
    pub start: usize,
    /// How many they are.
    pub count: usize,
    /// The refusal's number, or 0.
    pub number: usize,
    /// The refusal's place, from the goal's own first cell, or 0. Of ROOM it is the cells of all its replies.
    pub place: usize,
    /// Where its replies begin in the room.
    pub at: usize,
    /// How many replies there are.
    pub replies: usize,
    /// How many cells they have together.
    pub cells: usize,
    /// Bit r is set when row r unifies with the goal.
    pub hits: u64,
    /// The branches tried.
    pub tried: usize,
}

/// What [`dudowiej_salvage`] saved.
#[repr(C)]
#[derive(Debug, Clone, Copy, Default, PartialEq, Eq)]
pub struct Report {
    /// The rows kept.
    pub kept: usize,
    /// The rows dropped.
    pub dropped: usize,
    /// 1 where the plan was kept, and 0 where it is new.
    pub plan_kept: usize,
    /// The cells of the table.
    pub table_cells: usize,
    /// The cells of the plan.
    pub plan_cells: usize,
    /// How many blocks are bad.
    pub bad_blocks: usize,
}

/// What [`dudowiej_build_liked`] found.
#[repr(C)]
#[derive(Debug, Clone, Copy, Default, PartialEq, Eq)]
pub struct Liked {
    /// The columns that the plan was built for, bit c for column c.
    pub columns: usize,
    /// The branches that the goals try by it, all together.
    pub tried: usize,
    /// The branches that they try by the plain plan.
    pub plain: usize,
}

// Words of 64 bits with no gaps, as in the header.
const _: () = assert!(std::mem::size_of::<Record>() == 57_360);
const _: () = assert!(std::mem::size_of::<Job>() == 48 && std::mem::offset_of!(Job, number) == 16 && std::mem::offset_of!(Job, hits) == 32);
const _: () = assert!(std::mem::size_of::<ReplyJob>() == 72 && std::mem::offset_of!(ReplyJob, hits) == 56);
const _: () = assert!(std::mem::size_of::<Report>() == 48 && std::mem::size_of::<Liked>() == 24);

extern "C" {
    /// Reads a table: its width, its rows.
    pub fn dudowiej_read_table(table: *const u32, table_cells: usize) -> u64;
    /// Works a table out with a figure, into a record: its width, its rows.
    pub fn dudowiej_work_out(table: *const u32, table_cells: usize, figure: u32, record: *mut Record) -> u64;
    /// Appends a row: the width, the rows there are now.
    pub fn dudowiej_append(record: *mut Record, row: *const u32, row_cells: usize) -> u64;
    /// Drops the last row: the width, the rows there are now.
    pub fn dudowiej_drop_last(record: *mut Record) -> u64;
    /// Replaces row r: the width, the rows.
    pub fn dudowiej_replace(record: *mut Record, r: usize, row: *const u32, row_cells: usize) -> u64;
    /// Reads a goal: its cells, its variables.
    pub fn dudowiej_read_goal(record: *const Record, goal: *const u32, goal_cells: usize) -> u64;
    /// A row: where it starts in the table, its cells; 0 and 0 where there is none.
    pub fn dudowiej_row(record: *const Record, row: usize) -> u64;
    /// Checks a plan: its branches, 0.
    pub fn dudowiej_check_plan(record: *const Record, plan: *const u32, plan_cells: usize) -> u64;
    /// Builds the least plan: the cells written, its cost.
    pub fn dudowiej_build_plan(record: *const Record, room: *mut u32, room_cells: usize) -> u64;
    /// Builds the least plan that looks into these columns first: the cells written, its cost.
    pub fn dudowiej_build_for(record: *const Record, columns: *const u32, columns_count: usize, room: *mut u32, room_cells: usize) -> u64;
    /// Checks whether a plan looks into these columns first: its branches, 0.
    pub fn dudowiej_check_for(record: *const Record, columns: *const u32, columns_count: usize, plan: *const u32, plan_cells: usize)
        -> u64;
    /// Runs a plan on a goal: the rows written, the branches tried.
    pub fn dudowiej_run_plan(
        record: *const Record,
        plan: *const u32,
        plan_cells: usize,
        goal: *const u32,
        goal_cells: usize,
        room: *mut u8,
        room_bytes: usize,
    ) -> u64;
    /// Makes a table of a text: the cells written, the names listed.
    pub fn dudowiej_read_text(
        text: *const u8,
        text_bytes: usize,
        cells: *mut u32,
        cells_room: usize,
        names: *mut u32,
        names_room: usize,
    ) -> u64;
    /// Reads a goal in Prolog text: the goal's cells, how many of its names the facts have not.
    pub fn dudowiej_read_goal_text(
        text: *const u8,
        text_bytes: usize,
        names: *const u32,
        name_count: usize,
        goal: *const u8,
        goal_bytes: usize,
        cells: *mut u32,
        cells_room: usize,
        new_names: *mut u32,
        new_room: usize,
    ) -> u64;
    /// Runs a plan on every goal of a list: the plan's branches, 0.
    pub fn dudowiej_run_jobs(
        record: *const Record,
        plan: *const u32,
        plan_cells: usize,
        cells: *const u32,
        cells_count: usize,
        jobs: *mut Job,
        jobs_count: usize,
    ) -> u64;
    /// Builds the plan that a list of goals likes best: the cells written, its cost.
    pub fn dudowiej_build_liked(
        record: *const Record,
        goals: *const u32,
        goal_cells: usize,
        list: *const usize,
        words: usize,
        room: *mut u32,
        room_cells: usize,
        liked: *mut Liked,
    ) -> u64;
    /// Runs a plan on a goal and writes what the rows say to it: the replies, the cells written.
    pub fn dudowiej_replies(
        record: *const Record,
        plan: *const u32,
        plan_cells: usize,
        goal: *const u32,
        goal_cells: usize,
        room: *mut u32,
        room_cells: usize,
    ) -> u64;
    /// Runs a plan on every goal of a list and writes what the rows say to each, one goal's replies after another's: the plan's branches,
    /// 0.
    pub fn dudowiej_reply_jobs(
        record: *const Record,
        plan: *const u32,
        plan_cells: usize,
        cells: *const u32,
        cells_count: usize,
        jobs: *mut ReplyJob,
        jobs_count: usize,
        room: *mut u32,
        room_cells: usize,
    ) -> u64;
    /// Writes an answer as Prolog text: the cells said, the bytes written.
    pub fn dudowiej_put_answer(
        text: *const u8,
        text_bytes: usize,
        names: *const u32,
        name_count: usize,
        goal: *const u8,
        goal_bytes: usize,
        new_names: *const u32,
        new_count: usize,
        cells: *const u32,
        cell_count: usize,
        room: *mut u8,
        room_bytes: usize,
    ) -> u64;
    /// Writes a plan as a Prolog program: the clauses, the bytes written.
    pub fn dudowiej_clauses(
        record: *const Record,
        plan: *const u32,
        plan_cells: usize,
        text: *const u8,
        text_bytes: usize,
        names: *const u32,
        names_count: usize,
        room: *mut u8,
        room_bytes: usize,
    ) -> u64;
    /// Writes a table and a plan as a file: the bytes written, the blocks.
    pub fn dudowiej_write_file(record: *const Record, plan: *const u32, plan_cells: usize, room: *mut u8, room_bytes: usize) -> u64;
    /// Reads a file: the table's cells, the plan's.
    pub fn dudowiej_read_file(
        file: *const u8,
        file_bytes: usize,
        table: *mut u32,
        table_room: usize,
        plan: *mut u32,
        plan_room: usize,
    ) -> u64;
    /// Saves what can be saved of a file: the rows kept, the rows dropped.
    pub fn dudowiej_salvage(
        file: *const u8,
        file_bytes: usize,
        table: *mut u32,
        table_room: usize,
        plan: *mut u32,
        plan_room: usize,
        bad: *mut usize,
        bad_room: usize,
        report: *mut Report,
    ) -> u64;
}
