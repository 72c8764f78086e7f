//! The entries with slices and references in place of pointers, and their answers taken apart. All that is unsafe in this crate stands
//! here.

use crate::refusal::{apart, Refusal};
use crate::sys::{self, Job, Liked, Record, ReplyJob, Report};

/// The two values of an answer, or a refusal.
pub(crate) type Answer = Result<(usize, usize), Refusal>;

// SAFETY, of every call below: each pointer with a length is one slice's, each other one a reference, so that none is null and all are
// aligned; what is written is borrowed alone, and so shares no memory with the rest. The entries take any cells at all.

pub(crate) fn read_table(table: &[u32]) -> Answer {
    apart(unsafe { sys::dudowiej_read_table(table.as_ptr(), table.len()) })
}

pub(crate) fn work_out(table: &[u32], figure: u32, record: &mut Record) -> Answer {
    apart(unsafe { sys::dudowiej_work_out(table.as_ptr(), table.len(), figure, record) })
}

pub(crate) fn append(record: &mut Record, row: &[u32]) -> Answer {
    apart(unsafe { sys::dudowiej_append(record, row.as_ptr(), row.len()) })
}

pub(crate) fn drop_last(record: &mut Record) -> Answer {
    apart(unsafe { sys::dudowiej_drop_last(record) })
}

pub(crate) fn replace(record: &mut Record, r: usize, row: &[u32]) -> Answer {
    apart(unsafe { sys::dudowiej_replace(record, r, row.as_ptr(), row.len()) })
}

pub(crate) fn read_goal(record: &Record, goal: &[u32]) -> Answer {
    apart(unsafe { sys::dudowiej_read_goal(record, goal.as_ptr(), goal.len()) })
}

pub(crate) fn row(record: &Record, row: usize) -> Answer {
    apart(unsafe { sys::dudowiej_row(record, row) })
}

pub(crate) fn check_plan(record: &Record, plan: &[u32]) -> Answer {
    apart(unsafe { sys::dudowiej_check_plan(record, plan.as_ptr(), plan.len()) })
}

pub(crate) fn build_plan(record: &Record, room: &mut [u32]) -> Answer {
    apart(unsafe { sys::dudowiej_build_plan(record, room.as_mut_ptr(), room.len()) })
}

pub(crate) fn build_for(record: &Record, columns: &[u32], room: &mut [u32]) -> Answer {
    apart(unsafe { sys::dudowiej_build_for(record, columns.as_ptr(), columns.len(), room.as_mut_ptr(), room.len()) })
}

pub(crate) fn check_for(record: &Record, columns: &[u32], plan: &[u32]) -> Answer {
    apart(unsafe { sys::dudowiej_check_for(record, columns.as_ptr(), columns.len(), plan.as_ptr(), plan.len()) })
}

pub(crate) fn build_liked(record: &Record, goals: &[u32], list: &[usize], room: &mut [u32], liked: &mut Liked) -> Answer {
    let ((goals, goal_cells), (list, words)) = ((goals.as_ptr(), goals.len()), (list.as_ptr(), list.len()));
    apart(unsafe { sys::dudowiej_build_liked(record, goals, goal_cells, list, words, room.as_mut_ptr(), room.len(), liked) })
}

pub(crate) fn run_plan(record: &Record, plan: &[u32], goal: &[u32], room: &mut [u8]) -> Answer {
    let ((plan, plan_cells), (goal, goal_cells)) = ((plan.as_ptr(), plan.len()), (goal.as_ptr(), goal.len()));
    apart(unsafe { sys::dudowiej_run_plan(record, plan, plan_cells, goal, goal_cells, room.as_mut_ptr(), room.len()) })
}

pub(crate) fn run_jobs(record: &Record, plan: &[u32], cells: &[u32], jobs: &mut [Job]) -> Answer {
    let ((plan, plan_cells), (cells, count)) = ((plan.as_ptr(), plan.len()), (cells.as_ptr(), cells.len()));
    apart(unsafe { sys::dudowiej_run_jobs(record, plan, plan_cells, cells, count, jobs.as_mut_ptr(), jobs.len()) })
}

pub(crate) fn replies(record: &Record, plan: &[u32], goal: &[u32], room: &mut [u32]) -> Answer {
    let ((plan, plan_cells), (goal, goal_cells)) = ((plan.as_ptr(), plan.len()), (goal.as_ptr(), goal.len()));
    apart(unsafe { sys::dudowiej_replies(record, plan, plan_cells, goal, goal_cells, room.as_mut_ptr(), room.len()) })
}

pub(crate) fn reply_jobs(record: &Record, plan: &[u32], cells: &[u32], jobs: &mut [ReplyJob], room: &mut [u32]) -> Answer {
    let ((plan, plan_cells), (cells, count), many) = ((plan.as_ptr(), plan.len()), (cells.as_ptr(), cells.len()), jobs.len());
    apart(unsafe {
        sys::dudowiej_reply_jobs(record, plan, plan_cells, cells, count, jobs.as_mut_ptr(), many, room.as_mut_ptr(), room.len())
    })
}

pub(crate) fn read_text(text: &[u8], cells: &mut [u32], names: &mut [u32]) -> Answer {
    let ((cells, cells_room), (names, names_room)) = ((cells.as_mut_ptr(), cells.len()), (names.as_mut_ptr(), names.len()));
    apart(unsafe { sys::dudowiej_read_text(text.as_ptr(), text.len(), cells, cells_room, names, names_room) })
}

pub(crate) fn read_goal_text(text: &[u8], names: &[u32], goal: &[u8], cells: &mut [u32], new: &mut [u32]) -> Answer {
    let ((text, bytes), (names, count)) = ((text.as_ptr(), text.len()), (names.as_ptr(), names.len()));
    let ((cells, cells_room), (new, new_room)) = ((cells.as_mut_ptr(), cells.len()), (new.as_mut_ptr(), new.len()));
    apart(unsafe { sys::dudowiej_read_goal_text(text, bytes, names, count, goal.as_ptr(), goal.len(), cells, cells_room, new, new_room) })
}

pub(crate) fn put_answer(text: &[u8], names: &[u32], goal: &[u8], new: &[u32], cells: &[u32], room: &mut [u8]) -> Answer {
    let ((text, bytes), (names, count)) = ((text.as_ptr(), text.len()), (names.as_ptr(), names.len()));
    let ((goal, goal_bytes), (new, new_count)) = ((goal.as_ptr(), goal.len()), (new.as_ptr(), new.len()));
    let ((cells, cell_count), (room, room_bytes)) = ((cells.as_ptr(), cells.len()), (room.as_mut_ptr(), room.len()));
    apart(unsafe {
        sys::dudowiej_put_answer(text, bytes, names, count, goal, goal_bytes, new, new_count, cells, cell_count, room, room_bytes)
    })
}

pub(crate) fn clauses(record: &Record, plan: &[u32], text: &[u8], names: &[u32], room: &mut [u8]) -> Answer {
    let ((plan, plan_cells), (text, bytes), (names, count)) =
        ((plan.as_ptr(), plan.len()), (text.as_ptr(), text.len()), (names.as_ptr(), names.len()));
    apart(unsafe { sys::dudowiej_clauses(record, plan, plan_cells, text, bytes, names, count, room.as_mut_ptr(), room.len()) })
}

pub(crate) fn write_file(record: &Record, plan: &[u32], room: &mut [u8]) -> Answer {
    apart(unsafe { sys::dudowiej_write_file(record, plan.as_ptr(), plan.len(), room.as_mut_ptr(), room.len()) })
}

pub(crate) fn read_file(file: &[u8], table: &mut [u32], plan: &mut [u32]) -> Answer {
    let ((table, table_room), (plan, plan_room)) = ((table.as_mut_ptr(), table.len()), (plan.as_mut_ptr(), plan.len()));
    apart(unsafe { sys::dudowiej_read_file(file.as_ptr(), file.len(), table, table_room, plan, plan_room) })
}

pub(crate) fn salvage(file: &[u8], table: &mut [u32], plan: &mut [u32], bad: &mut [usize], report: &mut Report) -> Answer {
    let ((table, table_room), (plan, plan_room)) = ((table.as_mut_ptr(), table.len()), (plan.as_mut_ptr(), plan.len()));
    apart(unsafe {
        sys::dudowiej_salvage(file.as_ptr(), file.len(), table, table_room, plan, plan_room, bad.as_mut_ptr(), bad.len(), report)
    })
}
