//! The entries, as the library exports them and as the independent implementation answers them.

use crate::model::liked::{self, Liked};
use crate::model::record::{figure_in, table_in, Record};
use crate::model::salvage::Report;
use crate::model::{self, refusal::packed};

/// Each entry's answer as one number; the lent room is written to the front.
pub trait Engine {
    fn read_table(&self, table: &[u32]) -> u64;
    fn work_out(&self, table: &[u32], figure: u32, record: &mut Record) -> u64;
    fn append(&self, record: &mut Record, row: &[u32]) -> u64;
    fn drop_last(&self, record: &mut Record) -> u64;
    fn replace(&self, record: &mut Record, r: usize, row: &[u32]) -> u64;
    fn read_goal(&self, record: &Record, goal: &[u32]) -> u64;
    fn row(&self, record: &Record, row: usize) -> u64;
    fn check_plan(&self, record: &Record, plan: &[u32]) -> u64;
    fn build_plan(&self, record: &Record, room: &mut [u32]) -> u64;
    fn run_plan(&self, record: &Record, plan: &[u32], goal: &[u32], room: &mut [u8]) -> u64;
    fn read_text(&self, text: &[u8], cells: &mut [u32], names: &mut [u32]) -> u64;
    fn replies(&self, record: &Record, plan: &[u32], goal: &[u32], room: &mut [u32]) -> u64;
    fn clauses(&self, record: &Record, plan: &[u32], text: &[u8], names: &[u32], room: &mut [u8]) -> u64;
    fn write_file(&self, record: &Record, plan: &[u32], room: &mut [u8]) -> u64;
    fn read_file(&self, file: &[u8], table: &mut [u32], plan: &mut [u32]) -> u64;
    fn salvage(&self, file: &[u8], table: &mut [u32], plan: &mut [u32], bad: &mut [usize], report: &mut Report) -> u64;
    fn build_for(&self, record: &Record, columns: &[u32], room: &mut [u32]) -> u64;
    fn check_for(&self, record: &Record, columns: &[u32], plan: &[u32]) -> u64;
    fn build_liked(&self, record: &Record, goals: &[u32], list: &[usize], room: &mut [u32], liked: &mut Liked) -> u64;
}

/// The independent implementation with runs by the definitions.
pub struct Definition;

/// The independent implementation with runs by a walk: the one that is timed.
pub struct Plain;

macro_rules! independent {
    ($engine:ty, $run_plan:path, $tried:path) => {
        impl Engine for $engine {
            fn read_table(&self, table: &[u32]) -> u64 {
                packed(model::read_table(table))
            }
            fn work_out(&self, table: &[u32], figure: u32, record: &mut Record) -> u64 {
                packed(model::record::work_out(table, figure, record))
            }
            fn append(&self, record: &mut Record, row: &[u32]) -> u64 {
                packed(model::record::append(record, row))
            }
            fn drop_last(&self, record: &mut Record) -> u64 {
                packed(model::record::drop_last(record))
            }
            fn replace(&self, record: &mut Record, r: usize, row: &[u32]) -> u64 {
                packed(model::record::replace(record, r, row))
            }
            fn read_goal(&self, record: &Record, goal: &[u32]) -> u64 {
                packed(model::read_goal(table_in(record), goal))
            }
            fn row(&self, record: &Record, row: usize) -> u64 {
                packed(model::row(table_in(record), row))
            }
            fn check_plan(&self, record: &Record, plan: &[u32]) -> u64 {
                packed(model::check_plan(table_in(record), plan))
            }
            fn build_plan(&self, record: &Record, room: &mut [u32]) -> u64 {
                packed(model::build_plan(table_in(record), figure_in(record), room))
            }
            fn run_plan(&self, record: &Record, plan: &[u32], goal: &[u32], room: &mut [u8]) -> u64 {
                packed($run_plan(table_in(record), plan, goal, room))
            }
            fn read_text(&self, text: &[u8], cells: &mut [u32], names: &mut [u32]) -> u64 {
                packed(model::text::read_text(text, cells, names))
            }
            fn replies(&self, record: &Record, plan: &[u32], goal: &[u32], room: &mut [u32]) -> u64 {
                packed(model::replies::replies(table_in(record), plan, goal, room))
            }
            fn clauses(&self, record: &Record, plan: &[u32], text: &[u8], names: &[u32], room: &mut [u8]) -> u64 {
                packed(model::clauses::clauses(table_in(record), plan, text, names, room))
            }
            fn write_file(&self, record: &Record, plan: &[u32], room: &mut [u8]) -> u64 {
                packed(model::files::write_file(table_in(record), plan, room))
            }
            fn read_file(&self, file: &[u8], table: &mut [u32], plan: &mut [u32]) -> u64 {
                packed(model::files::read_file(file, table, plan))
            }
            fn salvage(&self, file: &[u8], table: &mut [u32], plan: &mut [u32], bad: &mut [usize], report: &mut Report) -> u64 {
                packed(model::salvage::salvage(file, table, plan, bad, report))
            }
            fn build_for(&self, record: &Record, columns: &[u32], room: &mut [u32]) -> u64 {
                packed(model::build_for(table_in(record), figure_in(record), columns, room))
            }
            fn check_for(&self, record: &Record, columns: &[u32], plan: &[u32]) -> u64 {
                packed(model::check_for(table_in(record), columns, plan))
            }
            fn build_liked(&self, record: &Record, goals: &[u32], list: &[usize], room: &mut [u32], liked: &mut Liked) -> u64 {
                packed(model::build_liked(table_in(record), figure_in(record), goals, list, $tried, room, liked))
            }
        }
    };
}

independent!(Definition, model::run_plan_by_definition, model::run::tried);
independent!(Plain, model::run_plan, liked::by_walk);

#[cfg(not(feature = "stand-in"))]
pub use exported::Exported;
/// The exported functions; with the feature `stand-in`, the independent ones in their place.
#[cfg(feature = "stand-in")]
pub use Plain as Exported;

#[cfg(not(feature = "stand-in"))]
mod exported {
    use super::{Engine, Liked, Record, Report};
    use dudowiej::sys::{self, *};
    use std::mem::size_of;
    use std::ptr::from_mut;

    /// The functions that the library exports (include/dudowiej.h).
    pub struct Exported;

    // The words of the independent ones are laid out as the exported ones write them.
    const _: () = assert!(size_of::<Report>() == size_of::<sys::Report>() && size_of::<Liked>() == size_of::<sys::Liked>());

    // Each pointer and length below is one slice's, any other pointer is a reference; what is written is borrowed alone.
    impl Engine for Exported {
        fn read_table(&self, table: &[u32]) -> u64 {
            unsafe { dudowiej_read_table(table.as_ptr(), table.len()) }
        }
        fn work_out(&self, table: &[u32], figure: u32, record: &mut Record) -> u64 {
            unsafe { dudowiej_work_out(table.as_ptr(), table.len(), figure, record) }
        }
        fn append(&self, record: &mut Record, row: &[u32]) -> u64 {
            unsafe { dudowiej_append(record, row.as_ptr(), row.len()) }
        }
        fn drop_last(&self, record: &mut Record) -> u64 {
            unsafe { dudowiej_drop_last(record) }
        }
        fn replace(&self, record: &mut Record, r: usize, row: &[u32]) -> u64 {
            unsafe { dudowiej_replace(record, r, row.as_ptr(), row.len()) }
        }
        fn read_goal(&self, record: &Record, goal: &[u32]) -> u64 {
            unsafe { dudowiej_read_goal(record, goal.as_ptr(), goal.len()) }
        }
        fn row(&self, record: &Record, row: usize) -> u64 {
            unsafe { dudowiej_row(record, row) }
        }
        fn check_plan(&self, record: &Record, plan: &[u32]) -> u64 {
            unsafe { dudowiej_check_plan(record, plan.as_ptr(), plan.len()) }
        }
        fn build_plan(&self, record: &Record, room: &mut [u32]) -> u64 {
            unsafe { dudowiej_build_plan(record, room.as_mut_ptr(), room.len()) }
        }
        fn run_plan(&self, record: &Record, plan: &[u32], goal: &[u32], room: &mut [u8]) -> u64 {
            unsafe { dudowiej_run_plan(record, plan.as_ptr(), plan.len(), goal.as_ptr(), goal.len(), room.as_mut_ptr(), room.len()) }
        }
        fn read_text(&self, text: &[u8], cells: &mut [u32], names: &mut [u32]) -> u64 {
            unsafe { dudowiej_read_text(text.as_ptr(), text.len(), cells.as_mut_ptr(), cells.len(), names.as_mut_ptr(), names.len()) }
        }
        fn replies(&self, record: &Record, plan: &[u32], goal: &[u32], room: &mut [u32]) -> u64 {
            unsafe { dudowiej_replies(record, plan.as_ptr(), plan.len(), goal.as_ptr(), goal.len(), room.as_mut_ptr(), room.len()) }
        }
        fn clauses(&self, record: &Record, plan: &[u32], text: &[u8], names: &[u32], room: &mut [u8]) -> u64 {
            let ((text, text_bytes), (names, count)) = ((text.as_ptr(), text.len()), (names.as_ptr(), names.len()));
            unsafe { dudowiej_clauses(record, plan.as_ptr(), plan.len(), text, text_bytes, names, count, room.as_mut_ptr(), room.len()) }
        }
        fn write_file(&self, record: &Record, plan: &[u32], room: &mut [u8]) -> u64 {
            unsafe { dudowiej_write_file(record, plan.as_ptr(), plan.len(), room.as_mut_ptr(), room.len()) }
        }
        fn read_file(&self, file: &[u8], table: &mut [u32], plan: &mut [u32]) -> u64 {
            unsafe { dudowiej_read_file(file.as_ptr(), file.len(), table.as_mut_ptr(), table.len(), plan.as_mut_ptr(), plan.len()) }
        }
        fn salvage(&self, file: &[u8], table: &mut [u32], plan: &mut [u32], bad: &mut [usize], report: &mut Report) -> u64 {
            let ((table, table_room), (plan, plan_room)) = ((table.as_mut_ptr(), table.len()), (plan.as_mut_ptr(), plan.len()));
            let (bad, bad_room, report) = (bad.as_mut_ptr(), bad.len(), from_mut(report).cast());
            unsafe { dudowiej_salvage(file.as_ptr(), file.len(), table, table_room, plan, plan_room, bad, bad_room, report) }
        }
        fn build_for(&self, record: &Record, columns: &[u32], room: &mut [u32]) -> u64 {
            unsafe { dudowiej_build_for(record, columns.as_ptr(), columns.len(), room.as_mut_ptr(), room.len()) }
        }
        fn check_for(&self, record: &Record, columns: &[u32], plan: &[u32]) -> u64 {
            unsafe { dudowiej_check_for(record, columns.as_ptr(), columns.len(), plan.as_ptr(), plan.len()) }
        }
        fn build_liked(&self, record: &Record, goals: &[u32], list: &[usize], room: &mut [u32], liked: &mut Liked) -> u64 {
            let ((goals, goal_cells), (list, words)) = ((goals.as_ptr(), goals.len()), (list.as_ptr(), list.len()));
            let liked = from_mut(liked).cast();
            unsafe { dudowiej_build_liked(record, goals, goal_cells, list, words, room.as_mut_ptr(), room.len(), liked) }
        }
    }
}
