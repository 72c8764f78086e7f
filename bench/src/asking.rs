//! Goals and answers as Prolog text: the two entries as the library exports them, and written a second time (crate::model::asking).

pub mod compare;
pub mod count;

use crate::engine::{Definition, Plain};
use crate::model::asking;
use crate::model::refusal::packed;

pub trait Asking {
    fn read_goal_text(&self, text: &[u8], names: &[u32], goal: &[u8], cells: &mut [u32], new: &mut [u32]) -> u64;
    fn put_answer(&self, text: &[u8], names: &[u32], goal: &[u8], new: &[u32], cells: &[u32], room: &mut [u8]) -> u64;
}

macro_rules! independent {
    ($($engine:ty),*) => {$(
        impl Asking for $engine {
            fn read_goal_text(&self, text: &[u8], names: &[u32], goal: &[u8], cells: &mut [u32], new: &mut [u32]) -> u64 {
                packed(asking::read_goal_text(text, names, goal, cells, new))
            }
            fn put_answer(&self, text: &[u8], names: &[u32], goal: &[u8], new: &[u32], cells: &[u32], room: &mut [u8]) -> u64 {
                packed(asking::put_answer(text, names, goal, new, cells, room))
            }
        }
    )*};
}

independent!(Definition, Plain);

#[cfg(not(feature = "stand-in"))]
mod exported {
    use super::Asking;
    use crate::engine::Exported;
    use dudowiej::sys::{dudowiej_put_answer, dudowiej_read_goal_text};

    // Each pointer and length is one slice's; what is written is borrowed alone.
    impl Asking for Exported {
        fn read_goal_text(&self, text: &[u8], names: &[u32], goal: &[u8], cells: &mut [u32], new: &mut [u32]) -> u64 {
            let ((text, bytes), (names, count)) = ((text.as_ptr(), text.len()), (names.as_ptr(), names.len()));
            let ((cells, cells_room), (new, new_room)) = ((cells.as_mut_ptr(), cells.len()), (new.as_mut_ptr(), new.len()));
            unsafe { dudowiej_read_goal_text(text, bytes, names, count, goal.as_ptr(), goal.len(), cells, cells_room, new, new_room) }
        }
        fn put_answer(&self, text: &[u8], names: &[u32], goal: &[u8], new: &[u32], cells: &[u32], room: &mut [u8]) -> u64 {
            let ((text, bytes), (names, count)) = ((text.as_ptr(), text.len()), (names.as_ptr(), names.len()));
            let ((goal, goal_bytes), (new, new_count)) = ((goal.as_ptr(), goal.len()), (new.as_ptr(), new.len()));
            let ((cells, cell_count), (room, room_bytes)) = ((cells.as_ptr(), cells.len()), (room.as_mut_ptr(), room.len()));
            unsafe { dudowiej_put_answer(text, bytes, names, count, goal, goal_bytes, new, new_count, cells, cell_count, room, room_bytes) }
        }
    }
}
