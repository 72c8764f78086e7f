//! An independent implementation of the rule tables, compared with the functions that the library exports and timed beside them.

pub mod asking;
pub mod believe;
pub mod branches;
pub mod cases;
pub mod clauses;
pub mod columns;
pub mod compare;
pub mod count;
pub mod edits;
pub mod engine;
pub mod files;
pub mod knowing;
pub mod liked;
pub mod make;
pub mod map;
pub mod model;
pub mod notation;
pub mod prolog;
pub mod random;
pub mod replies;
pub mod reply_shift;
pub mod salvage;
pub mod shift;
pub mod stack;
pub mod texts;
pub mod time;
