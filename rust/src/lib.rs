//! A rule table for shop terminals. A shop writes one rule to a row; the rows are tried from the top, as written, and neighbouring rows
//! share their tests.
//!
//! This crate is the safe side of a library that is proved: `tools/build dudowiej` writes it as an archive, which this crate links (README.md). A
//! table is worked out into a [`Record`] once; a [`Plan`] is built from the record; and a goal is answered by the record and the plan.
//!
//! ```
//! use dudowiej::{Plan, Record};
//!
//! let rules = "
//!     rule(9, red, ring, soft).        % urgency, enamel, piece, firing
//!     rule(9, blue, bowl(large), hard).
//!     rule(_, _, _, medium).
//! ";
//! let (record, names) = Record::from_text(rules, 0)?;
//! let plan = Plan::build(&record).plan;
//! // A red ring of urgency 9: which firing?
//! let goal = names.goal("rule(9, red, ring, Firing)")?;
//! let hits = record.run(&plan, &goal)?;
//! assert_eq!(hits.rows().collect::<Vec<_>>(), [0, 2]);
//! let replies = record.replies(&plan, &goal)?;
//! let said: Result<Vec<String>, _> = replies.iter().map(|reply| names.say(&goal, reply)).collect();
//! assert_eq!(said?, ["rule(9, red, ring, soft)", "rule(9, red, ring, medium)"]);
//! # Ok::<(), dudowiej::Refusal>(())
//! ```
//!
//! Tables, rows, goals and plans are cells, numbers of 32 bits, that [`variable`], [`name`] and [`whole`] make. Every function takes any
//! cells at all: what is no table, goal or plan is refused, with a [`Refusal`] that says why and where. Nobody has to check first, and a
//! refused call changes nothing. docs/FORMAT.md says what cells, tables, goals and plans are, and in which order what is wrong is refused.

#![warn(missing_docs)]

mod card;
mod cell;
mod entries;
mod goal;
mod limits;
mod names;
mod plan;
mod program;
mod record;
mod refusal;
mod replies;
mod run;
pub mod sys;
mod terms;

pub use card::{Card, Salvaged};
pub use cell::{name, value, variable, whole, Symbol};
pub use goal::{Goal, Goals};
pub use limits::{
    BLOCK_BYTES, CLAUSES, COLUMNS, FILE_BYTES, GOAL_CELLS, MOST_FIGURE, NAMES, PLAN_CELLS, PROGRAM_BYTES, RECORD_CELLS, REPLY_CELLS, ROWS,
    ROW_CELLS, TABLE_CELLS, TEXT_BYTES,
};
pub use names::{read_text, Facts, Names};
pub use plan::{Built, Liked, Plan, Tried, Written};
pub use program::Program;
pub use record::{read_table, Record, Shape};
pub use refusal::{Input, Reason, Refusal};
pub use replies::{Placed, Replied, Replies};
pub use run::Hits;
pub use terms::{show, terms, Terms};

/// The page beside this crate, whose example is tried with the others.
#[cfg(doctest)]
#[doc = include_str!("../README.md")]
pub struct Readme;
