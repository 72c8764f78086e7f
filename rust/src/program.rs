//! A plan handed back as Prolog.

use crate::entries;
use crate::limits::PROGRAM_BYTES;
use crate::names::Names;
use crate::plan::Plan;
use crate::record::Record;
use crate::refusal::{Reason, Refusal};

/// A plan as a Prolog program.
#[derive(Debug, Clone, PartialEq, Eq)]
pub struct Program {
    /// How many clauses it has.
    pub clauses: usize,
    /// Its text, a clause to a line.
    pub text: String,
}

impl Record {
    /// Writes a plan as a Prolog program. A goal put to its predicate `'P0'` is answered what [`Record::replies`] gives for it, in the same
    /// order; with rows that repeat a variable that is by unification with the occurs check.
    ///
    /// Refused are the plan, where it is none for this table, and then NAMES, where a word is no lower-case name, two words are the same,
    /// or a name of the table is not listed.
    ///
    /// ```
    /// use dudowiej::{Plan, Record};
    ///
    /// let (record, names) = Record::from_text("p(a, b). p(a, c).", 0)?;
    /// let program = record.clauses(&Plan::build(&record).plan, &names)?;
    /// assert_eq!(program.text, "'P0'(a, _0) :- 'P1'(_0).\n'P1'(b).\n'P1'(c).\n");
    /// # Ok::<(), dudowiej::Refusal>(())
    /// ```
    pub fn clauses(&self, plan: &Plan, names: &Names) -> Result<Program, Refusal> {
        let mut room = vec![0; PROGRAM_BYTES];
        let answer = match self.clauses_in(plan, names, &mut room) {
            // Only with names that are no text's: longer ones for more cells than a text could have.
            Err(Refusal { reason: Reason::Room, place, .. }) => {
                room.resize(place, 0);
                self.clauses_in(plan, names, &mut room)
            }
            answer => answer,
        };
        let (clauses, bytes) = answer?;
        room.truncate(bytes);
        Ok(Program { clauses, text: String::from_utf8(room).expect("names, numbers and signs") })
    }

    /// The same in a lent room; the rest of the room is untouched. How many clauses there are, and how many bytes.
    ///
    /// Refused are the plan and NAMES, as there, and ROOM, with the bytes needed.
    pub fn clauses_in(&self, plan: &Plan, names: &Names, room: &mut [u8]) -> Result<(usize, usize), Refusal> {
        let (text, list) = names.listed();
        entries::clauses(self.as_numbers(), plan.cells(), text, list, room)
    }
}
