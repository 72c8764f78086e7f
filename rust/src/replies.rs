//! What the rows say to a goal.

use crate::entries;
use crate::goal::Goals;
use crate::limits::{REPLY_CELLS, ROW_CELLS};
use crate::plan::Plan;
use crate::record::Record;
use crate::refusal::{goal_apart, Reason, Refusal};
use crate::run::Hits;
use crate::sys::ReplyJob;
use crate::terms::terms;
use std::ops::Range;

/// What the rows say that fit a goal, from the top: for each row the goal with the row's bindings filled in, its variables numbered anew
/// from 0.
#[derive(Debug, Clone, PartialEq, Eq)]
pub struct Replies {
    cells: Vec<u32>,
    /// Where each reply ends.
    ends: Vec<usize>,
}

impl Replies {
    /// How many replies there are: one for each row that fits.
    pub fn len(&self) -> usize {
        self.ends.len()
    }

    /// Whether no row fits.
    pub fn is_empty(&self) -> bool {
        self.ends.is_empty()
    }

    /// The cells of each reply: a term for each column.
    pub fn iter(&self) -> impl Iterator<Item = &[u32]> {
        let starts = std::iter::once(0).chain(self.ends.iter().copied());
        starts.zip(&self.ends).map(|(start, &end)| &self.cells[start..end])
    }

    /// The cells of all replies, one after another.
    pub fn cells(&self) -> &[u32] {
        &self.cells
    }
}

/// What is answered to a goal of a list whose replies are wanted too.
#[derive(Debug, Clone, PartialEq, Eq)]
pub struct Replied {
    /// The rows that fit, and the branches tried.
    pub hits: Hits,
    /// What each of these rows says.
    pub replies: Replies,
}

/// The same, with the replies in a lent room.
#[derive(Debug, Clone, PartialEq, Eq)]
pub struct Placed {
    /// The rows that fit, and the branches tried. There is a reply for each row.
    pub hits: Hits,
    /// Which cells of the room the replies are, one after another ([`Record::as_replies`]).
    pub cells: Range<usize>,
}

impl Record {
    /// Runs a plan on a goal and gives what each row that fits says to it.
    ///
    /// Refused are the plan and the goal, as by [`Record::run`], and then BIG, where some reply has over 1,024 cells.
    ///
    /// ```
    /// use dudowiej::{whole, variable, Plan, Record};
    ///
    /// let (record, names) = Record::from_text("rule(9, ring, soft). rule(_, bowl(Size), Size).", 0)?;
    /// let plan = Plan::build(&record).plan;
    /// let replies = record.replies(&plan, &[whole(9), variable(0), variable(1)])?;
    /// let said: Vec<String> = replies.iter().map(|reply| names.show(reply)).collect();
    /// assert_eq!(said, ["9, ring, soft", "9, bowl(_0), _0"]);
    /// # Ok::<(), dudowiej::Refusal>(())
    /// ```
    pub fn replies(&self, plan: &Plan, goal: &[u32]) -> Result<Replies, Refusal> {
        let mut room = vec![0; self.rows() * REPLY_CELLS];
        let (_, cells) = self.replies_in(plan, goal, &mut room)?;
        Ok(self.as_replies(&room[..cells]))
    }

    /// The same in a lent room, one reply after another; the rest of the room is untouched. How many replies there are, and how many cells
    /// they have.
    ///
    /// Refused are the plan, the goal and BIG, as there, and ROOM, with the cells that all replies need.
    pub fn replies_in(&self, plan: &Plan, goal: &[u32], room: &mut [u32]) -> Result<(usize, usize), Refusal> {
        entries::replies(self.as_numbers(), plan.cells(), goal, room)
    }

    /// Cells of a lent room as replies, each as many terms as the table has columns.
    pub fn as_replies(&self, cells: &[u32]) -> Replies {
        let mut end = 0;
        let ends = terms(cells).map(|term| {
            end += term.len();
            end
        });
        let ends = ends.skip(self.width() - 1).step_by(self.width()).collect();
        Replies { cells: cells.to_vec(), ends }
    }

    /// Runs a plan on every goal of a list and gives what each row that fits says, to each as [`Record::run`] and [`Record::replies`] would
    /// by themselves. The plan is checked once.
    ///
    /// Refused is the plan, where it is none for this table; a goal that is refused, with BIG too, is so by itself, and the others are
    /// answered.
    ///
    /// ```
    /// use dudowiej::{variable, whole, Goals, Plan, Record};
    ///
    /// let (record, names) = Record::from_text("rule(9, soft). rule(_, hard).", 0)?;
    /// let plan = Plan::build(&record).plan;
    /// let goals: Goals = [[whole(9), variable(0)], [whole(1), variable(0)]].into_iter().collect();
    /// for answer in record.reply_jobs(&plan, &goals)? {
    ///     let answer = answer?;
    ///     for (row, reply) in answer.hits.rows().zip(answer.replies.iter()) {
    ///         println!("rule {}: {}", row + 1, names.show(reply));
    ///     }
    /// }
    /// # Ok::<(), dudowiej::Refusal>(())
    /// ```
    pub fn reply_jobs(&self, plan: &Plan, goals: &Goals) -> Result<Vec<Result<Replied, Refusal>>, Refusal> {
        // Enough for any one goal, and for a row's cells for each.
        let mut room = vec![0; (self.rows() * REPLY_CELLS).max(goals.len() * ROW_CELLS)];
        let mut placed = self.reply_jobs_in(plan, goals, &mut room)?;
        let needed = placed.iter().map(needed).sum();
        if needed > room.len() {
            room = vec![0; needed];
            placed = self.reply_jobs_in(plan, goals, &mut room)?;
        }
        let replied = |Placed { hits, cells }| Replied { hits, replies: self.as_replies(&room[cells]) };
        Ok(placed.into_iter().map(|answer| answer.map(replied)).collect())
    }

    /// The same in a lent room, the replies to one goal after those to another; the rest of the room is untouched.
    ///
    /// Refused are the plan and goals by themselves, as there, and a goal by itself with ROOM, where its replies do not fit what the goals
    /// before it have left, with the cells that they need. The goals after it are answered all the same.
    pub fn reply_jobs_in(&self, plan: &Plan, goals: &Goals, room: &mut [u32]) -> Result<Vec<Result<Placed, Refusal>>, Refusal> {
        let mut jobs: Vec<ReplyJob> = goals.starts().map(|(start, count)| ReplyJob { start, count, ..ReplyJob::default() }).collect();
        entries::reply_jobs(self.as_numbers(), plan.cells(), goals.cells(), &mut jobs, room)?;
        let placed = |job: &ReplyJob| Placed { hits: Hits::of(job.hits, job.tried), cells: job.at..job.at + job.cells };
        Ok(jobs.iter().map(|job| goal_apart(job.number, job.place, placed(job))).collect())
    }
}

/// The cells of a goal's replies, whether they found room or not.
fn needed(answer: &Result<Placed, Refusal>) -> usize {
    match answer {
        Ok(placed) => placed.cells.len(),
        Err(Refusal { reason: Reason::Room, place, .. }) => *place,
        Err(_) => 0,
    }
}
