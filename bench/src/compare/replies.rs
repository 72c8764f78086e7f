//! What the rules say (02, W-203 and W-209): the request's table with its replies written down, 01's examples, large replies, then random tables, plans and
//! goals. Each with rooms too small, just enough and larger.

use super::{lend, Comparison, Entry};
use crate::engine::{Definition, Engine};
use crate::make::{big, damage, goals, plans, records, tables};
use crate::model::least::least;
use crate::model::plan::grow;
use crate::model::read::{read_goal, read_table, Table, ROWS};
use crate::model::record::{table_in, Record};
use crate::model::refusal::Number;
use crate::model::replies::{all, holds, of_any_length, Reply};
use crate::model::run::hits;
use crate::model::term::Term;
use crate::notation::{goal, table};

/// As many cells as a reply has at most, and as all replies of a table have.
const ONE: usize = 1024;
const ENOUGH: usize = 64 * ONE;

/// Rows, a goal, and what the rows say to it.
const WRITTEN: [(&str, &str, &str); 14] = [
    ("(a,b) (b,c) (a,d)", "(a,v0)", "(a,b) (a,d)"),
    ("(a,b) (b,c) (a,d)", "(v0,v1)", "(a,b) (b,c) (a,d)"),
    ("(a,b) (b,c) (a,d)", "(v0,v0)", ""),
    ("(v0) (v0)", "(v0)", "(v0) (v0)"),
    ("(v0) (v0)", "(g2(v0,v0))", "(g2(v0,v0)) (g2(v0,v0))"),
    ("(a,b) (a,a)", "(v0,v0)", "(a,a)"),
    ("(v0,f1(v1))", "(v0,v0)", "(f1(v0),f1(v0))"),
    ("(v0,f1(v1))", "(v0,v1)", "(v0,f1(v1))"),
    ("(v0,f1(v1))", "(f1(v0),v0)", "(f1(f1(v0)),f1(v0))"),
    ("(v0,g2(a,v1),f1(v2))", "(v0,v0,v1)", "(g2(a,v0),g2(a,v0),f1(v1))"),
    ("(v0,g2(a,v1),f1(v2))", "(v0,v1,v0)", "(f1(v0),g2(a,v1),f1(v0))"),
    ("(v0,g2(a,v1),f1(v2))", "(v0,v1,v1)", ""),
    ("(f1(v0),a) (b,v0)", "(v0,v1)", "(f1(v0),a) (b,v0)"),
    ("(f1(v0),a) (b,v0)", "(v0,v0)", "(b,b)"),
];

/// Rows, a goal, the cells lent, and the answer: two values, or a refusal's number, input and place.
const ROOMS: [(&str, &str, usize, u64); 6] = [
    ("(a,b) (b,c) (a,d)", "(a,v0)", 4, 2 << 16 | 4 << 32),
    ("(a,b) (b,c) (a,d)", "(v0,v1)", 6, 3 << 16 | 6 << 32),
    ("(a,b) (b,c) (a,d)", "(v0,v1)", 5, 16 | 4 << 8 | 6 << 16),
    ("(a,b) (b,c) (a,d)", "(v0,v0)", 0, 0),
    ("(v0) (v0)", "(a)", 2, 2 << 16 | 2 << 32),
    ("(v0) (v0)", "(a)", 1, 16 | 4 << 8 | 2 << 16),
];

/// 01's P1 to P9 but P5 and P9's second; then P5's table, that one and P10's, which are refused.
const EXAMPLES: [&str; 8] = [
    "(a,b,c) (a,b,d) (a,c,c) (b,a,c)",
    "(a,b) (b,c) (a,d)",
    "(g,a,1) (g,a,2) (g,a,3) (g,1,b) (g,2,b) (g,3,b)",
    "(v0)",
    "(v0) (v0)",
    "(a,b) (a,a)",
    "(f1(a)) (f1(b)) (g)",
    "(v0,v0)",
];
const REFUSED: [&[u32]; 3] = [&[1, 2, 1 << 30 | 97, 1 << 30 | 97], &[1, 1, 1], &[2, 1, 1 << 30 | 97]];

impl<E: Engine> Comparison<'_, E> {
    pub(super) fn fixed_replies(&mut self) {
        for (rows, asked, room, answer) in ROOMS {
            let (table, asked) = (table(rows), goal(asked));
            let plan = read_table(&table).map(|read| least(&read).write()).expect("a sound table");
            let record = records::holding(&mut self.random, &table);
            let found = Definition.replies(&record, &plan, &asked, &mut vec![7; room]);
            self.tally.own("answers for replies against those written down", found == answer, &|| format!("{rows}: {found:#x}"));
            self.replies_in(&record, &plan, &asked, room);
        }
        for (rows, asked, said) in WRITTEN {
            let (table, asked) = (table(rows), goal(asked));
            let said: Vec<Vec<u32>> = said.split_whitespace().map(goal).collect();
            let read = read_table(&table).expect("a sound table");
            let found = all(&table, &least(&read).write(), &asked);
            self.tally.own("replies against those written down", found == Ok(said), &|| format!("{rows}: {found:?}"));
            self.every_room(&table, &read, &asked);
        }
        for rows in EXAMPLES {
            self.rows_as_goals(&table(rows));
        }
        for table in REFUSED {
            let record = records::holding(&mut self.random, table);
            self.replies_in(&record, &[0, 1, 0, 1], &[0], ENOUGH);
        }
        let (table, goal) = tables::longest_replies();
        self.every_room(&table, &read_table(&table).expect("a sound table"), &goal);
    }

    /// The goal of distinct variables, that of one variable, and every row.
    fn rows_as_goals(&mut self, table: &[u32]) {
        let read = read_table(table).expect("a sound table");
        self.every_room(table, &read, &goals::open(read.width));
        self.every_room(table, &read, &vec![0; read.width]);
        for row in &read.rows {
            self.every_room(table, &read, &table[row.start..row.start + row.cells]);
        }
    }

    /// No room, one cell too few, just enough, one more, many more, and what is enough for all; with plans that look at the first open place, at the
    /// last, and the builder's.
    pub(super) fn every_room(&mut self, table: &[u32], read: &Table, goal: &[u32]) {
        let record = records::holding(&mut self.random, table);
        let orders = [least(read), grow(read, |_, _| 0), grow(read, |open, rows| open.places(rows) - 1)];
        for plan in orders.map(|plan| plan.write()) {
            let needed = needed(table, &plan, goal);
            for room in [0, needed.saturating_sub(1), needed, needed + 1, needed + ONE, ENOUGH] {
                self.replies_in(&record, &plan, goal, room);
            }
        }
    }

    /// A table and a goal with replies of any length, and of about as many cells as a reply may have.
    pub(super) fn long_replies(&mut self) {
        let (mut rows, goal) = if self.random.one_in(2) {
            let rows = *self.random.pick(&[1, 1, 2, 5, 64]);
            big::chained(&mut self.random, rows)
        } else {
            let length = *self.random.pick(&[1023, 1024, 1024, 1025, 1025, 1026]);
            let length = if self.random.one_in(4) { self.random.within(720..=1100) } else { length };
            let (row, goal) = big::of_length(&mut self.random, length);
            (vec![row], goal)
        };
        // Beside it rows that are no hits, or whose replies are shorter.
        for _ in 0..self.random.below(3) {
            let mut other = self.random.pick(&rows).clone();
            let column = self.random.below(other.len());
            other[column] = self.random.pick(&[Term::Var(0), Term::Var(30), Term::Number(1), Term::Name(9, vec![])]).clone();
            rows.push(other);
        }
        rows.truncate(ROWS);
        let place = self.random.below(rows.len());
        rows.swap(0, place);
        let table = tables::cells(&rows);
        if let Ok(read) = read_table(&table) {
            let (record, plan) = (records::holding(&mut self.random, &table), plans::any(&mut self.random, &read));
            self.replies(&record, &plan, &goal);
            self.run(&record, &plan, &goal, read.rows.len());
        }
    }

    /// A table, sound or damaged, with plans and goals of all kinds; one in four with large replies.
    pub(super) fn random_replies(&mut self) {
        let heavy = self.random.one_in(4);
        let mut table = if heavy {
            let rows = *self.random.pick(&[1, 2, 5, 64]);
            tables::heavy(&mut self.random, rows)
        } else {
            tables::any(&mut self.random)
        };
        let mut read = read_table(&table).ok();
        if self.random.one_in(8) {
            damage::table(&mut self.random, &mut table);
            read = read_table(&table).ok().or(read);
        }
        let read = read.expect("the table was sound");
        let record = records::holding(&mut self.random, &table);
        for _ in 0..2 {
            let mut plan = plans::any(&mut self.random, &read);
            if self.random.one_in(5) {
                damage::plan(&mut self.random, &mut plan);
            }
            let goal = if heavy && read.width > 1 && !self.random.one_in(4) { goals::repeating(&mut self.random, &read) } else { self.goal(&read) };
            self.replies(&record, &plan, &goal);
        }
    }

    /// With a room too small, just enough or larger.
    pub(super) fn replies(&mut self, record: &Record, plan: &[u32], goal: &[u32]) {
        let needed = needed(table_in(record), plan, goal);
        let most = if self.random.one_in(2) { 0 } else { needed + ONE };
        let room = self.room(needed, most);
        self.replies_in(record, plan, goal, room);
    }

    pub(super) fn replies_in(&mut self, record: &Record, plan: &[u32], goal: &[u32], room: usize) {
        let lent = self.lent(room);
        let (answer, left) = lend(&lent, |room| self.exported.replies(record, plan, goal, room));
        let (expected, wanted) = lend(&lent, |room| Definition.replies(record, plan, goal, room));
        let table = table_in(record);
        let describe = || format!("table {table:?} plan {plan:?} goal {goal:?} room {room}");
        self.tally.settle(Entry::Replies, answer, expected, left == wanted, &describe);
        let replies = of_any_length(table, plan, goal).unwrap_or_default();
        self.tally.replied(expected, goal.len(), room, &replies);
        if [0, Number::Big as u64].contains(&(expected & 0xff)) {
            self.tally.own("replies against the hits and the textbook's unifier", in_order(table, goal, &replies), &describe);
        }
    }
}

/// Whether there is a reply for each hit of a run, and each is what the unifier gives for its row and the goal.
fn in_order(table: &[u32], goal: &[u32], replies: &[Reply]) -> bool {
    let table = read_table(table).expect("the table was accepted");
    let goal = read_goal(table.width, goal).expect("the goal was accepted");
    let hits = hits(&table, &goal);
    let held = |(&hit, reply): (&u8, &Reply)| holds(reply, &table.rows[hit as usize].arguments, &goal.arguments);
    hits.len() == replies.len() && hits.iter().zip(replies).all(held)
}

/// The cells of all replies; for what is refused, a few; for BIG, as many as all would have, but no more than can be lent.
fn needed(table: &[u32], plan: &[u32], goal: &[u32]) -> usize {
    of_any_length(table, plan, goal).map_or(20, |replies| replies.iter().map(|reply| reply.length().min(2 * ONE as u64) as usize).sum())
}
