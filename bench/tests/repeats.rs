//! Rows that repeat a variable (02, W-209): engines that are wrong in one thing each are found.

mod altered;

use std::ops::{Range, RangeInclusive};

use altered::{answered, differs, found, hits, number, refused, Altered, Replies, RIGHT};
use dudowiej_bench::compare::repeats::BIG;
use dudowiej_bench::compare::{compare, edits, replies, Tally};
use dudowiej_bench::engine::{Engine, Plain};
use dudowiej_bench::make::records;
use dudowiej_bench::model::plan::{check, grow, Branch, Plan};
use dudowiej_bench::model::read::{read_goal, read_table, Goal, Row, Table};
use dudowiej_bench::model::record::{table_in, Record};
use dudowiej_bench::model::replies::{of_any_length, Reply};
use dudowiej_bench::model::term::Term;
use dudowiej_bench::model::unify::{unifies, Substitution};
use dudowiej_bench::model::walk::{fit, Fit};

/// Goal variables are moved apart from a row's.
const APART: u16 = 5000;

/// A wrong way to what the rules say.
fn found_in_replies(wrong: Replies) {
    differs(replies(&Altered { replies: wrong, ..RIGHT }, Tally::default(), 200, 1));
}

/// The right run, but other hits or another number of branches tried where it is answered.
fn with_run(record: &Record, cells: &[u32], goal: &[u32], room: &mut [u8], change: impl FnOnce(&Asked, &mut Vec<u8>, &mut u64)) -> u64 {
    let mut right = [0; 64];
    let lent = room.len().min(64);
    let answer = Plain.run_plan(record, cells, goal, &mut right[..lent]);
    if !answered(answer) {
        return answer;
    }
    let table = read_table(table_in(record)).expect("the table was accepted");
    let (plan, goal) = (check(&table, cells).expect("the plan was accepted"), read_goal(table.width, goal).expect("the goal was accepted"));
    let (mut rows, mut tried) = (right[..hits(answer)].to_vec(), answer >> 32);
    change(&Asked { table, plan, goal }, &mut rows, &mut tried);
    room[..rows.len()].copy_from_slice(&rows);
    (rows.len() as u64) << 16 | tried << 32
}

/// What a run is asked, read.
struct Asked {
    table: Table,
    plan: Plan,
    goal: Goal,
}

impl Asked {
    fn rows(&self, hit: impl Fn(&Row) -> bool) -> Vec<u8> {
        (0..self.table.rows.len()).filter(|&row| hit(&self.table.rows[row])).map(|row| row as u8).collect()
    }

    fn goal_apart(&self) -> Vec<Term> {
        self.goal.arguments.iter().map(|term| term.renamed(APART)).collect()
    }
}

#[test]
fn a_variable_twice_refused() {
    // As TWICE was, when the row is read.
    found(Altered {
        read_table: |table| match read_table(table) {
            Ok(read) if read.rows.iter().any(|row| row.again > 0) => refused(8) | 3 << 16,
            _ => Plain.read_table(table),
        },
        ..RIGHT
    });
    let append = |record: &mut Record, row: &[u32]| {
        let mut variables: Vec<u32> = row.iter().copied().filter(|cell| cell >> 30 == 0).collect();
        variables.sort();
        if variables.windows(2).any(|pair| pair[0] == pair[1]) {
            refused(8)
        } else {
            Plain.append(record, row)
        }
    };
    differs(edits(&Altered { append, ..RIGHT }, Tally::default(), 30, 1));
}

/// The table with each row's variables told apart, and the same plan for it.
fn told_apart(record: &Record, cells: &[u32]) -> Option<(Box<Record>, Vec<u32>)> {
    let table = read_table(table_in(record)).ok()?;
    let plan = check(&table, cells).ok()?;
    let rows: Vec<Row> = table.rows.iter().map(Row::apart).collect();
    let mut apart = vec![table.width as u32, rows.len() as u32];
    rows.iter().flat_map(|row| &row.arguments).for_each(|term| term.write(&mut apart));
    let mut states = Vec::new();
    places(&plan, plan.top(), &mut states);
    let mut states = states.into_iter();
    let plan = grow(&Table { width: table.width, rows }, |_, _| states.next().expect("as many states")).write();
    Some((records::worked_out(&apart, 0), plan))
}

/// The place of every state, parents first.
fn places(plan: &Plan, state: Range<usize>, found: &mut Vec<usize>) {
    if let Some(branch) = plan.branches[state.clone()].first() {
        found.push(branch.place());
    }
    plan.at(state).for_each(|(_, below)| places(plan, below, found));
}

#[test]
fn a_variable_twice_as_two() {
    found(Altered {
        run_plan: |record, plan, goal, room| match told_apart(record, plan) {
            Some((record, plan)) => Plain.run_plan(&record, &plan, goal, room),
            None => Plain.run_plan(record, plan, goal, room),
        },
        ..RIGHT
    });
    found_in_replies(|record, plan, goal, room| match told_apart(record, plan) {
        Some((record, plan)) => Plain.replies(&record, &plan, goal, room),
        None => Plain.replies(record, plan, goal, room),
    });
}

#[test]
fn rows_with_a_variable_twice_never_hit() {
    found(Altered {
        run_plan: |record, plan, goal, room| {
            with_run(record, plan, goal, room, |asked, rows, _| rows.retain(|&row| asked.table.rows[row as usize].again == 0))
        },
        ..RIGHT
    });
}

#[test]
fn no_occurs_check() {
    found(Altered {
        run_plan: |record, plan, goal, room| {
            with_run(record, plan, goal, room, |asked, rows, _| *rows = asked.rows(|row| fit(row, &asked.goal) != Fit::Differs))
        },
        ..RIGHT
    });
}

/// The hits where what a row with a variable twice binds of the goal is left for the rows after it: only where it is a hit, or always.
fn left_joined(asked: &Asked, always: bool) -> Vec<u8> {
    // Each row's variables have numbers of their own.
    let named = |(number, row): (usize, &Row)| row.arguments.iter().map(|term| term.renamed(64 * number as u16)).collect();
    let (rows, goal): (Vec<Vec<Term>>, _) = (asked.table.rows.iter().enumerate().map(named).collect(), asked.goal_apart());
    let mut left = Substitution::default();
    let mut hits = Vec::new();
    for (number, row) in rows.iter().enumerate() {
        let mut with_row = left.clone();
        let hit = with_row.unify_all(row, &goal);
        if hit {
            hits.push(number as u8);
        }
        if asked.table.rows[number].again > 0 && (hit || always) {
            left = with_row;
        }
    }
    hits
}

#[test]
fn classes_left_joined_for_the_next_row() {
    found(Altered {
        run_plan: |record, plan, goal, room| with_run(record, plan, goal, room, |asked, rows, _| *rows = left_joined(asked, false)),
        ..RIGHT
    });
    found(Altered {
        run_plan: |record, plan, goal, room| with_run(record, plan, goal, room, |asked, rows, _| *rows = left_joined(asked, true)),
        ..RIGHT
    });
}

/// Where a cell stands in a row: the number of the argument, then of the argument inside it, and so on.
type Way = Vec<usize>;

/// The ways of all cells of terms, from the left, each with its cell.
fn listed(terms: &[Term], from: &[usize], found: &mut Vec<(Way, u32)>) {
    for (number, term) in terms.iter().enumerate() {
        let way = [from, &[number]].concat();
        found.push((way.clone(), term.cell()));
        listed(term.arguments(), &way, found);
    }
}

/// The terms with what is not decided as fresh variables.
fn partly(terms: &[Term], from: &[usize], decided: &[Way], fresh: &mut u16) -> Vec<Term> {
    let part = |(number, term): (usize, &Term)| {
        let way = [from, &[number]].concat();
        match term {
            _ if !decided.contains(&way) => {
                *fresh += 1;
                Term::Var(*fresh)
            }
            Term::Name(number, arguments) => Term::Name(*number, partly(arguments, &way, decided, fresh)),
            leaf => leaf.clone(),
        }
    };
    terms.iter().enumerate().map(part).collect()
}

/// What is decided above a state, and what is open, from the left.
#[derive(Clone)]
struct Down {
    decided: Vec<Way>,
    open: Vec<Way>,
}

impl Down {
    /// What is decided where a variable's first cell in the row is, with the names around it, as soon as another of its cells is.
    fn with_first_cells(&self, row: &Row) -> Vec<Way> {
        let mut cells = Vec::new();
        listed(&row.arguments, &[], &mut cells);
        let mut decided = self.decided.clone();
        for (_, variable) in cells.iter().filter(|(way, cell)| cell >> 30 == 0 && self.decided.contains(way)) {
            let (first, _) = cells.iter().find(|(_, cell)| cell == variable).expect("the cell itself");
            decided.extend((1..=first.len()).map(|length| first[..length].to_vec()));
        }
        decided
    }

    fn below(&self, branch: &Branch) -> Down {
        let mut down = self.clone();
        let way = down.open[branch.place()].clone();
        let arguments = (0..branch.argument_count()).map(|number| [&way[..], &[number]].concat()).collect::<Vec<_>>();
        down.open.splice(branch.place()..branch.place() + 1, arguments);
        down.decided.push(way);
        down
    }
}

/// Branches tried where a variable's first cell in the row counts as met first, whatever the plan's path has met.
fn tried_by_row_order(asked: &Asked, goal: &[Term], state: Range<usize>, row: usize, down: &Down) -> u64 {
    let row = &asked.table.rows[row];
    let decided = partly(&row.arguments, &[], &down.with_first_cells(row), &mut (2 * APART));
    let here = u64::from(unifies(&decided, goal));
    let below = |(branch, state): (&Branch, Range<usize>)| here + tried_by_row_order(asked, goal, state, branch.rows().start, &down.below(branch));
    asked.plan.at(state).map(below).sum()
}

/// The run with branches tried so, where a row repeats a variable or where none does.
fn run_by_row_order(record: &Record, plan: &[u32], goal: &[u32], room: &mut [u8], repeating: bool) -> u64 {
    with_run(record, plan, goal, room, |asked, _, tried| {
        if asked.table.rows.iter().any(|row| row.again > 0) == repeating {
            let down = Down { decided: Vec::new(), open: (0..asked.table.width).map(|argument| vec![argument]).collect() };
            *tried = tried_by_row_order(asked, &asked.goal_apart(), asked.plan.top(), 0, &down);
        }
    })
}

#[test]
fn a_first_meeting_by_the_rows_order() {
    found(Altered { run_plan: |record, plan, goal, room| run_by_row_order(record, plan, goal, room, true), ..RIGHT });
    // Nothing else is wrong with it.
    let other = Altered { run_plan: |record, plan, goal, room| run_by_row_order(record, plan, goal, room, false), ..RIGHT };
    assert_eq!(compare(&other, 200, 1).differ(), 0);
}

/// How many cells of the rows are a variable met before.
fn laters(record: &Record, rows: RangeInclusive<usize>) -> u32 {
    read_table(table_in(record)).map_or(0, |read| read.rows[rows].iter().map(|row| row.again as u32).sum())
}

#[test]
fn another_cost_of_meetings() {
    // A later one for nothing: in the plan's cost, in the record; a first one at 1.
    found(Altered {
        build_plan: |record, room| match Plain.build_plan(record, room) {
            answer if answered(answer) => answer - (u64::from(laters(record, 0..=table_in(record)[1] as usize - 1)) << 32),
            answer => answer,
        },
        ..RIGHT
    });
    found(Altered {
        work_out: |table, figure, record| {
            let answer = Plain.work_out(table, figure, record);
            if answered(answer) {
                for first in 0..table[1] as usize {
                    (first..table[1] as usize).for_each(|last| record[2052 + 64 * first + last] -= laters(record, first..=last));
                }
            }
            answer
        },
        ..RIGHT
    });
    found(Altered {
        build_plan: |record, room| match Plain.build_plan(record, room) {
            answer if answered(answer) => {
                let rows = read_table(table_in(record)).map_or(Vec::new(), |read| read.rows);
                answer + (rows.iter().map(|row| row.variables as u64).sum::<u64>() << 32)
            }
            answer => answer,
        },
        ..RIGHT
    });
}

#[test]
fn later_meetings_not_counted() {
    // Not at all: each later cell of a row that is hit; and twice.
    fn more(asked: &Asked, rows: &[u8]) -> u64 {
        rows.iter().map(|&row| asked.table.rows[row as usize].again as u64).sum()
    }
    found(Altered {
        run_plan: |record, plan, goal, room| with_run(record, plan, goal, room, |asked, rows, tried| *tried -= more(asked, rows)),
        ..RIGHT
    });
    found(Altered {
        run_plan: |record, plan, goal, room| with_run(record, plan, goal, room, |asked, rows, tried| *tried += more(asked, rows)),
        ..RIGHT
    });
}

/// The replies of any length, where the call is answered or BIG.
fn of_lengths(record: &Record, plan: &[u32], goal: &[u32]) -> Vec<Reply> {
    of_any_length(table_in(record), plan, goal).unwrap_or_default()
}

#[test]
fn big_at_another_length() {
    // From 1,024 cells on; from 1,026 on.
    found_in_replies(|record, plan, goal, room| match Plain.replies(record, plan, goal, room) {
        _ if of_lengths(record, plan, goal).iter().any(|reply| reply.length() == 1024) => BIG,
        answer => answer,
    });
    found_in_replies(|record, plan, goal, room| match Plain.replies(record, plan, goal, room) {
        BIG if of_lengths(record, plan, goal).iter().all(|reply| reply.length() <= 1025) => 1 << 16 | 1025 << 32,
        answer => answer,
    });
}

#[test]
fn big_after_room() {
    found_in_replies(|record, plan, goal, room| match Plain.replies(record, plan, goal, room) {
        BIG => {
            let needed: u64 = of_lengths(record, plan, goal).iter().map(Reply::length).sum();
            if (room.len() as u64) < needed {
                16 | 4 << 8 | needed << 16
            } else {
                BIG
            }
        }
        answer => answer,
    });
}

#[test]
fn big_of_all_replies_together() {
    found_in_replies(|record, plan, goal, room| match Plain.replies(record, plan, goal, room) {
        answer if answered(answer) && answer >> 32 > 1024 => BIG,
        answer => answer,
    });
}

#[test]
fn big_only_for_the_first_hit() {
    found_in_replies(|record, plan, goal, room| match Plain.replies(record, plan, goal, room) {
        BIG if of_lengths(record, plan, goal)[0].length() <= 1024 => 1 << 16 | of_lengths(record, plan, goal)[0].length() << 32,
        answer => answer,
    });
}

#[test]
fn big_of_another_input_or_place() {
    found_in_replies(|record, plan, goal, room| match Plain.replies(record, plan, goal, room) {
        BIG => 25 | 4 << 8,
        answer => answer,
    });
    found_in_replies(|record, plan, goal, room| match Plain.replies(record, plan, goal, room) {
        BIG => BIG | of_lengths(record, plan, goal).iter().map(Reply::length).max().unwrap_or(0) << 16,
        answer => answer,
    });
}

#[test]
fn a_reply_cut_at_1024() {
    found_in_replies(|record, plan, goal, room| match Plain.replies(record, plan, goal, room) {
        BIG => {
            let cells: u64 = of_lengths(record, plan, goal).iter().map(|reply| reply.length().min(1024)).sum();
            (of_lengths(record, plan, goal).len() as u64) << 16 | cells << 32
        }
        answer => answer,
    });
}

#[test]
fn big_that_writes() {
    found_in_replies(|record, plan, goal, room| {
        let answer = Plain.replies(record, plan, goal, room);
        if let (25, [first, ..]) = (number(answer), room) {
            *first = first.wrapping_add(1);
        }
        answer
    });
}

#[test]
fn big_in_a_run() {
    found_in_runs_of_long_replies(|record, plan, goal, room| {
        let long = of_lengths(record, plan, goal).iter().any(|reply| reply.length() > 1024);
        if long {
            BIG
        } else {
            Plain.run_plan(record, plan, goal, room)
        }
    });
}

/// The goals with long replies are run too.
fn found_in_runs_of_long_replies(run_plan: fn(&Record, &[u32], &[u32], &mut [u8]) -> u64) {
    differs(replies(&Altered { run_plan, ..RIGHT }, Tally::default(), 200, 1));
}
