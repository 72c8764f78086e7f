//! The plan that a list of goals likes best: examples by each engine, and engines that are wrong in one thing each are found.

mod altered;

use altered::{answered, differs, number, written, Altered, BuildLiked, RIGHT};
use dudowiej_bench::compare::liked::{of_texts, EXAMPLES};
use dudowiej_bench::compare::{liked, liked_at_length, Tally};
use dudowiej_bench::engine::{Definition, Engine, Exported, Plain};
use dudowiej_bench::make::lists::List;
use dudowiej_bench::make::records;
use dudowiej_bench::model::least::Measure;
use dudowiej_bench::model::liked::{accepted, by_walk, sets, Liked, Sets};
use dudowiej_bench::model::plan::{Plan, PLAN_CELLS};
use dudowiej_bench::model::read::{read_goal, read_table, Goal, Table};
use dudowiej_bench::model::record::{entry, figure_in, put_table, table_in, Record};
use dudowiej_bench::model::run::hits;
use dudowiej_bench::notation::{plan, table};

const FIGURE: u64 = 20 | 6 << 8;

fn engines() -> [&'static dyn Engine; 3] {
    [&Exported, &Plain, &Definition]
}

fn room_wanted(cells: usize) -> u64 {
    16 | 4 << 8 | (cells as u64) << 16
}

/// What is lent for the finding holds this before a call.
const BEFORE: Liked = Liked { columns: 7, tried: 8, plain: 9 };

fn with(cells: &[u32], figure: u32) -> Box<Record> {
    let mut record = records::empty();
    put_table(&mut record, cells, figure);
    record
}

#[test]
fn examples_by_each_engine() {
    for example in &EXAMPLES {
        let (cells, plan, list) = (table(example.rows), plan(example.plan), of_texts(example.goals));
        let answer = (plan.len() as u64) << 16 | (example.cost as u64) << 32;
        let wanted = Liked { columns: example.columns, tried: example.tried, plain: example.plain };
        for record in [records::worked_out(&cells, example.figure), with(&cells, example.figure)] {
            for engine in engines() {
                // With an odd word too, which is passed over.
                for list in [list.clone(), list.clone().odd(0, 2)] {
                    let (mut room, mut found) = (vec![7; plan.len() + 5], BEFORE);
                    assert_eq!(engine.build_liked(&record, list.cells(), list.words(), &mut room, &mut found), answer, "{}", example.rows);
                    assert_eq!((&room[..], found), (&[&plan[..], &[7; 5]].concat()[..], wanted), "{} {:?}", example.rows, example.goals);
                    found = BEFORE;
                    assert_eq!(engine.build_liked(&record, list.cells(), list.words(), &mut room[..plan.len()], &mut found), answer);
                    assert_eq!(found, wanted);
                    let mut short = vec![7; plan.len() - 1];
                    found = BEFORE;
                    assert_eq!(engine.build_liked(&record, list.cells(), list.words(), &mut short, &mut found), room_wanted(plan.len()));
                    assert_eq!(engine.build_liked(&record, list.cells(), list.words(), &mut [], &mut found), room_wanted(plan.len()));
                    assert!(short.iter().all(|&cell| cell == 7) && found == BEFORE);
                }
            }
        }
    }
}

/// FIGURE, the table's, ROOM; nothing is written.
#[test]
fn one_refusal_after_another() {
    let (sound, refused) = (table("(a,b) (b,b)"), vec![1, 1, 3 << 30]);
    let list = of_texts(&["(a,v0)", "(a)"]);
    for engine in engines() {
        let (mut room, mut found) = ([7; 8], BEFORE);
        let mut build = |record: &Record| engine.build_liked(record, list.cells(), list.words(), &mut room, &mut found);
        for figure in [16, u32::MAX] {
            assert_eq!([build(&with(&refused, figure)), build(&with(&sound, figure))], [FIGURE; 2]);
        }
        assert_eq!(build(&with(&refused, 15)), 6 | 1 << 8 | 2 << 16);
        assert_eq!(build(&with(&sound, 15)), room_wanted(9));
        // More cells than a table has: none are looked at.
        let mut record = with(&sound, 0);
        record[0] = 2051;
        assert_eq!(build(&record), 1 | 1 << 8);
        assert_eq!((room, found), ([7; 8], BEFORE));
    }
}

/// Goals that share cells, are listed twice, or reach past the cells.
#[test]
fn words_of_a_list() {
    const MAX: usize = usize::MAX;
    let record = records::worked_out(&table("(a,b) (a,c)"), 0);
    let cells = of_texts(&["(a,d)", "(a,d)"]).cells().to_vec();
    let lists: [(&[usize], [usize; 3]); 8] = [
        (&[0, 2], [2, 2, 3]),
        (&[0, 2, 0, 2, 0, 2, 2, 2], [2, 8, 12]),
        // d and a: no row has d in the first column.
        (&[1, 2], [0, 1, 1]),
        (&[1, 2, 0, 2], [0, 4, 4]),
        (&[1, 2, 0, 2, 2, 2], [2, 6, 7]),
        (&[0, 2, 3, 2, 4, 0, 5, 0, MAX, MAX, MAX, 3, 0, MAX, 1, 1, 0, 3], [2, 2, 3]),
        (&[0], [0, 0, 0]),
        (&[1, 2, 2], [0, 1, 1]),
    ];
    for engine in engines() {
        for (words, [columns, tried, plain]) in lists {
            let mut found = BEFORE;
            assert!(answered(engine.build_liked(&record, &cells, words, &mut [0; 20], &mut found)));
            assert_eq!(found, Liked { columns, tried, plain }, "{words:?}");
        }
    }
}

// The wrong ones.

#[track_caller]
fn found(build_liked: BuildLiked) {
    differs(liked(&Altered { build_liked, ..RIGHT }, Tally::default(), 12, 1));
}

#[track_caller]
fn found_at_length(build_liked: BuildLiked) {
    differs(liked_at_length(&Altered { build_liked, ..RIGHT }, Tally::default(), 1));
}

#[test]
fn right_ones_pass() {
    let tally = liked_at_length(&RIGHT, liked(&RIGHT, Tally::default(), 300, 1), 1);
    assert_eq!(tally.differ(), 0, "{tally}");
    // What the wrong ones below are made from.
    let chosen: BuildLiked = |record, goals, list, room, liked| chosen(record, goals, list, room, liked, |call| call.found(call.sets.best()));
    let summed: BuildLiked = |record, goals, list, room, liked| summed(record, goals, list, room, liked, |call, plan| call.total(plan));
    for build_liked in [chosen, summed] {
        let tally = liked(&Altered { build_liked, ..RIGHT }, Tally::default(), 100, 1);
        assert_eq!(tally.differ(), 0, "{tally}");
    }
}

/// A call whose figure and table are accepted.
struct Call<'c> {
    table: &'c Table,
    measure: Measure,
    cells: &'c [u32],
    list: &'c [usize],
    goals: &'c [(Goal, u128)],
    sets: &'c Sets,
}

impl Call<'_> {
    /// What is found where this set is taken.
    fn found(&self, set: usize) -> (usize, Liked) {
        (set, Liked { columns: set, tried: self.sets.totals[set], plain: self.sets.totals[0] })
    }

    /// The sets by which the least is tried.
    fn least(&self) -> Vec<usize> {
        let least = *self.sets.totals.iter().min().expect("there are sets");
        (0..self.sets.totals.len()).filter(|&set| self.sets.totals[set] == least).collect()
    }

    /// The first of the sets by which the least is tried, of some.
    fn among(&self, is: impl Fn(usize) -> bool) -> (usize, Liked) {
        self.found((0..self.sets.totals.len()).filter(|&set| is(set)).min_by_key(|&set| self.sets.totals[set]).expect("some set"))
    }

    fn total(&self, plan: &Plan) -> usize {
        self.tried(plan).map(|(tried, times)| tried * times).sum()
    }

    /// What each goal tries, and how often it is listed.
    fn tried<'s>(&'s self, plan: &'s Plan) -> impl Iterator<Item = (usize, usize)> + 's {
        self.goals.iter().map(|(goal, times)| (by_walk(self.table, plan, goal), *times as usize))
    }

    /// How many of the list's goals are refused.
    fn refused(&self) -> usize {
        let goal = |words: &[usize]| self.cells.get(words[0]..).and_then(|rest| rest.get(..words[1]));
        let accepted = |words: &[usize]| goal(words).is_some_and(|goal| read_goal(self.table.width, goal).is_ok());
        self.list.chunks_exact(2).filter(|words| !accepted(words)).count()
    }
}

/// The right refusals of figure and table, but another set, or another finding.
fn chosen(record: &Record, cells: &[u32], list: &[usize], room: &mut [u32], liked: &mut Liked, choose: fn(&Call) -> (usize, Liked)) -> u64 {
    let (table, figure) = (table_in(record), figure_in(record));
    let Ok(sets) = sets(table, figure, cells, list, by_walk) else {
        return Plain.build_liked(record, cells, list, room, liked);
    };
    let table = read_table(table).expect("the table was accepted");
    let goals = accepted(table.width, cells, list);
    let (set, found) = choose(&Call { table: &table, measure: Measure::Work(figure), cells, list, goals: &goals, sets: &sets });
    let plan = sets.plans[set].write();
    let answer = written(room, &plan, plan.len(), sets.cost(set));
    if answered(answer) {
        *liked = found;
    }
    answer
}

/// The same where what a plan tries is summed in another way.
fn summed(record: &Record, cells: &[u32], list: &[usize], room: &mut [u32], liked: &mut Liked, sum: fn(&Call, &Plan) -> usize) -> u64 {
    let (table, figure) = (table_in(record), figure_in(record));
    let Ok(sets) = sets(table, figure, cells, list, by_walk) else {
        return Plain.build_liked(record, cells, list, room, liked);
    };
    let table = read_table(table).expect("the table was accepted");
    let goals = accepted(table.width, cells, list);
    let call = Call { table: &table, measure: Measure::Work(figure), cells, list, goals: &goals, sets: &sets };
    let totals: Vec<usize> = sets.plans.iter().map(|plan| sum(&call, plan)).collect();
    let set = (0..totals.len()).min_by_key(|&set| totals[set]).expect("there are sets");
    let plan = sets.plans[set].write();
    let answer = written(room, &plan, plan.len(), sets.cost(set));
    if answered(answer) {
        *liked = Liked { columns: set, tried: totals[set], plain: totals[0] };
    }
    answer
}

macro_rules! chosen {
    ($choose:expr) => {
        found(|record, goals, list, room, liked| chosen(record, goals, list, room, liked, $choose))
    };
}

macro_rules! summed {
    ($sum:expr) => {
        found(|record, goals, list, room, liked| summed(record, goals, list, room, liked, $sum))
    };
}

#[test]
fn ties_that_go_elsewhere() {
    // To the largest set; to the plain plan and else the largest; to any set before the plain plan.
    chosen!(|call| call.found(*call.least().last().expect("some set")));
    chosen!(|call| call.found(if call.least()[0] == 0 { 0 } else { *call.least().last().expect("some set") }));
    chosen!(|call| call.found(*call.least().get(usize::from(call.least()[0] == 0)).unwrap_or(&0)));
    // To the plan that costs least, has the fewest branches, or fewest columns; to the set whose columns come first when read from the left.
    chosen!(|call| call.found(call.least().into_iter().min_by_key(|&set| call.sets.cost(set)).expect("some set")));
    chosen!(|call| call.found(call.least().into_iter().min_by_key(|&set| call.sets.plans[set].branches.len()).expect("some set")));
    chosen!(|call| call.found(call.least().into_iter().min_by_key(|&set| (set > 0, set.reverse_bits().wrapping_neg())).expect("some set")));
    // A set whose plan is the plain one, in the place of none.
    chosen!(|call| match call.sets.best() {
        0 => call.found(call.sets.plans.iter().rposition(|plan| *plan == call.sets.plans[0]).expect("there is one")),
        set => call.found(set),
    });
}

#[test]
fn never_better_than_plain() {
    chosen!(|call| call.found(0));
    // By one column alone; by all columns but one; only where the list has many goals; only where it halves what is tried.
    chosen!(|call| call.among(|set| set.count_ones() <= 1));
    chosen!(|call| call.among(|set| set == 0 || set.count_ones() as usize + 1 == call.table.width));
    chosen!(|call| if call.goals.len() > 2 { call.found(call.sets.best()) } else { call.found(0) });
    chosen!(|call| if 2 * call.sets.liked().tried <= call.sets.totals[0] { call.found(call.sets.best()) } else { call.found(0) });
}

#[test]
fn sets_left_out() {
    // With the first column; with the last; that with all but the last; that with all but the first.
    chosen!(|call| call.among(|set| set & 1 == 0));
    chosen!(|call| call.among(|set| set < call.sets.totals.len() / 2));
    chosen!(|call| call.among(|set| set + 1 != call.sets.totals.len() / 2));
    chosen!(|call| call.among(|set| set == 0 || set + 2 != call.sets.totals.len()));
    // The first that is better than the plain plan; the worst.
    chosen!(|call| call.found((0..call.sets.totals.len()).find(|&set| call.sets.totals[set] < call.sets.totals[0]).unwrap_or(0)));
    chosen!(|call| call.found((0..call.sets.totals.len()).max_by_key(|&set| call.sets.totals[set]).expect("some set")));
    // Those of eight columns past the first 128.
    chosen!(|call| call.among(|set| set < 128));
}

/// The right plan, but another finding.
macro_rules! finding {
    ($wrong:expr) => {
        chosen!(|call| {
            let wrong: fn(&Call, Liked) -> Liked = $wrong;
            let (set, liked) = call.found(call.sets.best());
            (set, wrong(call, liked))
        })
    };
}

#[test]
fn another_finding() {
    // The plain plan's total left out, or that of the plan found in its place; for the plan's total the plain plan's, that of the next set, or what
    // is saved; the two exchanged; the plain plan with the finding of the other.
    finding!(|_, liked| Liked { plain: 0, ..liked });
    finding!(|_, liked| Liked { plain: liked.tried, ..liked });
    finding!(|_, liked| Liked { tried: liked.plain, ..liked });
    finding!(|call, liked| Liked { tried: call.sets.totals[(liked.columns + 1) % call.sets.totals.len()], ..liked });
    finding!(|_, liked| Liked { tried: liked.plain - liked.tried, ..liked });
    finding!(|_, liked| Liked { tried: liked.plain, plain: liked.tried, ..liked });
    chosen!(|call| (0, call.sets.liked()));
    // How many columns; the first of them; columns from 1 on; bits from the last column on; all of them for the plain plan.
    finding!(|_, liked| Liked { columns: liked.columns.count_ones() as usize, ..liked });
    finding!(|_, liked| Liked { columns: liked.columns.trailing_zeros() as usize, ..liked });
    finding!(|_, liked| Liked { columns: liked.columns << 1, ..liked });
    finding!(|call, liked| {
        let turned = (0..call.table.width).filter(|column| liked.columns >> column & 1 == 1).map(|column| 1 << (call.table.width - 1 - column));
        Liked { columns: turned.sum(), ..liked }
    });
    finding!(|call, liked| Liked { columns: if liked.columns == 0 { call.sets.totals.len() - 1 } else { liked.columns }, ..liked });
}

#[test]
fn goals_counted_otherwise() {
    // A refused goal with the plan's branches, or with one; one that is listed twice once; the most that a goal tries; goals and not branches.
    summed!(|call, plan| call.total(plan) + call.refused() * plan.branches.len());
    summed!(|call, plan| call.total(plan) + call.refused());
    summed!(|call, plan| call.tried(plan).map(|(tried, _)| tried).sum());
    summed!(|call, plan| call.tried(plan).map(|(tried, _)| tried).max().unwrap_or(0));
    summed!(|call, _| call.goals.iter().map(|(_, times)| *times as usize).sum());
    // Rows that are hit; the branches of the plan, whatever is tried; a branch more for each goal; the cost with it.
    summed!(|call, _| call.goals.iter().map(|(goal, times)| hits(call.table, goal).len() * *times as usize).sum());
    summed!(|call, plan| call.goals.iter().map(|(_, times)| plan.branches.len() * *times as usize).sum());
    summed!(|call, plan| call.tried(plan).map(|(tried, times)| (tried + 1) * times).sum());
    summed!(|call, plan| call.total(plan) + call.measure.cost(plan));
    // A list without a goal: the plan with the fewest branches.
    summed!(|call, plan| if call.goals.is_empty() { plan.branches.len() } else { call.total(plan) });
}

#[test]
fn sums_of_fewer_bits() {
    found_at_length(|record, goals, list, room, liked| summed(record, goals, list, room, liked, |call, plan| call.total(plan) & 0xffff));
    found_at_length(|record, goals, list, room, liked| summed(record, goals, list, room, liked, |call, plan| call.total(plan) & 0xffff_ffff));
    found_at_length(|record, goals, list, room, liked| summed(record, goals, list, room, liked, |call, plan| call.total(plan).min(0xffff_ffff)));
}

/// The right answer to another list.
macro_rules! list {
    ($change:expr) => {
        found(|record, goals, list, room, liked| {
            let change: fn(&[u32], &[usize]) -> Vec<usize> = $change;
            Plain.build_liked(record, goals, &change(goals, list), room, liked)
        })
    };
}

/// Each goal's two words replaced.
fn words(list: &[usize], goal: impl Fn(usize, usize) -> [usize; 2]) -> Vec<usize> {
    list.chunks_exact(2).flat_map(|words| goal(words[0], words[1])).collect()
}

#[test]
fn another_list() {
    // An odd word as the start of a goal that goes on to the end of the cells, or is as long as the one before; an odd list without its last goal, or
    // with none.
    list!(|cells, list| match list.len() % 2 {
        1 => [list, &[cells.len().saturating_sub(list[list.len() - 1])]].concat(),
        _ => list.to_vec(),
    });
    list!(|_, list| if list.len() % 2 == 1 && list.len() > 1 { [list, &[list[list.len() - 2]]].concat() } else { list.to_vec() });
    list!(|_, list| if list.len() % 2 == 1 { list[..list.len().saturating_sub(3)].to_vec() } else { list.to_vec() });
    list!(|_, list| if list.len() % 2 == 1 { Vec::new() } else { list.to_vec() });
    // Counts first; starts and then counts; starts and ends; without the last goal, or the first.
    list!(|_, list| words(list, |start, count| [count, start]));
    list!(|_, list| (0..list.len() / 2).flat_map(|goal| [list[goal], list[goal + list.len() / 2]]).collect());
    list!(|_, list| words(list, |start, end| [start, end.saturating_sub(start)]));
    list!(|_, list| list[..(list.len() & !1).saturating_sub(2)].to_vec());
    list!(|_, list| list.get(2..).unwrap_or(&[]).to_vec());
    list!(|_, list| list[..list.len().min(2)].to_vec());
    // Past the cells: as far as they go; by the last 32 bits; no further than the first that is past them; none at all where one is.
    list!(|cells, list| words(list, |start, count| [start, count.min(cells.len().saturating_sub(start))]));
    list!(|_, list| words(list, |start, count| [start as u32 as usize, count]));
    list!(|_, list| words(list, |start, count| [start, count as u32 as usize]));
    list!(|cells, list| {
        let past = |words: &&[usize]| words[0].checked_add(words[1]).is_none_or(|end| end > cells.len());
        list.chunks_exact(2).take_while(|words| !past(words)).flatten().copied().collect()
    });
    list!(|cells, list| if list.chunks_exact(2).any(|words| words[0] > cells.len()) { Vec::new() } else { list.to_vec() });
}

#[test]
fn cells_behind_those_that_are_lent() {
    // A cell past the last taken as a variable.
    found(|record, goals, list, room, liked| {
        let more = List::new([goals, &[0]].concat(), list.to_vec());
        Plain.build_liked(record, more.cells(), more.words(), room, liked)
    });
    found(|record, goals, list, room, liked| Plain.build_liked(record, &goals[..goals.len().saturating_sub(1)], list, room, liked));
}

#[test]
fn one_refusal_before_another() {
    // The table's before FIGURE; ROOM before both, where there is none; FIGURE for 15; not for 16; by the last eight bits.
    found(|record, goals, list, room, liked| match (Plain.build_liked(record, goals, list, room, liked), Plain.read_table(table_in(record))) {
        (FIGURE, table) if !answered(table) => table,
        (answer, _) => answer,
    });
    found(|record, goals, list, room, liked| match Plain.build_liked(record, goals, list, room, liked) {
        answer if !answered(answer) && room.is_empty() => room_wanted(1),
        answer => answer,
    });
    found(|record, goals, list, room, liked| match figure_in(record) {
        15 => FIGURE,
        _ => Plain.build_liked(record, goals, list, room, liked),
    });
    found(|record, goals, list, room, liked| match figure_in(record) {
        16 => Plain.build_liked(&with_figure(record, 15), goals, list, room, liked),
        _ => Plain.build_liked(record, goals, list, room, liked),
    });
    found(|record, goals, list, room, liked| Plain.build_liked(&with_figure(record, figure_in(record) & 0xff), goals, list, room, liked));
}

fn with_figure(record: &Record, figure: u32) -> Box<Record> {
    let mut record = Box::new(*record);
    record[1] = figure;
    record
}

/// The cells of the plain plan, and of the longest plan of any set.
fn lengths(record: &Record) -> Option<(usize, usize)> {
    let sets = sets(table_in(record), figure_in(record), &[], &[], by_walk).ok()?;
    let longest = sets.plans.iter().map(|plan| plan.write().len()).max()?;
    Some((sets.plans[0].write().len(), longest))
}

#[test]
fn room_for_another_plan() {
    // Wanted for the plain plan too; for every plan; of the largest size; its place the plain plan's; one cell more.
    found(|record, goals, list, room, liked| match lengths(record) {
        Some((plain, _)) if room.len() < plain => room_wanted(plain),
        _ => Plain.build_liked(record, goals, list, room, liked),
    });
    found(|record, goals, list, room, liked| match lengths(record) {
        Some((_, longest)) if room.len() < longest => room_wanted(longest),
        _ => Plain.build_liked(record, goals, list, room, liked),
    });
    found(|record, goals, list, room, liked| match lengths(record) {
        Some(_) if room.len() < PLAN_CELLS => room_wanted(PLAN_CELLS),
        _ => Plain.build_liked(record, goals, list, room, liked),
    });
    found(|record, goals, list, room, liked| match (Plain.build_liked(record, goals, list, room, liked), lengths(record)) {
        (answer, Some((plain, _))) if number(answer) == 16 => room_wanted(plain),
        (answer, _) => answer,
    });
    found(|record, goals, list, room, liked| match Plain.build_liked(record, goals, list, &mut room.to_vec(), &mut Liked::default()) {
        answer if answered(answer) && (answer >> 16 & 0xffff) as usize == room.len() => room_wanted(room.len()),
        _ => Plain.build_liked(record, goals, list, room, liked),
    });
    // The plain plan, where the other has no room.
    found(|record, goals, list, room, liked| match Plain.build_liked(record, goals, list, room, liked) {
        answer if number(answer) == 16 => Plain.build_for(record, &[], room),
        answer => answer,
    });
}

#[test]
fn what_is_written_otherwise() {
    // The room, and the finding, where anything is refused, or behind the plan; the finding not at all, or its last number; the plan not at all.
    found(|record, goals, list, room, liked| {
        let answer = Plain.build_liked(record, goals, list, room, liked);
        if let (false, Some(cell)) = (answered(answer), room.first_mut()) {
            *cell = 0;
        }
        answer
    });
    found(|record, goals, list, room, liked| {
        let answer = Plain.build_liked(record, goals, list, room, liked);
        if number(answer) == 16 {
            let mut enough = vec![0; PLAN_CELLS];
            Plain.build_liked(record, goals, list, &mut enough, liked);
        }
        answer
    });
    found(|record, goals, list, room, liked| {
        let answer = Plain.build_liked(record, goals, list, room, liked);
        if !answered(answer) {
            *liked = Liked::default();
        }
        answer
    });
    found(|record, goals, list, room, liked| {
        let answer = Plain.build_liked(record, goals, list, room, liked);
        if answered(answer) {
            room[(answer >> 16 & 0xffff) as usize..].fill(0);
        }
        answer
    });
    // A longer plan that was built on the way, behind the one found.
    found(|record, goals, list, room, liked| {
        let mut others = room.to_vec();
        let answer = Plain.build_liked(record, goals, list, room, liked);
        if answered(answer) {
            let cells = (answer >> 16 & 0xffff) as usize;
            Plain.build_for(record, &[0], &mut others);
            room[cells..].copy_from_slice(&others[cells..]);
        }
        answer
    });
    found(|record, goals, list, room, _| Plain.build_liked(record, goals, list, room, &mut Liked::default()));
    found(|record, goals, list, room, liked| {
        let plain = liked.plain;
        let answer = Plain.build_liked(record, goals, list, room, liked);
        liked.plain = plain;
        answer
    });
    found(|record, goals, list, room, liked| Plain.build_liked(record, goals, list, &mut room.to_vec(), liked));
}

#[test]
fn a_cost_of_another_kind() {
    // Of the plain plan; the branches; all with figure 0; what is tried.
    found(|record, goals, list, room, liked| match Plain.build_liked(record, goals, list, room, liked) {
        answer if answered(answer) => answer & 0xffff_ffff | Plain.build_for(record, &[], &mut [0; PLAN_CELLS]) >> 32 << 32,
        answer => answer,
    });
    found(|record, goals, list, room, liked| match Plain.build_liked(record, goals, list, room, liked) {
        answer if answered(answer) => answer & 0xffff_ffff | Plain.check_plan(record, &room[..(answer >> 16 & 0xffff) as usize]) >> 16 << 32,
        answer => answer,
    });
    found(|record, goals, list, room, liked| match Plain.build_liked(record, goals, list, room, liked) {
        FIGURE => FIGURE,
        answer if answered(answer) => Plain.build_liked(&with_figure(record, 0), goals, list, room, liked),
        answer => answer,
    });
    found(|record, goals, list, room, liked| match Plain.build_liked(record, goals, list, room, liked) {
        answer if answered(answer) => answer & 0xffff_ffff | (liked.tried as u64) << 32,
        answer => answer,
    });
}

#[test]
fn the_records_own_numbers_believed() {
    found(|record, goals, list, room, liked| match Plain.build_liked(record, goals, list, room, liked) {
        answer if answered(answer) && liked.columns == 0 => {
            let [whole, ..] = entry(record, 0, table_in(record)[1] as usize - 1);
            answer & 0xffff_ffff | u64::from(whole) << 32
        }
        answer => answer,
    });
    found(|record, goals, list, room, liked| {
        let mut worked_out = records::empty();
        Plain.work_out(table_in(record), figure_in(record), &mut worked_out);
        match Plain.build_liked(record, goals, list, &mut room.to_vec(), &mut Liked::default()) {
            answer if answered(answer) && *worked_out != *record => 1 | 1 << 8,
            _ => Plain.build_liked(record, goals, list, room, liked),
        }
    });
}
