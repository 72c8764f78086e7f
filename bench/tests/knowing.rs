//! Knowing more never adds rules (02, W-214): worked examples by each engine; and engines that are wrong in one thing each are found.

mod notation;

use dudowiej_bench::engine::{Definition, Exported, Plain};
use dudowiej_bench::knowing::{compare, Runs};
use dudowiej_bench::make::records;
use dudowiej_bench::model::record::Record;
use dudowiej_bench::shift::Job;
use notation::{goal, plan, table};

fn engines() -> [&'static dyn Runs; 3] {
    [&Exported, &Plain, &Definition]
}

/// A table with a plan, and for each goal its hit rows and the branches tried.
fn runs(rows: &str, cells: &str, goals: &[(&str, &[u8], u64)]) {
    let record = records::worked_out(&table(rows), 0);
    for engine in engines() {
        for &(text, hits, tried) in goals {
            let mut room = [7; 64];
            let answer = engine.run_plan(&record, &plan(cells), &goal(text), &mut room);
            assert_eq!(answer, (hits.len() as u64) << 16 | tried << 32, "{rows} {cells} {text}");
            assert_eq!(&room[..hits.len()], hits);
        }
    }
}

const THREE: &str = "(a,b) (v0,v0) (c,v0)";
const PLAN: &str = "0 3 a 0 1 b 1 v0 0 1 v0 1 c 0 1 v0 1";

#[test]
fn goals_and_their_instances() {
    let goals: [(&str, &[u8], u64); 5] =
        [("(v0,v1)", &[0, 1, 2], 6), ("(a,v0)", &[0, 1], 5), ("(a,b)", &[0], 5), ("(a,a)", &[1], 5), ("(v0,v0)", &[1, 2], 6)];
    runs(THREE, PLAN, &goals);
    let p2: [(&str, &[u8], u64); 3] = [("(v0,v1)", &[0, 1, 2], 6), ("(a,v0)", &[0, 2], 5), ("(a,d)", &[2], 5)];
    runs("(a,b) (b,c) (a,d)", "0 3 a 0 1 b 1 b 0 1 c 1 a 0 1 d 1", &p2);
    // Fewer branches tried.
    runs("(a,a)", "0 1 a 0 1 a 1", &[("(v0,v1)", &[0], 2), ("(b,v0)", &[], 1)]);
    // By another plan an instance may try more.
    let four = "(a,c) (b,c) (a,d) (b,d)";
    runs(four, "1 2 c 0 2 a 1 b 1 d 0 2 a 1 b 1", &[("(v0,c)", &[0, 1], 4)]);
    runs(four, "0 4 a 0 1 c 1 b 0 1 c 1 a 0 1 d 1 b 0 1 d 1", &[("(a,c)", &[0], 6)]);
}

#[test]
fn a_list_added_up() {
    let record = records::worked_out(&table(THREE), 0);
    let cells = goal("(v0,v1,a,v0,a,b,a,a,v0,v0)");
    let parts = [(0, 2), (2, 2), (4, 2), (6, 2), (8, 2), (0, 0), (11, 0)];
    for engine in engines() {
        let mut jobs = parts.map(|(start, count)| Job { start, count, ..Job::default() });
        assert_eq!(engine.run_jobs(&record, &plan(PLAN), &cells, &mut jobs), 6 << 16);
        let counts = [0, 1, 2].map(|row| jobs.iter().filter(|job| job.hits >> row & 1 == 1).count());
        assert_eq!((counts, jobs.iter().map(|job| job.tried).sum::<usize>()), ([3, 4, 2], 27));
    }
}

#[test]
fn a_right_one_passes() {
    let tally = compare(&Plain, 500, 1);
    assert!(tally.passed(), "{tally}");
}

struct Wrong {
    run_plan: fn(&Record, &[u32], &[u32], &mut [u8]) -> u64,
    run_jobs: fn(&Record, &[u32], &[u32], &mut [Job]) -> u64,
}

const RIGHT: Wrong = Wrong {
    run_plan: |record, plan, goal, room| Runs::run_plan(&Plain, record, plan, goal, room),
    run_jobs: |record, plan, cells, jobs| Runs::run_jobs(&Plain, record, plan, cells, jobs),
};

impl Runs for Wrong {
    fn run_plan(&self, record: &Record, plan: &[u32], goal: &[u32], room: &mut [u8]) -> u64 {
        (self.run_plan)(record, plan, goal, room)
    }
    fn run_jobs(&self, record: &Record, plan: &[u32], cells: &[u32], jobs: &mut [Job]) -> u64 {
        (self.run_jobs)(record, plan, cells, jobs)
    }
}

fn found(wrong: Wrong) {
    let tally = compare(&wrong, 200, 1);
    assert!(tally.differ() > 0 && !tally.passed(), "{tally}");
}

/// A goal in which everything is known.
fn known(goal: &[u32]) -> bool {
    goal.iter().all(|cell| cell >> 30 != 0)
}

#[test]
fn a_row_more_where_all_is_known() {
    found(Wrong {
        run_plan: |record, plan, goal, room| {
            let answer = (RIGHT.run_plan)(record, plan, goal, room);
            let hits = (answer >> 16 & 0xffff) as usize;
            if answer & 0xff != 0 || !known(goal) || hits == room.len() {
                return answer;
            }
            let more = (0..).find(|row| !room[..hits].contains(row)).expect("a row that is no hit");
            room[hits] = more;
            room[..=hits].sort();
            answer + (1 << 16)
        },
        ..RIGHT
    });
}

#[test]
fn rows_from_the_bottom_where_all_is_known() {
    found(Wrong {
        run_plan: |record, plan, goal, room| {
            let answer = (RIGHT.run_plan)(record, plan, goal, room);
            if answer & 0xff == 0 && known(goal) {
                room[..(answer >> 16 & 0xffff) as usize].reverse();
            }
            answer
        },
        ..RIGHT
    });
}

#[test]
fn a_branch_more_for_each_cell() {
    found(Wrong {
        run_plan: |record, plan, goal, room| {
            let answer = (RIGHT.run_plan)(record, plan, goal, room);
            if answer & 0xff == 0 {
                answer + ((goal.len() as u64) << 32)
            } else {
                answer
            }
        },
        ..RIGHT
    });
}

#[test]
fn an_accepted_goal_turned_away() {
    // LENGTH already for the longest that is allowed.
    found(Wrong {
        run_plan: |record, plan, goal, room| if goal.len() < 32 { (RIGHT.run_plan)(record, plan, goal, room) } else { 1 | 3 << 8 },
        ..RIGHT
    });
}

/// The right records, each altered.
fn with_records(wrong: fn(usize, &mut [Job])) -> impl Fn(&Record, &[u32], &[u32], &mut [Job]) -> u64 {
    move |record, plan, cells, jobs| {
        let answer = (RIGHT.run_jobs)(record, plan, cells, jobs);
        (0..jobs.len()).for_each(|place| wrong(place, jobs));
        answer
    }
}

macro_rules! found_in_records {
    ($($name:ident: $wrong:expr;)*) => {
        $(
            #[test]
            fn $name() {
                found(Wrong { run_jobs: |record, plan, cells, jobs| with_records($wrong)(record, plan, cells, jobs), ..RIGHT });
            }
        )*
    };
}

found_in_records! {
    each_bit_one_place_up: |place, jobs| jobs[place].hits <<= 1;
    a_refused_goal_that_tried_a_branch: |place, jobs| jobs[place].tried += usize::from(jobs[place].number != 0);
    a_refused_goal_that_hits: |place, jobs| jobs[place].hits |= u64::from(jobs[place].number == 1);
    a_goal_asked_again_that_tries_nothing: |place, jobs| {
        let (start, count) = (jobs[place].start, jobs[place].count);
        if jobs[..place].iter().any(|job| (job.start, job.count) == (start, count)) {
            jobs[place].tried = 0;
        }
    };
    hits_of_the_goal_before: |place, jobs| {
        if place > 0 {
            jobs[place].hits |= jobs[place - 1].hits;
        }
    };
}
