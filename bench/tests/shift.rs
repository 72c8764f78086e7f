//! Lists of goals: the table of records that the request's reading fixes, by each engine; and engines that are wrong in one thing each are found.

mod notation;

use dudowiej_bench::engine::{Definition, Engine, Exported, Plain};
use dudowiej_bench::make::records;
use dudowiej_bench::model::record::Record;
use dudowiej_bench::shift::compare::compare;
use dudowiej_bench::shift::{Job, Shift};
use notation::{goal, plan, table};

/// A record with its last four words as they were before any call.
fn job(start: usize, count: usize) -> Job {
    Job { start, count, number: 7, place: 7, hits: 7, tried: 7 }
}

/// P2's record with its least plan, and goals among twelve cells: `a v0 v0 v1 v0 v0 b c c c d a`.
fn p2() -> (Box<Record>, Vec<u32>, Vec<u32>) {
    (records::worked_out(&table("(a,b) (b,c) (a,d)"), 0), plan("0 3 a 0 1 b 1 b 0 1 c 1 a 0 1 d 1"), goal("(a,v0,v0,v1,v0,v0,b,c,c,c,d,a)"))
}

#[test]
fn records_as_they_are_read() {
    const MAX: usize = usize::MAX;
    let wanted = [
        (0, 2, [0, 0, 5, 5]),
        (2, 2, [0, 0, 7, 6]),
        (4, 2, [0, 0, 0, 6]),
        (6, 3, [9, 2, 0, 0]),
        (9, 2, [0, 0, 0, 3]),
        (11, 1, [5, 1, 0, 0]),
        (1, 2, [0, 0, 0, 6]),
        (0, 0, [1, 0, 0, 0]),
        (12, 0, [1, 0, 0, 0]),
        (13, 0, [1, 0, 0, 0]),
        (11, 2, [1, 0, 0, 0]),
        (MAX, MAX, [1, 0, 0, 0]),
    ];
    let (record, plan, cells) = p2();
    for engine in [&Exported as &dyn Shift, &Plain, &Definition] {
        let mut jobs: Vec<Job> = wanted.iter().map(|&(start, count, _)| job(start, count)).collect();
        assert_eq!(engine.run_jobs(&record, &plan, &cells, &mut jobs), 6 << 16);
        for (job, (start, count, [number, place, hits, tried])) in jobs.iter().zip(wanted) {
            assert_eq!(*job, Job { start, count, number, place, hits: hits as u64, tried });
        }
        // A cell too many in the plan: no record is touched. No record: table and plan are checked all the same.
        let longer = [&plan[..], &[0]].concat();
        let extra = 9 | 2 << 8 | (plan.len() as u64) << 16;
        let mut untouched = [job(0, 2)];
        assert_eq!(engine.run_jobs(&record, &longer, &cells, &mut untouched), extra);
        assert_eq!(untouched, [job(0, 2)]);
        assert_eq!(engine.run_jobs(&record, &longer, &cells, &mut []), extra);
        assert_eq!(engine.run_jobs(&record, &plan, &[], &mut []), 6 << 16);
    }
}

/// An engine that does something after, or in place of, the right thing.
struct Altered(fn(&Record, &[u32], &[u32], &mut [Job]) -> u64);

impl Shift for Altered {
    fn run_jobs(&self, record: &Record, plan: &[u32], cells: &[u32], jobs: &mut [Job]) -> u64 {
        (self.0)(record, plan, cells, jobs)
    }
}

fn found(wrong: fn(&Record, &[u32], &[u32], &mut [Job]) -> u64) {
    assert!(compare(&Altered(wrong), 200, 1).differ() > 0);
}

#[test]
fn a_right_one_passes() {
    let tally = compare(&Plain, 2000, 1);
    assert!(tally.passed(), "{tally}");
}

#[test]
fn the_hits_of_the_goal_before_left() {
    found(|record, plan, cells, jobs| {
        let answer = Plain.run_jobs(record, plan, cells, jobs);
        for next in 1..jobs.len() {
            if answer & 0xff == 0 && jobs[next].number != 0 {
                jobs[next].hits = jobs[next - 1].hits;
            }
        }
        answer
    });
}

#[test]
fn a_refused_goal_that_stops_the_list() {
    found(|record, plan, cells, jobs| {
        for next in 0..jobs.len() {
            Plain.run_jobs(record, plan, cells, &mut jobs[next..next + 1]);
            if jobs[next].number != 0 {
                break;
            }
        }
        Plain.check_plan(record, plan)
    });
}

#[test]
fn a_start_that_overflows_with_the_count() {
    found(|record, plan, cells, jobs| {
        let answer = Plain.run_jobs(record, plan, cells, jobs);
        for job in jobs {
            if answer & 0xff == 0 && job.start > cells.len() && job.start.wrapping_add(job.count) <= cells.len() {
                *job = Job { number: 0, ..*job };
            }
        }
        answer
    });
}

#[test]
fn only_the_first_record() {
    found(|record, plan, cells, jobs| {
        let first = jobs.len().min(1);
        Plain.run_jobs(record, plan, cells, &mut jobs[..first])
    });
}

#[test]
fn records_touched_although_the_plan_is_refused() {
    found(|record, plan, cells, jobs| {
        let answer = Plain.run_jobs(record, plan, cells, jobs);
        if answer & 0xff != 0 {
            jobs.iter_mut().for_each(|job| job.tried = 0);
        }
        answer
    });
}

#[test]
fn places_counted_from_the_first_lent_cell() {
    found(|record, plan, cells, jobs| {
        let answer = Plain.run_jobs(record, plan, cells, jobs);
        for job in jobs {
            if answer & 0xff == 0 && job.number > 1 {
                job.place += job.start;
            }
        }
        answer
    });
}
