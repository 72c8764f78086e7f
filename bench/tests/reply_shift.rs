//! The replies to lists of goals: records and a room that the request's reading fixes, by each engine; and engines that are wrong in one thing each
//! are found.

mod notation;

use dudowiej_bench::engine::{Definition, Engine, Exported, Plain};
use dudowiej_bench::make::{big, records};
use dudowiej_bench::model::least::least;
use dudowiej_bench::model::read::read_table;
use dudowiej_bench::model::record::Record;
use dudowiej_bench::reply_shift::compare::compare;
use dudowiej_bench::reply_shift::{ReplyJob, ReplyShift};
use notation::{goal, plan, table};

const MAX: usize = usize::MAX;

/// A record with its last seven words as they were before any call.
fn job(start: usize, count: usize) -> ReplyJob {
    ReplyJob { start, count, number: 7, place: 7, at: 7, replies: 7, cells: 7, hits: 7, tried: 7 }
}

fn refused(start: usize, count: usize, number: usize, place: usize) -> ReplyJob {
    ReplyJob { start, count, number, place, ..ReplyJob::default() }
}

fn answered((start, count): (usize, usize), [at, replies, cells]: [usize; 3], hits: u64, tried: usize) -> ReplyJob {
    ReplyJob { start, count, number: 0, place: 0, at, replies, cells, hits, tried }
}

/// P2's record with its least plan, and goals among twelve cells: `a v0 v0 v1 v0 v0 b c c c d a`.
fn p2() -> (Box<Record>, Vec<u32>, Vec<u32>) {
    (records::worked_out(&table("(a,b) (b,c) (a,d)"), 0), plan("0 3 a 0 1 b 1 b 0 1 c 1 a 0 1 d 1"), goal("(a,v0,v0,v1,v0,v0,b,c,c,c,d,a)"))
}

const ENGINES: [&dyn ReplyShift; 3] = [&Exported, &Plain, &Definition];

#[test]
fn records_and_room_as_they_are_read() {
    // Nine cells: four for a and v0; the six for v0 and v1 do not fit what is left; none for v0 twice; and again four.
    let wanted = [
        answered((0, 2), [0, 2, 4], 5, 5),
        refused(2, 2, 16, 6),
        answered((4, 2), [4, 0, 0], 0, 6),
        refused(6, 3, 9, 2),
        refused(11, 2, 1, 0),
        answered((0, 2), [4, 2, 4], 5, 5),
        answered((9, 2), [8, 0, 0], 0, 3),
        refused(11, 1, 5, 1),
        refused(0, 0, 1, 0),
        refused(13, 0, 1, 0),
        refused(MAX, MAX, 1, 0),
        refused(0, 2, 16, 4),
    ];
    let (record, plan, cells) = p2();
    let room = [&goal("(a,b,a,d,a,b,a,d)")[..], &[99]].concat();
    for engine in ENGINES {
        let mut jobs: Vec<ReplyJob> = wanted.iter().map(|wanted| job(wanted.start, wanted.count)).collect();
        let mut lent = [99; 9];
        assert_eq!(engine.reply_jobs(&record, &plan, &cells, &mut jobs, &mut lent), 6 << 16);
        assert_eq!(jobs, wanted);
        assert_eq!(lent[..], room);
    }
}

#[test]
fn a_call_that_is_refused_touches_nothing() {
    let (record, plan, cells) = p2();
    // A cell too many in the plan. With no record table and plan are checked all the same.
    let longer = [&plan[..], &[0]].concat();
    let extra = 9 | 2 << 8 | (plan.len() as u64) << 16;
    for engine in ENGINES {
        let (mut jobs, mut room) = ([job(0, 2), job(MAX, MAX)], [99; 9]);
        assert_eq!(engine.reply_jobs(&record, &longer, &cells, &mut jobs, &mut room), extra);
        assert_eq!((jobs, room), ([job(0, 2), job(MAX, MAX)], [99; 9]));
        assert_eq!(engine.reply_jobs(&record, &longer, &cells, &mut [], &mut []), extra);
        assert_eq!(engine.reply_jobs(&record, &plan, &[], &mut [], &mut []), 6 << 16);
    }
}

#[test]
fn a_reply_that_is_too_long_is_big_in_its_record() {
    let (table, long) = big::million(1);
    let read = read_table(&table).expect("a sound table");
    let (record, plan) = (records::worked_out(&table, 0), least(&read).write());
    let open: Vec<u32> = (0..read.width as u32).collect();
    let cells = [&long[..], &open].concat();
    for engine in ENGINES {
        let mut jobs = [job(0, long.len()), job(long.len(), open.len())];
        let mut room = [99; 40];
        engine.reply_jobs(&record, &plan, &cells, &mut jobs, &mut room);
        assert_eq!(jobs[0], refused(0, long.len(), 25, 0));
        assert_eq!((jobs[1].number, jobs[1].at, jobs[1].replies, jobs[1].cells), (0, 0, 1, 31));
        assert_eq!((&room[..31], &room[31..]), (&table[2..], &[99; 9][..]));
    }
}

/// An engine that does something after, or in place of, the right thing.
struct Altered(Wrong);

type Wrong = fn(&Record, &[u32], &[u32], &mut [ReplyJob], &mut [u32]) -> u64;

impl ReplyShift for Altered {
    fn reply_jobs(&self, record: &Record, plan: &[u32], cells: &[u32], jobs: &mut [ReplyJob], room: &mut [u32]) -> u64 {
        (self.0)(record, plan, cells, jobs, room)
    }
}

fn found(wrong: Wrong) {
    assert!(compare(&Altered(wrong), 300, 1).differ() > 0);
}

/// The right call, and then each record of an accepted list changed.
fn then(call: (&Record, &[u32], &[u32]), jobs: &mut [ReplyJob], room: &mut [u32], change: fn(&mut ReplyJob)) -> u64 {
    let answer = Plain.reply_jobs(call.0, call.1, call.2, jobs, room);
    if answer & 0xff == 0 {
        jobs.iter_mut().for_each(change);
    }
    answer
}

#[test]
fn a_right_one_passes() {
    let tally = compare(&Plain, 1200, 1);
    assert!(tally.passed(), "{tally}");
}

#[test]
fn few_lists_do_not_meet_all() {
    let tally = compare(&Plain, 1, 1);
    assert!(tally.differ() == 0 && !tally.passed());
}

#[test]
fn a_goal_without_room_that_stops_the_list() {
    found(|record, plan, cells, jobs, room| {
        let before = jobs.to_vec();
        let answer = Plain.reply_jobs(record, plan, cells, jobs, room);
        if let Some(stop) = jobs.iter().position(|job| job.number == 16).filter(|_| answer & 0xff == 0) {
            jobs[stop + 1..].copy_from_slice(&before[stop + 1..]);
        }
        answer
    });
}

#[test]
fn a_goal_without_room_that_refuses_the_call() {
    found(|record, plan, cells, jobs, room| {
        let (records, lent) = (jobs.to_vec(), room.to_vec());
        let answer = Plain.reply_jobs(record, plan, cells, jobs, room);
        match jobs.iter().find(|job| job.number == 16).filter(|_| answer & 0xff == 0) {
            Some(job) => {
                let place = job.place as u64;
                jobs.copy_from_slice(&records);
                room.copy_from_slice(&lent);
                16 | 4 << 8 | place << 16
            }
            None => answer,
        }
    });
}

#[test]
fn each_goal_with_the_whole_room() {
    found(|record, plan, cells, jobs, room| {
        for next in 0..jobs.len() {
            Plain.reply_jobs(record, plan, cells, &mut jobs[next..next + 1], room);
        }
        Plain.check_plan(record, plan)
    });
}

#[test]
fn the_cells_needed_from_the_start_of_the_room() {
    found(|record, plan, cells, jobs, room| {
        let answer = Plain.reply_jobs(record, plan, cells, jobs, room);
        let mut on = 0;
        for job in jobs.iter_mut().filter(|_| answer & 0xff == 0) {
            on += job.cells;
            job.place += if job.number == 16 { on } else { 0 };
        }
        answer
    });
}

#[test]
fn a_goal_that_fits_the_room_and_not_what_is_left() {
    found(|record, plan, cells, jobs, room| {
        let lent = room.len();
        let answer = Plain.reply_jobs(record, plan, cells, jobs, room);
        for job in jobs.iter_mut().filter(|job| answer & 0xff == 0 && job.number == 16 && job.place <= lent) {
            *job = ReplyJob { number: 0, place: 0, ..*job };
        }
        answer
    });
}

#[test]
fn rooms_just_large_enough_refused() {
    found(|record, plan, cells, jobs, room| {
        let less = room.len().saturating_sub(1);
        Plain.reply_jobs(record, plan, cells, jobs, &mut room[..less])
    });
}

#[test]
fn a_goal_without_replies_that_begins_nowhere() {
    found(|record, plan, cells, jobs, room| then((record, plan, cells), jobs, room, |job| job.at = if job.replies == 0 { 0 } else { job.at }));
}

#[test]
fn a_refused_goal_that_says_where_and_what_it_tried() {
    found(|record, plan, cells, jobs, room| {
        let answer = Plain.reply_jobs(record, plan, cells, jobs, room);
        let mut on = 0;
        for job in jobs.iter_mut().filter(|_| answer & 0xff == 0) {
            job.at = if job.number == 0 { job.at } else { on };
            on += job.cells;
        }
        answer
    });
    // Of a goal without room the walk is made, but its hits are not said.
    found(|record, plan, cells, jobs, room| then((record, plan, cells), jobs, room, |job| job.tried += (job.number == 16) as usize));
    found(|record, plan, cells, jobs, room| then((record, plan, cells), jobs, room, |job| job.hits |= (job.number == 25) as u64));
    found(|record, plan, cells, jobs, room| then((record, plan, cells), jobs, room, |job| job.replies |= (job.number == 16) as usize));
}

#[test]
fn replies_and_cells_exchanged() {
    found(|record, plan, cells, jobs, room| then((record, plan, cells), jobs, room, |job| (job.replies, job.cells) = (job.cells, job.replies)));
}

#[test]
fn a_gap_between_the_replies_of_two_goals() {
    found(|record, plan, cells, jobs, room| {
        let mut on = 0;
        let answer = Plain.check_plan(record, plan);
        for next in 0..jobs.len() {
            let from = on.min(room.len());
            Plain.reply_jobs(record, plan, cells, &mut jobs[next..next + 1], &mut room[from..]);
            if answer & 0xff == 0 && jobs[next].number == 0 {
                jobs[next].at = from;
                on += jobs[next].cells + 1;
            }
        }
        answer
    });
}

#[test]
fn the_rest_of_the_room_cleared() {
    found(|record, plan, cells, jobs, room| {
        let answer = Plain.reply_jobs(record, plan, cells, jobs, room);
        let written = if answer & 0xff == 0 { jobs.iter().map(|job| job.cells).sum() } else { room.len() };
        room[written..].fill(0);
        answer
    });
}

#[test]
fn a_part_written_of_what_does_not_fit() {
    found(|record, plan, cells, jobs, room| {
        let answer = Plain.reply_jobs(record, plan, cells, jobs, room);
        let written: usize = if answer & 0xff == 0 { jobs.iter().map(|job| job.cells).sum() } else { room.len() };
        if jobs.iter().any(|job| job.number == 16) && written < room.len() {
            room[written] = 0;
        }
        answer
    });
}

#[test]
fn places_counted_from_the_first_lent_cell() {
    found(|record, plan, cells, jobs, room| {
        then((record, plan, cells), jobs, room, |job| job.place += if [5, 6, 7, 9].contains(&job.number) { job.start } else { 0 })
    });
}

#[test]
fn records_touched_although_the_plan_is_refused() {
    found(|record, plan, cells, jobs, room| {
        let answer = Plain.reply_jobs(record, plan, cells, jobs, room);
        if answer & 0xff != 0 {
            jobs.iter_mut().for_each(|job| job.cells = 0);
        }
        answer
    });
}

#[test]
fn a_plan_that_is_not_checked_where_no_goal_is_asked() {
    found(|record, plan, cells, jobs, room| if jobs.is_empty() { 0 } else { Plain.reply_jobs(record, plan, cells, jobs, room) });
}
