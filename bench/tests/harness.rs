//! The comparison finds what it should: engines that are wrong in one thing each are found, and one that is right passes.

mod altered;

use altered::{answered, built, differs, found, hits, number, written, Altered, ReadText, Replies, RIGHT};
use dudowiej_bench::compare::{clauses, columns, compare, edits, files, liked, liked_at_length, replies, salvages, texts, Tally};
use dudowiej_bench::engine::{Engine, Plain};
use dudowiej_bench::model::build_plan;
use dudowiej_bench::model::plan::check;
use dudowiej_bench::model::read::read_table;
use dudowiej_bench::model::record::{table_in, Record};
use dudowiej_bench::model::replies::all;

#[test]
fn a_right_one_passes() {
    let tally = texts(&RIGHT, compare(&RIGHT, 2000, 1), 2000, 1);
    let tally = edits(&RIGHT, replies(&RIGHT, tally, 2000, 1), 300, 1);
    let tally = clauses(&RIGHT, tally, 2000, 1);
    let tally = files(&RIGHT, tally, 2000, 1);
    let tally = salvages(&RIGHT, tally, 2000, 1);
    let tally = columns(&RIGHT, tally, 500, 1);
    let tally = liked_at_length(&RIGHT, liked(&RIGHT, tally, 500, 1), 1);
    assert!(tally.passed(), "{tally}");
}

#[test]
fn few_rounds_do_not_meet_every_refusal() {
    let tally = compare(&RIGHT, 0, 1);
    assert_eq!(tally.differ(), 0);
    assert!(!tally.never_met().is_empty() && !tally.passed());
}

#[test]
fn refusing_everything() {
    found(Altered { read_table: |_| 0x101, ..RIGHT });
    found(Altered { check_plan: |_, _| 0x20a, ..RIGHT });
}

/// A table whose reading is SAME.
struct Doubled<'t> {
    table: &'t [u32],
    answer: u64,
    /// Where the later row starts, and the rows before it.
    place: usize,
    rows: Vec<Vec<u32>>,
    /// Which of them it equals.
    equal: usize,
}

impl Doubled<'_> {
    fn new(table: &[u32], answer: u64) -> Doubled<'_> {
        let place = (answer >> 16) as usize;
        let cut = |count| [&[table[0], count], &table[2..place]].concat();
        let (cells, read) = (1..=64).find_map(|count| read_table(&cut(count)).ok().map(|read| (cut(count), read))).expect("whole rows");
        let rows: Vec<Vec<u32>> = read.rows.iter().map(|row| cells[row.start..row.start + row.cells].to_vec()).collect();
        let equal = rows.iter().position(|row| table[place..].starts_with(row)).expect("the row is doubled");
        Doubled { table, answer, place, rows, equal }
    }

    /// What is answered where the later row has another last cell.
    fn read_on(&self) -> u64 {
        let mut other = self.table.to_vec();
        other[self.place + self.rows[self.equal].len() - 1] = 2 << 30 | 0x7abc;
        Plain.read_table(&other)
    }
}

/// The right reading, but another answer where it is SAME.
fn where_same(table: &[u32], wrong: fn(Doubled) -> u64) -> u64 {
    match Plain.read_table(table) {
        same if number(same) == 24 => wrong(Doubled::new(table, same)),
        answer => answer,
    }
}

#[test]
fn a_doubled_row_refused_otherwise() {
    // Only of neighbours; at the earlier row; not at all.
    found(Altered {
        read_table: |table| where_same(table, |doubled| if doubled.equal + 1 == doubled.rows.len() { doubled.answer } else { doubled.read_on() }),
        ..RIGHT
    });
    found(Altered {
        read_table: |table| where_same(table, |doubled| 24 | 1 << 8 | (2 + doubled.rows[..doubled.equal].concat().len() as u64) << 16),
        ..RIGHT
    });
    found(Altered { read_table: |table| where_same(table, |doubled| doubled.read_on()), ..RIGHT });
    // After EXTRA; after what is wrong in a later row.
    found(Altered {
        read_table: |table| where_same(table, |doubled| if number(doubled.read_on()) == 9 { doubled.read_on() } else { doubled.answer }),
        ..RIGHT
    });
    found(Altered {
        read_table: |table| {
            where_same(table, |doubled| if (4..=7).contains(&number(doubled.read_on())) { doubled.read_on() } else { doubled.answer })
        },
        ..RIGHT
    });
}

#[test]
fn equal_rows_with_variables_refused() {
    found(Altered {
        read_table: |table| {
            let rows = read_table(table).map_or(Vec::new(), |read| read.rows);
            let doubled = (1..rows.len()).find(|&later| rows[..later].iter().any(|row| row.arguments == rows[later].arguments));
            doubled.map_or_else(|| Plain.read_table(table), |later| 24 | 1 << 8 | (rows[later].start as u64) << 16)
        },
        ..RIGHT
    });
}

#[test]
fn a_row_past_the_last() {
    found(Altered { row: |record, row| Plain.row(record, row.min(63)), ..RIGHT });
}

#[test]
fn a_check_that_accepts_only_the_builders_plan() {
    found(Altered {
        check_plan: |record, plan| {
            let mut room = vec![0; plan.len()];
            let same = build_plan(table_in(record), 0, &mut room).is_ok() && room == plan;
            let answer = Plain.check_plan(record, plan);
            if answered(answer) && !same {
                0x20e
            } else {
                answer
            }
        },
        ..RIGHT
    });
}

#[test]
fn the_place_with_the_fewest_runs() {
    found(Altered {
        build_plan: |record, room| {
            built(record, room, |open, rows| (0..open.places(rows)).min_by_key(|&place| open.runs(rows, place)).expect("an open place"))
        },
        ..RIGHT
    });
}

#[test]
fn a_refusal_that_writes() {
    found(Altered {
        build_plan: |record, room| {
            let answer = Plain.build_plan(record, room);
            if let (false, Some(cell)) = (answered(answer), room.first_mut()) {
                *cell = 0;
            }
            answer
        },
        ..RIGHT
    });
}

#[test]
fn a_room_cleared_behind_the_hits() {
    found(Altered {
        run_plan: |record, plan, goal, room| {
            let answer = Plain.run_plan(record, plan, goal, room);
            if answered(answer) {
                room[hits(answer)..].fill(0);
            }
            answer
        },
        ..RIGHT
    });
}

#[test]
fn room_for_the_hits_alone() {
    found(Altered {
        run_plan: |record, plan, goal, room| {
            let mut enough = [0; 64];
            let answer = Plain.run_plan(record, plan, goal, &mut enough);
            let count = hits(answer);
            if answered(answer) && count <= room.len() {
                room[..count].copy_from_slice(&enough[..count]);
                return answer;
            }
            Plain.run_plan(record, plan, goal, room)
        },
        ..RIGHT
    });
}

#[test]
fn one_variable_read_as_two() {
    found(Altered {
        run_plan: |record, plan, goal, room| {
            let mut variables = 0..;
            let apart: Vec<u32> = goal.iter().map(|&cell| if cell >> 16 == 0 { variables.next().unwrap() } else { cell }).collect();
            let sound = answered(Plain.read_goal(record, goal));
            Plain.run_plan(record, plan, if sound { &apart } else { goal }, room)
        },
        ..RIGHT
    });
}

#[test]
fn only_the_first_hit() {
    found(Altered {
        run_plan: |record, plan, goal, room| {
            let answer = Plain.run_plan(record, plan, goal, room);
            if answered(answer) && hits(answer) > 1 {
                answer & !0xffff_0000 | 1 << 16
            } else {
                answer
            }
        },
        ..RIGHT
    });
}

#[test]
fn every_branch_counted_as_tried() {
    found(Altered {
        run_plan: |record, plan, goal, room| {
            let answer = Plain.run_plan(record, plan, goal, room);
            match read_table(table_in(record)).ok().and_then(|table| check(&table, plan).ok()) {
                Some(plan) if answered(answer) => answer & 0xffff_ffff | (plan.branches.len() as u64) << 32,
                _ => answer,
            }
        },
        ..RIGHT
    });
}

/// A wrong reading of texts.
fn found_in_texts(read_text: ReadText) {
    differs(texts(&Altered { read_text, ..RIGHT }, Tally::default(), 200, 1));
}

#[test]
fn tabs_as_layout() {
    found_in_texts(|text, cells, names| {
        let spaces: Vec<u8> = text.iter().map(|&byte| if byte == b'\t' { b' ' } else { byte }).collect();
        Plain.read_text(&spaces, cells, names)
    });
}

#[test]
fn a_comment_that_ends_at_a_carriage_return() {
    found_in_texts(|text, cells, names| {
        let lines: Vec<u8> = text.iter().map(|&byte| if byte == 13 { 10 } else { byte }).collect();
        Plain.read_text(&lines, cells, names)
    });
}

#[test]
fn the_place_after_the_byte() {
    found_in_texts(|text, cells, names| {
        let answer = Plain.read_text(text, cells, names);
        answer + if number(answer) == 18 { 1 << 16 } else { 0 }
    });
}

#[test]
fn the_room_for_names_first() {
    found_in_texts(|text, cells, names| {
        let (mut all, mut listed) = (vec![0; 40_000], vec![0; names.len()]);
        let answer = Plain.read_text(text, &mut all, &mut listed);
        if number(answer) == 16 {
            answer
        } else {
            Plain.read_text(text, cells, names)
        }
    });
}

#[test]
fn cells_written_before_the_table_is_read() {
    found_in_texts(|text, cells, names| {
        let answer = Plain.read_text(text, cells, names);
        if let (24, [width, ..]) = (number(answer), cells) {
            *width = 2;
        }
        answer
    });
}

#[test]
fn start_and_bytes_exchanged() {
    found_in_texts(|text, cells, names| {
        let answer = Plain.read_text(text, cells, names);
        if answered(answer) {
            names[..(answer >> 32) as usize].iter_mut().for_each(|name| *name = name.rotate_left(16));
        }
        answer
    });
}

#[test]
fn a_blank_that_is_always_the_same_variable() {
    found_in_texts(|text, cells, names| {
        let mut named = text.to_vec();
        (1..text.len().saturating_sub(1))
            .filter(|&at| matches!(text[at - 1..=at + 1], [b'(' | b',', b'_', b')' | b',']))
            .for_each(|at| named[at] = b'Z');
        Plain.read_text(&named, cells, names)
    });
}

#[test]
fn replies_that_are_wrong_in_one_thing() {
    // The goal's cells as they came, for each hit.
    found(Altered {
        replies: |record, plan, goal, room| {
            let answer = Plain.replies(record, plan, goal, room);
            for reply in room.chunks_mut(goal.len().max(1)).take(if answered(answer) { hits(answer) } else { 0 }) {
                reply.copy_from_slice(&goal[..reply.len()]);
            }
            answer
        },
        ..RIGHT
    });
    // Always 0 and 0.
    found(Altered { replies: |_, _, _, _| 0, ..RIGHT });
    // ROOM at the number of replies.
    found(Altered {
        replies: |record, plan, goal, room| match Plain.replies(record, plan, goal, room) {
            room if room & 0xff == 16 => 16 | 4 << 8 | 1 << 16,
            answer => answer,
        },
        ..RIGHT
    });
    // A cell more than is answered.
    found(Altered {
        replies: |record, plan, goal, room| {
            let answer = Plain.replies(record, plan, goal, room);
            if answered(answer) {
                if let Some(cell) = room.get_mut((answer >> 32) as usize) {
                    *cell = 0;
                }
            }
            answer
        },
        ..RIGHT
    });
}

/// A wrong way to what the rules say.
fn found_in_replies(wrong: Replies) {
    differs(replies(&Altered { replies: wrong, ..RIGHT }, Tally::default(), 200, 1));
}

/// The right refusals of table, plan and goal, but other replies.
fn with_replies(record: &Record, plan: &[u32], goal: &[u32], room: &mut [u32], change: impl FnOnce(Vec<Vec<u32>>) -> Vec<Vec<u32>>) -> u64 {
    let Ok(right) = all(table_in(record), plan, goal) else {
        return Plain.replies(record, plan, goal, room);
    };
    let changed = change(right);
    let cells = changed.concat();
    written(room, &cells, changed.len(), cells.len())
}

fn is_variable(cell: u32) -> bool {
    cell >> 16 == 0
}

#[test]
fn variables_not_numbered_anew() {
    // Numbered from one, through all replies, and each time another.
    found_in_replies(|record, plan, goal, room| {
        with_replies(record, plan, goal, room, |mut replies| {
            replies.iter_mut().flatten().filter(|cell| is_variable(**cell)).for_each(|cell| *cell += 1);
            replies
        })
    });
    found_in_replies(|record, plan, goal, room| {
        with_replies(record, plan, goal, room, |mut replies| {
            let mut before = 0;
            for reply in &mut replies {
                let variables = reply.iter().filter(|cell| is_variable(**cell)).max().map_or(0, |last| last + 1);
                reply.iter_mut().filter(|cell| is_variable(**cell)).for_each(|cell| *cell += before);
                before += variables;
            }
            replies
        })
    });
    found_in_replies(|record, plan, goal, room| {
        with_replies(record, plan, goal, room, |mut replies| {
            for reply in &mut replies {
                reply.iter_mut().filter(|cell| is_variable(**cell)).zip(0..).for_each(|(cell, number)| *cell = number);
            }
            replies
        })
    });
}

#[test]
fn only_the_first_hits_reply() {
    found_in_replies(|record, plan, goal, room| with_replies(record, plan, goal, room, |replies| replies.into_iter().take(1).collect()));
}

#[test]
fn the_last_hit_first() {
    found_in_replies(|record, plan, goal, room| with_replies(record, plan, goal, room, |replies| replies.into_iter().rev().collect()));
}

#[test]
fn one_reply_for_equal_rows() {
    found_in_replies(|record, plan, goal, room| {
        with_replies(record, plan, goal, room, |mut replies| {
            replies.dedup();
            replies
        })
    });
}

#[test]
fn the_rows_cells_for_the_reply() {
    found_in_replies(|record, plan, goal, room| {
        with_replies(record, plan, goal, room, |_| {
            let table = table_in(record);
            let read = read_table(table).expect("the table was accepted");
            let mut hits = [0; 64];
            let answer = Plain.run_plan(record, plan, goal, &mut hits);
            let rows = hits[..altered::hits(answer)].iter().map(|&hit| &read.rows[hit as usize]);
            rows.map(|row| table[row.start..row.start + row.cells].to_vec()).collect()
        })
    });
}

#[test]
fn the_goal_as_it_came() {
    found_in_replies(|record, plan, goal, room| with_replies(record, plan, goal, room, |replies| replies.iter().map(|_| goal.to_vec()).collect()));
}

#[test]
fn a_name_for_a_free_variable() {
    found_in_replies(|record, plan, goal, room| {
        with_replies(record, plan, goal, room, |mut replies| {
            replies.iter_mut().flatten().filter(|cell| is_variable(**cell)).for_each(|cell| *cell = 1 << 30);
            replies
        })
    });
}

#[test]
fn a_reply_for_every_row() {
    found_in_replies(|record, plan, goal, room| {
        with_replies(record, plan, goal, room, |mut replies| {
            replies.resize(table_in(record)[1] as usize, goal.to_vec());
            replies
        })
    });
}

#[test]
fn the_two_values_exchanged() {
    found_in_replies(|record, plan, goal, room| {
        let answer = Plain.replies(record, plan, goal, room);
        if answered(answer) {
            (answer >> 32 & 0xffff) << 16 | (answer >> 16 & 0xffff) << 32
        } else {
            answer
        }
    });
}

#[test]
fn a_place_that_is_not_the_sum() {
    // The number of replies, the largest reply, and the sum's last 8 bits.
    found_in_replies(|record, plan, goal, room| {
        let answer = Plain.replies(record, plan, goal, room);
        if number(answer) == 16 {
            0x410 | (all(table_in(record), plan, goal).map_or(0, |replies| replies.len()) as u64) << 16
        } else {
            answer
        }
    });
    found_in_replies(|record, plan, goal, room| {
        let answer = Plain.replies(record, plan, goal, room);
        let largest = all(table_in(record), plan, goal).ok().and_then(|replies| replies.iter().map(Vec::len).max());
        if number(answer) == 16 {
            0x410 | (largest.unwrap_or(0) as u64) << 16
        } else {
            answer
        }
    });
    found_in_replies(|record, plan, goal, room| {
        let answer = Plain.replies(record, plan, goal, room);
        answer & if number(answer) == 16 { 0xff_ffff } else { u64::MAX }
    });
}

#[test]
fn replies_written_before_the_room_is_known() {
    found_in_replies(|record, plan, goal, room| {
        let answer = Plain.replies(record, plan, goal, room);
        if number(answer) == 16 {
            let cells = all(table_in(record), plan, goal).expect("only the room was refused").concat();
            room.copy_from_slice(&cells[..room.len()]);
        }
        answer
    });
}

#[test]
fn a_room_cleared_behind_the_replies() {
    found_in_replies(|record, plan, goal, room| {
        let answer = Plain.replies(record, plan, goal, room);
        if answered(answer) {
            room[(answer >> 32) as usize..].fill(0);
        }
        answer
    });
}

#[test]
fn a_room_that_is_wanted_whole() {
    found_in_replies(|record, plan, goal, room| {
        let needed = all(table_in(record), plan, goal).map_or(0, |replies| replies.concat().len());
        if needed > 0 && room.len() == needed {
            0x410 | (needed as u64) << 16
        } else {
            Plain.replies(record, plan, goal, room)
        }
    });
}

#[test]
fn the_goal_refused_before_the_plan() {
    found_in_replies(|record, plan, goal, room| {
        let read = Plain.read_goal(record, goal);
        if answered(read) {
            Plain.replies(record, plan, goal, room)
        } else {
            read
        }
    });
}
