//! Records and edits: engines that are wrong in one thing each are found.

mod altered;

use altered::{answered, built, differs, refused, Altered, RIGHT};
use dudowiej_bench::compare::{edits, Tally};
use dudowiej_bench::engine::{Engine, Plain};
use dudowiej_bench::model::least::{every_run, Measure};
use dudowiej_bench::model::read::{read_table, ROWS};
use dudowiej_bench::model::record::{figure_in, table_in, Record};

fn found(wrong: Altered) {
    differs(edits(&wrong, Tally::default(), 30, 1));
}

fn rows(record: &Record) -> usize {
    table_in(record).get(1).map_or(0, |&rows| rows as usize)
}

/// Where a pair's three numbers stand.
fn places(first: usize, last: usize) -> [usize; 3] {
    [2052, 6148, 10_244].map(|part| part + 64 * first + last)
}

/// The edit, and a change of the record where it is accepted, by the one before.
fn and_then(record: &mut Record, edit: impl FnOnce(&mut Record) -> u64, change: impl FnOnce(&Record, &mut Record)) -> u64 {
    let before = Box::new(*record);
    let answer = edit(record);
    if answered(answer) {
        change(&before, record);
    }
    answer
}

/// Works the record out again with another list of rows.
fn with_rows(record: &mut Record, change: impl FnOnce(&mut Vec<Vec<u32>>)) {
    let cells = table_in(record);
    let read = read_table(cells).expect("the edit was accepted");
    let mut rows = read.rows.iter().map(|row| cells[row.start..row.start + row.cells].to_vec()).collect();
    change(&mut rows);
    let table = [vec![cells[0], rows.len() as u32], rows.concat()].concat();
    Plain.work_out(&table, figure_in(record).min(15), record);
}

#[test]
fn a_right_one_differs_nowhere() {
    assert_eq!(edits(&RIGHT, Tally::default(), 30, 1).differ(), 0);
}

#[test]
fn one_stale_pair() {
    found(Altered {
        replace: |record, r, row| {
            and_then(record, |record| Plain.replace(record, r, row), |before, record| places(0, r).into_iter().for_each(|at| record[at] = before[at]))
        },
        ..RIGHT
    });
}

#[test]
fn only_the_chosen_place_stale() {
    found(Altered {
        replace: |record, r, row| {
            and_then(
                record,
                |record| Plain.replace(record, r, row),
                |before, record| (0..=r).for_each(|first| record[places(first, r)[2]] = before[places(first, r)[2]]),
            )
        },
        ..RIGHT
    });
}

#[test]
fn a_column_left_when_a_row_is_dropped() {
    found(Altered {
        drop_last: |record| {
            and_then(
                record,
                |record| Plain.drop_last(record),
                |before, record| {
                    for first in 0..rows(before) {
                        places(first, rows(before) - 1).into_iter().for_each(|at| record[at] = before[at]);
                    }
                },
            )
        },
        ..RIGHT
    });
}

#[test]
fn cells_left_when_a_row_is_dropped() {
    found(Altered {
        drop_last: |record| {
            and_then(
                record,
                |record| Plain.drop_last(record),
                |before, record| {
                    let left = 2 + record[0] as usize..2 + before[0] as usize;
                    record[left.clone()].copy_from_slice(&before[left]);
                },
            )
        },
        ..RIGHT
    });
}

#[test]
fn a_row_shifted() {
    // The new row in front; and before the last one.
    found(Altered {
        append: |record, row| and_then(record, |record| Plain.append(record, row), |_, record| with_rows(record, |rows| rows[..].rotate_right(1))),
        ..RIGHT
    });
    found(Altered {
        append: |record, row| {
            and_then(record, |record| Plain.append(record, row), |before, record| with_rows(record, |all| all.swap(rows(before) - 1, rows(before))))
        },
        ..RIGHT
    });
    // The row after the one that was meant, where there is one.
    found(Altered {
        replace: |record, r, row| {
            let next = r.checked_add(1).filter(|&next| next < rows(record));
            Plain.replace(record, next.unwrap_or(r), row)
        },
        ..RIGHT
    });
}

#[test]
fn the_figure_lost() {
    found(Altered {
        append: |record, row| {
            and_then(
                record,
                |record| Plain.append(record, row),
                |_, record| {
                    record[1] = 0;
                    with_rows(record, |_| ());
                },
            )
        },
        ..RIGHT
    });
    // Or told, and not kept to.
    found(Altered {
        replace: |record, r, row| {
            and_then(
                record,
                |record| Plain.replace(record, r, row),
                |before, record| {
                    record[1] = 0;
                    with_rows(record, |_| ());
                    record[1] = before[1];
                },
            )
        },
        ..RIGHT
    });
}

#[test]
fn kept_pairs_cleared() {
    found(Altered {
        append: |record, row| {
            and_then(record, |record| Plain.append(record, row), |_, record| places(0, 0).into_iter().for_each(|at| record[at] = 0))
        },
        ..RIGHT
    });
}

#[test]
fn an_edit_that_changes_nothing() {
    found(Altered {
        replace: |record, r, row| and_then(record, |record| Plain.replace(record, r, row), |before, record| *record = *before),
        ..RIGHT
    });
}

#[test]
fn a_refused_edit_that_writes() {
    found(Altered {
        append: |record, row| {
            let answer = Plain.append(record, row);
            record[3] = record[3].wrapping_add(u32::from(!answered(answer)));
            answer
        },
        ..RIGHT
    });
}

#[test]
fn refusing_too_much() {
    found(Altered { append: |_, _| refused(21), ..RIGHT });
    found(Altered { append: |record, row| if rows(record) == 63 { refused(21) } else { Plain.append(record, row) }, ..RIGHT });
    found(Altered { drop_last: |record| if rows(record) == 2 { refused(22) } else { Plain.drop_last(record) }, ..RIGHT });
    found(Altered {
        replace: |record, r, row| if r.checked_add(1) == Some(rows(record)) { refused(23) } else { Plain.replace(record, r, row) },
        ..RIGHT
    });
}

#[test]
fn refusing_too_little() {
    // A row that is not there yet; and a number taken as one of 32 bits.
    found(Altered { replace: |record, r, row| if r == rows(record) { Plain.append(record, row) } else { Plain.replace(record, r, row) }, ..RIGHT });
    found(Altered { replace: |record, r, row| Plain.replace(record, r as u32 as usize, row), ..RIGHT });
}

#[test]
fn another_order_of_refusals() {
    // The row before INDEX; and before FULL.
    found(Altered {
        replace: |record, r, row| match Plain.replace(record, r, row) {
            index if index == refused(23) => {
                let of_row = Plain.replace(record, 0, &[row, &[3 << 30]].concat());
                if of_row & 0xff == 9 && of_row >> 16 == row.len() as u64 {
                    index
                } else {
                    of_row
                }
            }
            answer => answer,
        },
        ..RIGHT
    });
    found(Altered {
        append: |record, row| match Plain.append(record, row) {
            full if full == refused(21) && row.first() == Some(&(3 << 30)) => refused(6),
            answer => answer,
        },
        ..RIGHT
    });
}

/// The row, but one, that a row equals or begins with: its number and its cells.
fn doubled(record: &Record, but: usize, row: &[u32]) -> Option<(usize, usize)> {
    let cells = table_in(record);
    let rows = read_table(cells).ok()?.rows;
    let mut others = rows.iter().enumerate().filter(|&(number, _)| number != but);
    others.find(|(_, other)| row.starts_with(&cells[other.start..other.start + other.cells])).map(|(number, other)| (number, other.cells))
}

/// An engine that answers something else where a row of one of its edits is SAME, with the row that it equals.
fn append_same(record: &mut Record, row: &[u32], wrong: fn(&[u32], (usize, usize)) -> u64) -> u64 {
    match Plain.append(record, row) {
        same if same == refused(24) => wrong(row, doubled(record, ROWS, row).expect("the row is doubled")),
        answer => answer,
    }
}

#[test]
fn a_doubled_row_refused_otherwise() {
    // After EXTRA; at the row that it equals; not at all.
    found(Altered {
        append: |record, row| {
            append_same(record, row, |row, (_, cells)| if cells < row.len() { refused(9) | (cells as u64) << 16 } else { refused(24) })
        },
        ..RIGHT
    });
    found(Altered { append: |record, row| append_same(record, row, |_, (number, _)| refused(24) | (number as u64) << 16), ..RIGHT });
    found(Altered { append: |record, row| append_same(record, row, |_, _| 0), ..RIGHT });
}

#[test]
fn a_row_against_some_of_the_others() {
    // Those before it; and itself too.
    found(Altered {
        replace: |record, r, row| match Plain.replace(record, r, row) {
            same if same == refused(24) && doubled(record, r, row).is_some_and(|(number, _)| number > r) => 0,
            answer => answer,
        },
        ..RIGHT
    });
    found(Altered {
        replace: |record, r, row| match doubled(record, ROWS, row) {
            Some((number, _)) if number == r => refused(24),
            _ => Plain.replace(record, r, row),
        },
        ..RIGHT
    });
}

#[test]
fn places_counted_in_the_table() {
    found(Altered {
        append: |record, row| match Plain.append(record, row) {
            answer if (4..=9).contains(&(answer & 0xff)) => answer + (u64::from(record[0]) << 16),
            answer => answer,
        },
        ..RIGHT
    });
}

#[test]
fn the_old_number_of_rows_answered() {
    found(Altered {
        append: |record, row| match Plain.append(record, row) {
            answer if answered(answer) => answer - (1 << 32),
            answer => answer,
        },
        ..RIGHT
    });
}

#[test]
fn a_record_of_another_measure() {
    // 01's, and the least costs in place of those with nothing closed.
    found(Altered {
        work_out: |table, figure, record| {
            and_then(
                record,
                |record| Plain.work_out(table, figure, record),
                |_, record| {
                    for (first, last, best) in every_run(&read_table(table).expect("the table was accepted"), Measure::Branches) {
                        let numbers = [best.whole, best.closed, best.place];
                        places(first, last).into_iter().zip(numbers).for_each(|(at, number)| record[at] = number as u32);
                    }
                },
            )
        },
        ..RIGHT
    });
    found(Altered {
        work_out: |table, figure, record| {
            and_then(record, |record| Plain.work_out(table, figure, record), |_, record| record.copy_within(6148..10_244, 2052))
        },
        ..RIGHT
    });
}

#[test]
fn what_a_record_held_before_left_in_it() {
    found(Altered {
        work_out: |table, figure, record| {
            and_then(
                record,
                |record| Plain.work_out(table, figure, record),
                |before, record| {
                    record[2 + table.len()..2052].copy_from_slice(&before[2 + table.len()..2052]);
                },
            )
        },
        ..RIGHT
    });
}

#[test]
fn a_build_that_takes_the_leftmost_place() {
    found(Altered {
        build_plan: |record, room| {
            built(record, room, |open, rows| (0..open.places(rows)).find(|&place| open.run(rows.clone(), place).len() == rows.len()).unwrap_or(0))
        },
        ..RIGHT
    });
}

#[test]
fn more_of_a_record_looked_at_than_its_table() {
    // A figure that is none refused; a size that is none taken as the largest; a record believed that says another number of rows.
    found(Altered { check_plan: |record, plan| if figure_in(record) > 15 { 0x614 } else { Plain.check_plan(record, plan) }, ..RIGHT });
    // Few records say such a size.
    let check_plan = |record: &Record, plan: &[u32]| {
        let mut record = Box::new(*record);
        record[0] = record[0].min(2050);
        Plain.check_plan(&record, plan)
    };
    differs(edits(&Altered { check_plan, ..RIGHT }, Tally::default(), 300, 1));
}
