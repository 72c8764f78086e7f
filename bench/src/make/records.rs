//! Records that hold a table. What they hold besides is a table worked out, or anything at all.

use crate::model::record::{put_table, work_out, Record, RECORD_CELLS};
use crate::random::Random;

/// All numbers 0.
pub fn empty() -> Box<Record> {
    boxed(vec![0; RECORD_CELLS])
}

/// So many numbers as a record.
pub fn boxed(numbers: Vec<u32>) -> Box<Record> {
    numbers.try_into().expect("as many numbers as a record has")
}

/// A sound table worked out.
pub fn worked_out(table: &[u32], figure: u32) -> Box<Record> {
    let mut record = empty();
    work_out(table, figure, &mut record).expect("a sound table and a figure");
    record
}

/// These cells as the table, and anything else. Of more cells than a record has room for, the first ones.
pub fn holding(random: &mut Random, table: &[u32]) -> Box<Record> {
    let mut record = anything(random);
    let figure = figure(random);
    put_table(&mut record, table, figure);
    record
}

/// A record that was never worked out, from a sound table: one damaged afterwards, one that says another size, one with parts of its own.
pub fn damaged(random: &mut Random, table: &[u32]) -> Box<Record> {
    let mut record = if random.one_in(2) { holding(random, table) } else { worked_out(table, random.below(16) as u32) };
    match random.below(8) {
        0 => record = anything(random),
        1 => record[0] = *random.pick(&[0, 1, table.len() as u32 - 1, table.len() as u32 + 1, 2050, 2051, 1 << 31, u32::MAX]),
        2 => record[1] = figure(random),
        3 => record[2 + random.below(table.len())] = random.number() as u32,
        4 => record[2052..].reverse(),
        _ => {
            for _ in 0..random.within(1..=200) {
                record[random.within(2052..=RECORD_CELLS - 1)] = *random.pick(&[0, 1, 7, 63, 4096, 65_535, 65_536, u32::MAX]);
            }
        }
    }
    record
}

/// One that is allowed, or any number.
fn figure(random: &mut Random) -> u32 {
    if random.one_in(4) {
        random.number() as u32
    } else {
        random.below(17) as u32
    }
}

/// Numbers of so many bits, others in each part.
fn anything(random: &mut Random) -> Box<Record> {
    let mut record = empty();
    for part in record.chunks_mut(4096) {
        let bits = *random.pick(&[0, 2, 6, 17, 32]);
        part.fill_with(|| (random.number() >> 32 >> (32 - bits)) as u32);
    }
    record
}
