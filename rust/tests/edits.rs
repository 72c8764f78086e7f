//! Edits of a row at a time (docs/FORMAT.md, "Records and edits"): each leaves the record that the new table would give.

mod common;

use common::{refused, shop};
use dudowiej::{name, whole, Input, Reason, Record, ROWS};

const MORNING: &str = "p(a,b,c). p(a,b,d). p(a,c,c). p(b,a,c).";

fn worked_out(facts: &str) -> Record {
    Record::from_text(facts, 2).unwrap().0
}

#[test]
fn an_edited_record_is_the_new_tables() {
    let (mut record, names) = Record::from_text(MORNING, 2).unwrap();
    let row = |words: &str| words.split(' ').map(|word| names.cell(word, 0).unwrap()).collect::<Vec<u32>>();
    let old = record.row(1).unwrap().to_vec();
    record.replace(1, &row("d d d")).unwrap();
    assert_eq!(record.row(1), Some(&row("d d d")[..]));
    record.replace(1, &old).unwrap();
    assert_eq!(record, worked_out(MORNING));
    record.append(&row("d d d")).unwrap();
    assert_eq!(record, worked_out(&format!("{MORNING} p(d,d,d).")));
    record.drop_last().unwrap();
    record.drop_last().unwrap();
    assert_eq!(record, worked_out("p(a,b,c). p(a,b,d). p(a,c,c)."));
}

#[test]
fn a_refused_edit_changes_nothing() {
    let shop = shop(MORNING);
    let mut record = shop.record.clone();
    let there = record.row(0).unwrap().to_vec();
    assert_eq!(refused(record.append(&there)), (Reason::Same, Input::Table, 0));
    assert_eq!(refused(record.replace(1, &there)), (Reason::Same, Input::Table, 0));
    assert_eq!(refused(record.replace(4, &there)), (Reason::Index, Input::Table, 0));
    assert_eq!(refused(record.append(&shop.cells("a b"))), (Reason::Short, Input::Table, 2));
    assert_eq!(refused(record.append(&shop.cells("a b a b"))), (Reason::Extra, Input::Table, 3));
    assert_eq!(refused(record.append(&[0, 1, 1 << 16])), (Reason::Cell, Input::Table, 2));
    assert_eq!(refused(record.append(&[0, 2, 0])), (Reason::Fresh, Input::Table, 1));
    let long = [vec![name(0, 1); 32], vec![0, 1, 2]].concat();
    assert_eq!(refused(record.append(&long)), (Reason::Long, Input::Table, 32));
    assert_eq!(record, shop.record);
}

#[test]
fn from_one_row_to_64() {
    let mut record = Record::work_out(&[1, 1, whole(0)], 0).unwrap();
    assert_eq!(refused(record.drop_last()), (Reason::Last, Input::Table, 0));
    for row in 1..ROWS as i16 {
        record.append(&[whole(row)]).unwrap();
    }
    assert_eq!(refused(record.append(&[whole(-1)])), (Reason::Full, Input::Table, 0));
    let rows: Vec<u32> = (0..ROWS as i16).map(whole).collect();
    assert_eq!(record, Record::work_out(&[vec![1, ROWS as u32], rows].concat(), 0).unwrap());
}
