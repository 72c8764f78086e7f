//! Sound plans for a table.

use crate::model::columns::{least_for, Named};
use crate::model::least::{least, Measure};
use crate::model::plan::{grow, Plan};
use crate::model::read::Table;
use crate::random::Random;

/// The builder's plan, or one of another order of places.
pub fn any(random: &mut Random, table: &Table) -> Vec<u32> {
    match random.below(6) {
        0 => grow(table, |_, _| 0),
        1 => grow(table, |open, rows| open.places(rows) - 1),
        2 | 3 => least(table),
        _ => grow(table, |open, rows| random.below(open.places(rows))),
    }
    .write()
}

/// A plan for named columns: the builder's, or one of another order of the places that may be chosen.
pub fn for_columns(random: &mut Random, table: &Table, named: &Named) -> Plan {
    match random.below(6) {
        0 => grow(table, |open, rows| named.choosable(open.first(rows))[0]),
        1 => grow(table, |open, rows| named.choosable(open.first(rows)).pop().expect("some place may be chosen")),
        2 | 3 => least_for(table, named, Measure::Work(0)),
        _ => grow(table, |open, rows| *random.pick(&named.choosable(open.first(rows)))),
    }
}

/// The same but for a few states, at which any open place is taken.
pub fn nearly_for_columns(random: &mut Random, table: &Table, named: &Named) -> Plan {
    let few = *random.pick(&[4, 10, 40]);
    grow(table, |open, rows| if random.one_in(few) { random.below(open.places(rows)) } else { *random.pick(&named.choosable(open.first(rows))) })
}
