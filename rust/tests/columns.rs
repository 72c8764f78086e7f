//! Plans for columns that are always filled in (docs/FORMAT.md).

mod common;

use common::{refused, shop};
use dudowiej::{Input, Plan, Reason, Record};

#[test]
fn plans_for_columns() {
    let square = "p(a,c). p(b,c). p(a,d). p(b,d).";
    let by_place_0 = "0 4 a 0 1 c 1 b 0 1 c 1 a 0 1 d 1 b 0 1 d 1";
    let by_place_1 = "1 2 c 0 2 a 1 b 1 d 0 2 a 1 b 1";
    let nested = "p(a,f(a)). p(b,f(a)). p(b,f(b)).";
    let cases = [
        (square, &[][..], by_place_1, 6, [6, 10, 23]),
        (square, &[0], by_place_0, 8, [8, 10, 23]),
        (square, &[1], by_place_1, 6, [6, 12, 51]),
        (nested, &[0], "0 2 a 0 1 f/1 0 1 a 1 b 0 1 f/1 0 2 a 1 b 1", 7, [9, 13, 39]),
        (nested, &[1], "1 1 f/1 1 2 a 0 2 a 1 b 1 b 0 1 b 1", 6, [7, 11, 37]),
        ("p(a,b,c). p(a,c,c). p(b,b,d).", &[2, 0, 2], "0 2 a 1 1 c 0 2 b 1 c 1 b 1 1 d 0 1 b 1", 7, [7, 11, 37]),
    ];
    for (facts, columns, plan, branches, costs) in cases {
        let shop = shop(facts);
        let built = Plan::build_for(&shop.record, columns).unwrap();
        assert_eq!((built.plan.cells(), built.plan.branches()), (&shop.cells(plan)[..], branches), "{facts} {columns:?}");
        assert_eq!(Plan::check_for(&shop.record, columns, built.plan.cells()).as_ref(), Ok(&built.plan), "{facts} {columns:?}");
        for (figure, cost) in [0, 2, 15].into_iter().zip(costs) {
            let record = Record::from_text(facts, figure).unwrap().0;
            assert_eq!(Plan::build_for(&record, columns).unwrap().cost, cost, "{facts} {columns:?} {figure}");
        }
    }
}

#[test]
fn none_or_all_is_the_plain_plan() {
    let shop = shop("p(a,b,c). p(a,b,d). p(a,c,c). p(b,a,c).");
    assert_eq!(Plan::build_for(&shop.record, &[]).unwrap().plan, shop.plan);
    assert_eq!(Plan::build_for(&shop.record, &[2, 0, 1]).unwrap().plan, shop.plan);
}

#[test]
fn what_is_refused() {
    let shop = shop("p(a,b,c). p(a,b,d). p(a,c,c). p(b,a,c).");
    let cells = shop.plan.cells();
    assert_eq!(Plan::check_for(&shop.record, &[0], cells).unwrap().branches(), 9);
    assert_eq!(refused(Plan::check_for(&shop.record, &[1], cells)), (Reason::Early, Input::Plan, 0));
    assert_eq!(refused(Plan::check_for(&shop.record, &[0, 2], cells)), (Reason::Early, Input::Plan, 3));
    for column in [3, 8, u32::MAX] {
        assert_eq!(refused(Plan::build_for(&shop.record, &[0, column])), (Reason::Column, Input::Columns, 0));
        assert_eq!(refused(Plan::check_for(&shop.record, &[column], cells)), (Reason::Column, Input::Columns, 0));
    }
    let needed = Plan::build_for(&shop.record, &[1]).unwrap().plan.cells().len();
    assert_eq!(refused(Plan::build_for_in(&shop.record, &[1], &mut vec![0; needed - 1])), (Reason::Room, Input::Room, needed));
    assert_eq!(Plan::build_for_in(&shop.record, &[1], &mut vec![0; needed]).unwrap().cells, needed);
}
