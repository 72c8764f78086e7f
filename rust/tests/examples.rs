//! The worked examples of 01 and of W-204 (docs/FORMAT.md, "Examples").

mod common;

use common::{refused, shop, Shop};
use dudowiej::{name, read_table, whole, Goal, Input, Plan, Reason, Record, Shape};

const P1: &str = "p(a,b,c). p(a,b,d). p(a,c,c). p(b,a,c).";
const P2: &str = "p(a,b). p(b,c). p(a,d).";
const P3: &str = "p(g,a,1). p(g,a,2). p(g,a,3). p(g,1,b). p(g,2,b). p(g,3,b).";
const P8: &str = "p(f(a)). p(f(b)). p(g).";

/// The plan that is built, and its branches.
fn builds(facts: &str, branches: usize, plan: &str) -> Shop {
    let shop = shop(facts);
    assert_eq!(shop.plan.cells(), shop.cells(plan), "{facts}");
    assert_eq!(shop.plan.branches(), branches, "{facts}");
    // The check counts the same.
    assert_eq!(Plan::check(&shop.record, shop.plan.cells()).as_ref(), Ok(&shop.plan), "{facts}");
    shop
}

#[test]
fn p1() {
    builds(P1, 9, "0 2 a 0 2 b 0 2 c 1 d 1 c 0 1 c 1 b 0 1 a 0 1 c 1");
}

#[test]
fn p2() {
    let shop = builds(P2, 6, "0 3 a 0 1 b 1 b 0 1 c 1 a 0 1 d 1");
    assert_eq!(shop.run("a v0"), (vec![0, 2], 5));
    assert_eq!(shop.run("v0 v1"), (vec![0, 1, 2], 6));
    // Place 1 first: another plan, the same rows.
    let other = Plan::check(&shop.record, &shop.cells("1 3 b 0 1 a 1 c 0 1 b 1 d 0 1 a 1")).unwrap();
    let hits = shop.record.run(&other, &shop.cells("a v0")).unwrap();
    assert_eq!((hits.rows().collect::<Vec<_>>(), hits.tried(), hits.count()), (vec![0, 2], 6, 2));
    // To share a between the first row and the last costs 5, and the order is wrong.
    let shared = shop.cells("0 2 a 0 2 b 1 d 1 b 0 1 c 1");
    assert_eq!(refused(Plan::check(&shop.record, &shared)), (Reason::Edges, Input::Plan, 1));
    assert_eq!(refused(Plan::build_in(&shop.record, &mut [0; 16])), (Reason::Room, Input::Room, 17));
}

#[test]
fn p3() {
    let shop = shop(P3);
    assert_eq!(shop.plan.branches(), 11);
    assert_eq!(refused(Plan::check(&shop.record, &[0, 2])), (Reason::Edges, Input::Plan, 1));
}

#[test]
fn p4_p5_p6() {
    builds("p(X).", 1, "0 1 v0 1");
    assert_eq!(refused(Record::from_text("p(a). p(a).", 0)), (Reason::Same, Input::Table, 3));
    builds("p(X). p(X).", 2, "0 2 v0 1 v0 1");
}

#[test]
fn p7() {
    assert_eq!(shop("p(a,b). p(a,a).").run("v0 v0"), (vec![1], 3));
}

#[test]
fn p8() {
    let shop = builds(P8, 4, "0 2 f/1 0 2 a 1 b 1 g 1");
    assert_eq!(shop.run("g"), (vec![2], 2));
}

#[test]
fn p9() {
    let shop = builds("p(X,X).", 2, "0 1 v0 0 1 v0 1");
    assert_eq!(shop.run("a v0"), (vec![0], 2));
    let shop = self::shop("p(X,X). p(f(a),b).");
    assert_eq!(shop.run("a b").0, []);
    // No term is f of itself.
    assert_eq!(shop.run("v0 f/1 v0").0, []);
    assert_eq!(refused(read_table(&[1, 1, 1])), (Reason::Fresh, Input::Table, 2));
}

#[test]
fn p10_and_long_rows() {
    let [a, f] = [name(1, 0), name(6, 1)];
    assert_eq!(refused(read_table(&[2, 1, a])), (Reason::Short, Input::Table, 3));
    let nested = |times| [vec![1, 1], vec![f; times], vec![a]].concat();
    assert_eq!(read_table(&nested(31)), Ok(Shape { width: 1, rows: 1 }));
    assert_eq!(refused(read_table(&nested(32))), (Reason::Long, Input::Table, 34));
    assert_eq!(refused(read_table(&[1, 1, name(6, 5)])), (Reason::Cell, Input::Table, 2));
}

#[test]
fn the_fewest_runs_are_not_the_least_plan() {
    let shop = shop("p(a,x,x,x). p(a,y,y,y). p(b,y,y,y). p(b,z,z,z).");
    assert_eq!(shop.plan.branches(), 13);
}

#[test]
fn work() {
    let plain = "0 2 a 0 2 b 0 2 c 1 d 1 c 0 1 c 1 b 0 1 a 0 1 c 1";
    let wide = "0 2 a 1 3 c 0 1 b 1 d 0 1 b 1 c 0 1 c 1 b 0 1 a 0 1 c 1";
    let cases = [
        ("p(X).", 15, 0, "0 1 v0 1"),
        ("p(X). p(X).", 15, 15, "0 2 v0 1 v0 1"),
        ("p(f(a),b).", 3, 4, "0 1 f/1 0 1 a 0 1 b 1"),
        (P1, 0, 9, plain),
        (P1, 1, 12, plain),
        (P1, 2, 14, wide),
        (P1, 15, 40, wide),
    ];
    for (facts, figure, cost, plan) in cases {
        let (record, _) = Record::from_text(facts, figure).unwrap();
        let built = Plan::build(&record);
        assert_eq!((built.plan.cells(), built.cost), (&shop(facts).cells(plan)[..], cost), "{facts} {figure}");
        assert_eq!(record.figure(), figure);
    }
    assert_eq!(refused(Record::work_out(&[], 16)), (Reason::Figure, Input::Figure, 0));
}

#[test]
fn a_record_and_its_rows() {
    let shop = shop("p(f(a),-7). p(g,X).");
    assert_eq!((shop.record.width(), shop.record.rows()), (2, 2));
    assert_eq!(shop.record.table(), shop.cells("2 2 f/1 a i-7 g v0"));
    assert_eq!(shop.record.row(0), Some(&shop.cells("f/1 a i-7")[..]));
    assert_eq!(shop.record.row(1), Some(&shop.cells("g v0")[..]));
    assert_eq!((shop.record.row(2), shop.record.row(usize::MAX)), (None, None));
    assert_eq!(Record::work_out(shop.record.table(), 0).unwrap(), shop.record);
    assert_ne!(Record::work_out(shop.record.table(), 1).unwrap(), shop.record);
}

#[test]
fn goals() {
    let shop = shop(P2);
    let goal = Goal::read(&shop.record, &shop.cells("v0 v0")).unwrap();
    assert_eq!((&goal[..], goal.variables()), (&[0, 0][..], 1));
    assert_eq!(shop.record.run(&shop.plan, &goal).unwrap().count(), 0);
    let cases = [("", Reason::Length, 0), ("a", Reason::Short, 1), ("v1 v0", Reason::Fresh, 0), ("a b c", Reason::Extra, 2)];
    for (words, reason, place) in cases {
        let cells = shop.cells(words);
        assert_eq!(refused(Goal::read(&shop.record, &cells)), (reason, Input::Goal, place), "{words}");
        assert_eq!(refused(shop.record.run(&shop.plan, &cells)), (reason, Input::Goal, place), "{words}");
    }
}

#[test]
fn a_plan_is_one_tables() {
    let (two, eight) = (shop(P2), shop(P8));
    assert_eq!(refused(two.record.run(&eight.plan, &[0, 1])), (Reason::Edges, Input::Plan, 1));
    assert_eq!(refused(two.record.replies(&eight.plan, &[0, 1])), (Reason::Edges, Input::Plan, 1));
    assert_eq!(refused(two.record.write_file(&eight.plan)), (Reason::Edges, Input::Plan, 1));
}

#[test]
fn the_shop_of_the_samples() {
    let (record, names) = Record::from_text(include_bytes!("../../samples/shop.pl"), 0).unwrap();
    let plan = Plan::build(&record).plan;
    assert_eq!((record.rows(), plan.branches()), (12, 39));
    let word = |word| names.cell(word, 0).unwrap();
    let goal = [whole(9), word("red"), word("ring"), 0];
    let hits = record.run(&plan, &goal).unwrap();
    assert_eq!((hits.rows().collect::<Vec<_>>(), hits.tried()), (vec![0, 11], 16));
    let replies = record.replies(&plan, &goal).unwrap();
    let said: Vec<String> = replies.iter().map(|reply| names.show(reply)).collect();
    assert_eq!(said, ["9, red, ring, soft", "9, red, ring, medium"]);
}
