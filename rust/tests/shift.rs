//! A shift's jobs in one call, and the plan that a list of goals likes best (docs/FORMAT.md).

mod common;

use common::{refused, shop, Shop};
use dudowiej::{Goals, Input, Plan, Reason, Record, Refusal};

/// Goals in words, with `; ` between two.
fn goals(shop: &Shop, words: &str) -> Goals {
    words.split("; ").filter(|goal| !goal.is_empty()).map(|goal| shop.cells(goal)).collect()
}

#[test]
fn a_shift_is_its_jobs_one_by_one() {
    let shop = shop("p(a,b). p(b,c). p(a,d). p(X,X). p(f(X),b).");
    let mut list = goals(&shop, "a v0; v0 v1; v0 v0; f/1 a b; d d; a; v1 v0; a b c");
    // A goal among another's cells, and one past all of them.
    list.push_place(1, 2);
    list.push_place(list.cells().len() - 1, 2);
    list.push_place(usize::MAX, usize::MAX);
    let answers = shop.record.run_jobs(&shop.plan, &list).unwrap();
    assert_eq!(answers.len(), list.len());
    let past = Refusal { reason: Reason::Length, input: Input::Goal, place: 0 };
    for (number, answer) in answers.into_iter().enumerate() {
        let alone = list.get(number).map_or(Err(past), |goal| shop.record.run(&shop.plan, goal));
        assert_eq!(answer, alone, "{number}");
    }
    assert_eq!(list.get(list.len()), None);
}

#[test]
fn no_jobs_and_another_tables_plan() {
    let (two, one) = (shop("p(a,b). p(b,c)."), shop("p(a). p(b)."));
    assert_eq!(two.record.run_jobs(&two.plan, &Goals::new()), Ok(Vec::new()));
    assert!(Goals::new().is_empty());
    let plan = refused(Plan::check(&two.record, one.plan.cells()));
    assert_eq!(plan.1, Input::Plan);
    assert_eq!(refused(two.record.run_jobs(&one.plan, &Goals::new())), plan);
}

#[test]
fn what_goals_like_best() {
    let square = "p(a,c). p(b,c). p(a,d). p(b,d).";
    let cases = [
        ("p(a,b). p(a,c).", 0, "", &[][..], 0, 0, 3),
        ("p(a,b). p(a,c).", 0, "a d; a d; a d", &[1], 6, 9, 4),
        ("p(a,b). p(a,c).", 0, "a; a d; v1 v0; a b c", &[1], 2, 3, 4),
        (square, 0, "a v0", &[], 6, 6, 6),
        (square, 0, "d v0", &[0], 4, 6, 8),
        (square, 0, "d v0; v0 c", &[], 10, 10, 6),
        (square, 2, "v0 v1", &[1], 6, 8, 12),
        ("p(a,b). p(b,b). p(c,b).", 0, "d b", &[0], 3, 4, 6),
        ("p(a,b,c). p(a,c,c). p(b,b,d).", 0, "v0 v1 a", &[2], 2, 5, 7),
        ("p(a,b,c). p(a,c,c). p(b,b,d).", 0, "v0 d v1", &[1], 3, 6, 9),
    ];
    for (facts, figure, list, columns, best, plain, cost) in cases {
        let shop = shop(facts);
        let record = Record::from_text(facts, figure).unwrap().0;
        let goals = goals(&shop, list);
        let liked = Plan::build_liked(&record, &goals);
        assert_eq!(liked.tried.columns, columns, "{facts} {list}");
        assert_eq!((liked.tried.best, liked.tried.plain, liked.cost), (best, plain, cost), "{facts} {list}");
        assert_eq!(Plan::build_for(&record, columns).unwrap().plan, liked.plan, "{facts} {list}");
        let answers = record.run_jobs(&liked.plan, &goals).unwrap();
        assert_eq!(answers.iter().flatten().map(|hits| hits.tried()).sum::<usize>(), best, "{facts} {list}");
        let cells = liked.plan.cells().len();
        assert_eq!(refused(Plan::build_liked_in(&record, &goals, &mut vec![0; cells - 1])), (Reason::Room, Input::Room, cells));
    }
}
