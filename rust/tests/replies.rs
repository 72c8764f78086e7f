//! What the rows say to a goal, and plans handed back as Prolog (docs/FORMAT.md).

mod common;

use common::{refused, shop};
use dudowiej::{name, Input, Names, Plan, Reason, Record};

#[test]
fn what_the_rows_say() {
    assert_eq!(shop("p(a,b). p(b,c). p(a,d).").says("a v0"), ["a, b", "a, d"]);
    assert_eq!(shop("p(X,f(Y)).").says("v0 v0"), ["f(_0), f(_0)"]);
    assert_eq!(shop("p(X,g(a,Y),f(Z)).").says("v0 v1 v0"), ["f(_0), g(a, _1), f(_0)"]);
    assert_eq!(shop("p(f(X),a). p(b,X).").says("v0 v1"), ["f(_0), a", "b, _0"]);
    assert!(shop("p(a). p(b).").says("c").is_empty());
    let shop = shop("p(a,b). p(b,c). p(a,d).");
    let replies = shop.record.replies(&shop.plan, &shop.cells("a v0")).unwrap();
    assert_eq!((replies.len(), replies.is_empty(), replies.cells()), (2, false, &shop.cells("a b a d")[..]));
    let mut room = [7; 4];
    assert_eq!(refused(shop.record.replies_in(&shop.plan, &shop.cells("a v0"), &mut room[1..])), (Reason::Room, Input::Room, 4));
    assert_eq!(room, [7; 4]);
}

/// Each variable is four of the one before, in the row and in the goal.
#[test]
fn too_large_a_reply() {
    let (s, g) = (name(4, 4), name(3, 3));
    let table = [8, 1, 0, s, 0, 0, 0, 0, 1, s, 1, 1, 1, 1, 2, s, 2, 2, 2, 2, 3, g, s, 3, 3, 3, 3, 4, s, 4, 4, 4, 4];
    let goal = [s, 0, 0, 0, 0, 1, s, 1, 1, 1, 1, 2, s, 2, 2, 2, 2, 3, s, 3, 3, 3, 3, g, 4, s, 4, 4, 4, 4, 5];
    let record = Record::work_out(&table, 0).unwrap();
    let plan = Plan::build(&record).plan;
    assert_eq!(record.run(&plan, &goal).unwrap().count(), 1);
    assert_eq!(refused(record.replies(&plan, &goal)), (Reason::Big, Input::Goal, 0));
}

#[test]
fn plans_as_prolog() {
    let cases = [
        (
            "p(a,b,c). p(a,b,d). p(a,c,c). p(b,a,c).",
            6,
            "'P0'(a, _0, _1) :- 'P1'(_0, _1).\n'P0'(b, a, c).\n'P1'(b, _0) :- 'P2'(_0).\n'P1'(c, c).\n'P2'(c).\n'P2'(d).\n",
        ),
        ("p(f(X),X). p(f(a),b). p(c,-1).", 4, "'P0'(f(_0), _1) :- 'P1'(_0, _1).\n'P0'(c, -1).\n'P1'(_0, _0).\n'P1'(a, b).\n"),
        ("p(a).", 1, "'P0'(a).\n"),
        ("p(a,b). p(a,c).", 3, "'P0'(a, _0) :- 'P1'(_0).\n'P1'(b).\n'P1'(c).\n"),
    ];
    for (facts, clauses, text) in cases {
        let shop = shop(facts);
        let program = shop.record.clauses(&shop.plan, &shop.names).unwrap();
        assert_eq!((program.clauses, &program.text[..]), (clauses, text), "{facts}");
        let mut room = vec![0; text.len() - 1];
        assert_eq!(refused(shop.record.clauses_in(&shop.plan, &shop.names, &mut room)), (Reason::Room, Input::Room, text.len()));
    }
}

#[test]
fn names_that_are_none() {
    let shop = shop("p(a,b). p(a,c).");
    let cases = [&["x", "y"][..], &["x", "y", "x"], &["x", "y", "Z"], &["x", "y", ""], &["x", "y", "z", "a b"]];
    for words in cases {
        let names = Names::from_words(words.iter().copied()).unwrap();
        assert_eq!(refused(shop.record.clauses(&shop.plan, &names)), (Reason::Names, Input::Names, 0), "{words:?}");
    }
    let names = Names::from_words(["x", "y", "z", "unused"]).unwrap();
    assert_eq!(shop.record.clauses(&shop.plan, &names).unwrap().text, "'P0'(x, _0) :- 'P1'(_0).\n'P1'(y).\n'P1'(z).\n");
}

/// Words that are longer than a text's can be for so many cells: the room grows.
#[test]
fn long_words() {
    let rows: String = (0..60).map(|row| format!("p(a,a,a,a,a,a,a,{row}).\n")).collect();
    let shop = shop(&rows);
    let word = "x".repeat(30_000);
    let program = shop.record.clauses(&shop.plan, &Names::from_words([&word[..]]).unwrap()).unwrap();
    assert_eq!(program.text.matches(&word).count(), 7);
    assert!(program.text.len() > dudowiej::PROGRAM_BYTES);
}
