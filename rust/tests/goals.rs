//! Goals and answers as Prolog text (docs/FORMAT.md).

mod common;

use common::{refused, shop};
use dudowiej::{name, variable, whole, Goal, Input, Names, Reason, NAMES, REPLY_CELLS};

/// The names are red 0, ring 1, soft 2, blue 3, bowl 4, large 5, hard 6 and medium 7.
const RULES: &str = "rule(9, red, ring, soft). rule(9, blue, bowl(large), hard). rule(_, _, _, medium).";

#[test]
fn goals_of_texts() {
    let names = shop(RULES).names;
    let ring = [whole(9), name(0, 0), name(1, 0), variable(0)];
    let bowl = [whole(-1), name(8, 0), name(4, 2), name(8, 0), name(9, 0), variable(0)];
    let cases: [(&str, &[u32], &[&str]); 8] = [
        ("rule(9, red, ring, F)", &ring, &[]),
        ("rule(9,red,ring,_).", &ring, &[]),
        (" rule( 009,red ,\r\n ring,F ) . % c", &ring, &[]),
        ("rule(9, red, ring, F) % no full stop", &ring, &[]),
        ("rule(-1, tray, bowl(tray, vase), X)", &bowl, &["tray", "vase"]),
        ("rule(X, X, _, _)", &[variable(0), variable(0), variable(1), variable(2)], &[]),
        ("rule(A, B, bowl(A), B)", &[variable(0), variable(1), name(4, 1), variable(0), variable(1)], &[]),
        ("rule(1, 2, 3, rule)", &[whole(1), whole(2), whole(3), name(8, 0)], &["rule"]),
    ];
    for (text, cells, new) in cases {
        let goal = names.goal(text).unwrap();
        assert_eq!((&goal[..], goal.new_names().collect::<Vec<_>>()), (cells, new.to_vec()), "{text}");
        let variables = cells.iter().filter(|&&cell| cell < 1 << 30).max().map_or(0, |last| last + 1);
        assert_eq!(goal.variables(), variables as usize, "{text}");
    }
}

#[test]
fn what_is_no_goal() {
    let names = shop(RULES).names;
    let cases = [
        ("", Reason::Text, 0),
        ("Rule(9, red, ring, F)", Reason::Text, 0),
        ("rule (9, red, ring, F)", Reason::Text, 4),
        ("rule(9, red, ring, F", Reason::Text, 20),
        ("rule(9, red, ring, 'F')", Reason::Text, 19),
        ("rule(9, red, ring, F)..", Reason::Text, 22),
        ("rules(9, red, ring, F)", Reason::Other, 0),
        ("  rule(9, red, ring)", Reason::Other, 2),
        ("rule(9, red, ring, F). rule(9, blue, ring, F)", Reason::Other, 0),
    ];
    for (text, reason, place) in cases {
        assert_eq!(refused(names.goal(text)), (reason, Input::Text, place), "{text}");
    }
    let blanks = " ".repeat(65_533 - 21);
    assert_eq!(names.goal(format!("{blanks}rule(9, red, ring, F)")).unwrap().len(), 4);
    assert_eq!(refused(names.goal(format!("{blanks} rule(9, red, ring, F)"))), (Reason::Bytes, Input::Text, 0));
    let nested = |names: usize| format!("rule(1, 2, 3, {}a{})", "f(".repeat(names), ")".repeat(names));
    assert_eq!(names.goal(nested(28)).unwrap().len(), 32);
    assert_eq!(refused(names.goal(nested(29))), (Reason::Length, Input::Goal, 0));
}

/// Names that are of no text have no predicate.
#[test]
fn names_of_no_text() {
    let words: Vec<String> = (0..=NAMES).map(|number| format!("n{number}")).collect();
    let names = |count: usize| Names::from_words(words[..count].iter().map(String::as_str)).unwrap();
    assert_eq!(refused(names(NAMES).goal("p(n0)")), (Reason::Other, Input::Text, 0));
    assert_eq!(refused(names(NAMES + 1).goal("p(n0)")), (Reason::Length, Input::Table, 0));
}

/// A name that is added later is one of the facts' to every goal after it.
#[test]
fn names_that_are_added() {
    let shop = shop(RULES);
    let mut names = shop.names.clone();
    assert_eq!(names.add("tray"), Some(8));
    let (before, after) = (shop.names.goal("rule(_, vase, tray, _)").unwrap(), names.goal("rule(_, vase, tray, _)").unwrap());
    assert_eq!((before[1], before[2], before.new_names().count()), (name(8, 0), name(9, 0), 2));
    assert_eq!((after[1], after[2], after.new_names().count()), (name(9, 0), name(8, 0), 1));
    assert_eq!(names.say(&after, &after).unwrap(), "rule(_0, vase, tray, _1)");
    assert_eq!(shop.record.clauses(&shop.plan, &names), shop.record.clauses(&shop.plan, &shop.names));
}

#[test]
fn answers_as_text() {
    let shop = shop(RULES);
    let says = |goal: &str| -> Vec<String> {
        let goal = shop.names.goal(goal).unwrap();
        let replies = shop.record.replies(&shop.plan, &goal).unwrap();
        replies.iter().map(|reply| shop.names.say(&goal, reply).unwrap()).collect()
    };
    assert_eq!(says("rule(9, red, ring, F)"), ["rule(9, red, ring, soft)", "rule(9, red, ring, medium)"]);
    assert_eq!(says("rule(U, blue, bowl(S), F)"), ["rule(9, blue, bowl(large), hard)", "rule(_0, blue, bowl(_1), medium)"]);
    assert_eq!(says("rule(-1, E, tray(vase, 9), F)."), ["rule(-1, _0, tray(vase, 9), medium)"]);
    assert!(says("rule(1, red, ring, soft)").is_empty());
}

/// Read as a goal, an answer is the reply again.
#[test]
fn answers_read_back() {
    let shop = shop("p(X, X, f(g(X), -7)). p(_, a, Y). p(b, Y, Y).");
    for text in ["p(A, B, C)", "p(A, a, f(B, C))", "p(b, a, a)", "p(A, B, B)"] {
        let goal = shop.names.goal(text).unwrap();
        for reply in shop.record.replies(&shop.plan, &goal).unwrap().iter() {
            let said = shop.names.say(&goal, reply).unwrap();
            assert_eq!(shop.names.goal(&said).as_deref(), Ok(reply), "{said}");
        }
    }
}

/// Any cells have a text, as far as they go.
#[test]
fn any_cells_as_text() {
    let shop = shop(RULES);
    let goal = Goal::read(&shop.record, &[0, 1, 2, 3]).unwrap();
    assert_eq!(goal.new_names().count(), 0);
    let cases: [(&[u32], &str); 7] = [
        (&[], "rule("),
        (&[whole(-1)], "rule(-1, "),
        (&[0, 1, 2, name(4, 1)], "rule(_0, _1, _2, bowl("),
        (&[0, name(4, 2), 1, name(0, 0), 2, 3], "rule(_0, bowl(_1, red), _2, _3)"),
        (&[0, 1, 2, 3, name(0, 0), name(4, 1), 4], "rule(_0, _1, _2, _3)redbowl(_4)"),
        // No cell, and a name that is not listed.
        (&[u32::MAX, name(0, 5), name(8, 0), name(9, 1), 0], "rule(, , , (_0))"),
        (shop.record.row(1).unwrap(), "rule(9, blue, bowl(large), hard)"),
    ];
    for (cells, text) in cases {
        assert_eq!(shop.names.say(&goal, cells).as_deref(), Ok(text));
    }
    let most = vec![variable(7); REPLY_CELLS + 1];
    assert_eq!(shop.names.say(&goal, &most[1..]).unwrap().len(), "rule(_7, _7, _7, _7)".len() + 2 * (REPLY_CELLS - 4));
    assert_eq!(refused(shop.names.say(&goal, &most)), (Reason::Big, Input::Goal, 0));
}

#[test]
fn rooms_for_answers() {
    let shop = shop(RULES);
    let goal = shop.names.goal("rule(9, red, tray, medium)").unwrap();
    let mut room = [b'-'; 28];
    assert_eq!(refused(shop.names.say_in(&goal, &goal, &mut room[..25])), (Reason::Room, Input::Room, 26));
    assert_eq!(room, [b'-'; 28]);
    assert_eq!(shop.names.say_in(&goal, &goal, &mut room), Ok(26));
    assert_eq!(&room, b"rule(9, red, tray, medium)--");
    // A text that is longer than most.
    let long = shop.names.goal(format!("rule({0}, {0}, {0}, {0})", "x".repeat(4_000))).unwrap();
    assert_eq!(shop.names.say(&long, &long).unwrap().len(), "rule(, , , )".len() + 4 * 4_000);
}
