//! A shift's replies in one call: each goal is answered as it would be by itself.

mod common;

use common::{refused, shop};
use dudowiej::{name, Goals, Input, Plan, Reason, Record, Refusal, REPLY_CELLS, ROW_CELLS};

#[test]
fn a_shifts_replies_are_those_of_its_jobs() {
    let shop = shop("p(a,b). p(b,c). p(a,d). p(X,X). p(f(X),b).");
    let words = ["a v0", "v0 v1", "v0 v0", "f/1 a b", "d c", "a", "v1 v0", "a b c"];
    let mut goals: Goals = words.iter().map(|goal| shop.cells(goal)).collect();
    goals.push_place(usize::MAX, 2);
    let answers = shop.record.reply_jobs(&shop.plan, &goals).unwrap();
    assert_eq!(answers.len(), goals.len());
    let past = Refusal { reason: Reason::Length, input: Input::Goal, place: 0 };
    for (number, answer) in answers.into_iter().enumerate() {
        let hits = goals.get(number).map_or(Err(past), |goal| shop.record.run(&shop.plan, goal));
        let replies = goals.get(number).map_or(Err(past), |goal| shop.record.replies(&shop.plan, goal));
        assert_eq!(answer.as_ref().map(|answer| answer.hits).map_err(|refusal| *refusal), hits, "{number}");
        assert_eq!(answer.map(|answer| answer.replies), replies, "{number}");
    }
}

/// More replies than the first room holds.
#[test]
fn a_long_shift() {
    let facts: String = (0..8).map(|row| format!("p({row},a,a,a,a,a,a,a).\n")).collect();
    let shop = shop(&facts);
    let all: Vec<u32> = (0..8).collect();
    let goals: Goals = std::iter::repeat_n(&all, 200).collect();
    let alone = shop.record.replies(&shop.plan, &all).unwrap();
    assert!(alone.cells().len() * goals.len() > (8 * REPLY_CELLS).max(goals.len() * ROW_CELLS));
    for answer in shop.record.reply_jobs(&shop.plan, &goals).unwrap() {
        assert_eq!(answer.unwrap().replies, alone);
    }
}

/// A goal whose reply is too large is refused by itself.
#[test]
fn too_large_a_reply() {
    let (s, g) = (name(4, 4), name(3, 3));
    let table = [8, 1, 0, s, 0, 0, 0, 0, 1, s, 1, 1, 1, 1, 2, s, 2, 2, 2, 2, 3, g, s, 3, 3, 3, 3, 4, s, 4, 4, 4, 4];
    let large = vec![s, 0, 0, 0, 0, 1, s, 1, 1, 1, 1, 2, s, 2, 2, 2, 2, 3, s, 3, 3, 3, 3, g, 4, s, 4, 4, 4, 4, 5];
    let record = Record::work_out(&table, 0).unwrap();
    let plan = Plan::build(&record).plan;
    let goals: Goals = [large, (0..8).collect()].into_iter().collect();
    let answers = record.reply_jobs(&plan, &goals).unwrap();
    assert_eq!(answers[0], Err(Refusal { reason: Reason::Big, input: Input::Goal, place: 0 }));
    assert_eq!(answers[1].as_ref().unwrap().replies.len(), 1);
}

#[test]
fn no_jobs_and_another_tables_plan() {
    let (two, one) = (shop("p(a,b). p(b,c)."), shop("p(a). p(b)."));
    assert_eq!(two.record.reply_jobs(&two.plan, &Goals::new()), Ok(Vec::new()));
    let plan = refused(Plan::check(&two.record, one.plan.cells()));
    assert_eq!(refused(two.record.reply_jobs(&one.plan, &Goals::new())), plan);
}

/// In a lent room a goal that finds no room left is refused by itself.
#[test]
fn a_lent_room() {
    let shop = shop("p(a,b). p(b,c). p(a,d).");
    let goals: Goals = ["a v0", "v0 v1", "b v0"].iter().map(|goal| shop.cells(goal)).collect();
    let mut room = [7; 8];
    let answers = shop.record.reply_jobs_in(&shop.plan, &goals, &mut room).unwrap();
    assert_eq!(answers[0].as_ref().unwrap().cells, 0..4);
    assert_eq!(answers[1], Err(Refusal { reason: Reason::Room, input: Input::Room, place: 6 }));
    assert_eq!(answers[2].as_ref().unwrap().cells, 4..6);
    assert_eq!(room[..6], shop.cells("a b a d b c"));
    assert_eq!(room[6..], [7; 2]);
    let replies = shop.record.as_replies(&room[..6]);
    assert_eq!(replies.iter().map(|reply| shop.names.show(reply)).collect::<Vec<_>>(), ["a, b", "a, d", "b, c"]);
}
