//! Texts of facts and their names (docs/FORMAT.md, "Prolog texts in").

mod common;

use common::{refused, shop};
use dudowiej::{name, read_text, show, Input, Names, Reason, Record, NAMES, TEXT_BYTES};

#[test]
fn tables_of_texts() {
    let cases = [
        ("p(f,f(a)).", "2 1 f f/1 a", &["f", "a"][..]),
        ("p(red,X,f(red,_,09)). % c\np(blue,_,9).", "3 2 red v0 f/3 red v1 i9 blue v0 i9", &["red", "f", "blue"]),
        ("p(_,_X,_Y,_).", "4 1 v0 v1 v2 v3", &[]),
        ("p(-1,-32768,-0).", "3 1 i-1 i-32768 i0", &[]),
        ("p(X,X).", "2 1 v0 v0", &[]),
    ];
    for (text, cells, words) in cases {
        let facts = read_text(text).unwrap();
        assert_eq!(facts.table, shop(text).cells(cells), "{text}");
        assert_eq!(facts.names.words().collect::<Vec<_>>(), words, "{text}");
    }
}

#[test]
fn where_no_text_goes_on() {
    let cases = [
        ("p(f(a,b,c,d,e)).", 11),
        ("p(32768).", 6),
        ("p(-32769).", 7),
        ("p(- 1).", 3),
        ("p(a).p(b).", 5),
        ("p(a)", 4),
        ("p(a). q(b). !", 12),
        ("", 0),
    ];
    for (text, place) in cases {
        assert_eq!(refused(read_text(text)), (Reason::Text, Input::Text, place), "{text}");
    }
    assert_eq!(refused(read_text("p(a). q(b).")), (Reason::Other, Input::Text, 6));
    assert_eq!(refused(read_text(vec![b' '; TEXT_BYTES + 1])), (Reason::Bytes, Input::Text, 0));
}

/// Too large a table is refused as a table, and never for want of room.
#[test]
fn large_texts() {
    let facts = |rows: usize, argument: &str| (0..rows).map(|row| format!("p({argument}{row}). ")).collect::<String>();
    assert_eq!(read_text(facts(64, "")).unwrap().table.len(), 66);
    assert_eq!(refused(read_text(facts(65, ""))), (Reason::Count, Input::Table, 1));
    // More cells than a table has, and more names.
    assert_eq!(refused(read_text(facts(3000, ""))), (Reason::Length, Input::Table, 0));
    assert_eq!(refused(read_text(facts(3000, "n"))), (Reason::Length, Input::Table, 0));
    let wide = format!("p({}a).", "a,".repeat(8));
    assert_eq!(refused(read_text(wide)), (Reason::Width, Input::Table, 0));
}

#[test]
fn the_text_is_refused_before_the_figure() {
    assert_eq!(refused(Record::from_text("p(a", 16)), (Reason::Text, Input::Text, 3));
    assert_eq!(refused(Record::from_text("p(a).", 16)), (Reason::Figure, Input::Figure, 0));
}

#[test]
fn names() {
    let mut names = shop("p(red, bowl(red)).").names;
    assert_eq!((names.len(), names.is_empty()), (2, false));
    assert_eq!((names.word(1), names.word(2)), (Some("bowl"), None));
    assert_eq!((names.number("bowl"), names.number("tray")), (Some(1), None));
    assert_eq!((names.add("tray"), names.add("vase"), names.add("red")), (Some(2), Some(3), Some(0)));
    assert_eq!(names.cell("vase", 2), Some(name(3, 2)));
    assert_eq!(names.show(&[name(1, 1), name(9, 0), 0]), "bowl(?), _0");
    assert_eq!(show(&[3 << 30], |_| ""), "?");
}

/// There is room for the names of every table, and an end to it.
#[test]
fn many_names() {
    let words: Vec<String> = (0..NAMES).map(|number| format!("n{number}")).collect();
    let mut names = Names::from_words(words.iter().map(String::as_str)).unwrap();
    assert_eq!((names.len(), names.word(2047)), (NAMES, Some("n2047")));
    let before = names.clone();
    assert_eq!(names.add(&"x".repeat(TEXT_BYTES)), None);
    assert_eq!(names, before);
    // Each word takes two bytes more than it has.
    assert!(Names::from_words(std::iter::repeat_n("", TEXT_BYTES / 2)).is_some());
    assert_eq!(Names::from_words(std::iter::repeat_n("", TEXT_BYTES / 2 + 1)), None);
}
