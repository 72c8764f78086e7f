//! What the README says of the repository, held against the repository; and the exported entries, held against those of the library.

use std::collections::BTreeMap;
use std::path::Path;

use dudowiej_bench::{believe, map};

const README: &str = include_str!("../../README.md");
const CRATES: &str = include_str!("../../crates.txt");
const LINES: &str = include_str!("../../docs/CRATES.md");
const BENCH: &str = include_str!("../../docs/BENCH.md");
const ENTRIES: &str = include_str!("../../crates/dudowiej/src/lib.rt");
const EXPORTED: &str = include_str!("../../crates/dudowiej_c/src/lib.rt");
const STORED: &str = include_str!("../../crates/ask_cases/stdout");
const PICTURE: &str = include_str!("../../docs/shop.svg");

#[test]
fn the_drawing_is_that_of_crates_txt() {
    let (count, wrongs) = map::wrongs(README, CRATES);
    assert_eq!(wrongs, Vec::<String>::new());
    assert!(count > 100);
}

/// A crate gone from the drawing, a second one, a wrong sign, a name that is no crate's and a wrong layer are each found.
#[test]
fn a_wrong_drawing_is_found() {
    let found = |changes: &[(&str, &str)]| {
        let readme = changes.iter().fold(README.to_string(), |readme, (from, to)| {
            assert_eq!(readme.matches(from).count(), 1, "{from}");
            readme.replace(from, to)
        });
        map::wrongs(&readme, CRATES).1
    };
    assert_eq!(found(&[("| liked  ", "|        ")]), ["liked: 0 times in the drawing"]);
    assert_eq!(found(&[("| liked  ", "| liked  checker  ")]), ["checker: 2 times in the drawing"]);
    assert_eq!(found(&[("| answer*", "| answer ")]), ["answer: is mathematics in crates.txt"]);
    assert_eq!(found(&[("| blocks  ", "| blocks*  ")]), ["blocks: no mathematics in crates.txt"]);
    assert_eq!(found(&[("| limits  ", "| limit  ")]), ["limit: in ground, and unknown to crates.txt", "limits: 0 times in the drawing"]);
    let lower = [("| plan*  state  checker ", "| plan*  state "), ("| goalreader  samerows  table ", "| goalreader  samerows  table  checker ")];
    assert_eq!(found(&lower), ["checker: below plan, which it uses", "checker: below state, which it uses"]);
}

/// docs/CRATES.md has each crate of crates.txt once, and no other.
#[test]
fn each_crate_has_its_words() {
    let named = LINES.lines().filter_map(|line| line.strip_prefix("| `")?.split(" | ").next());
    let mut named: Vec<&str> = named.flat_map(|names| names.split([',', '`', ' ']).filter(|name| !name.is_empty())).collect();
    let mut crates: Vec<&str> = CRATES.lines().filter_map(|line| Some(map::listed(line)?.0)).collect();
    named.sort_unstable();
    crates.sort_unstable();
    assert_eq!(named, crates);
}

/// The README's picture has the nodes and arrows, with their words, of what is stored for `ask --dot`.
#[test]
fn the_picture_is_that_of_the_stored_graph() {
    let graph = STORED.split("$ ask ").find_map(|call| call.strip_prefix("--dot shop.pl\n")).expect("a call with --dot");
    let labelled = |line: &str| {
        let (name, rest) = line.trim().split_once(" [label=\"")?;
        Some((name.replace("graph", "plan"), rest.split_once('"')?.0.to_string()))
    };
    let titled = |part: &str| {
        let (name, rest) = part.split_once("</title>")?;
        let words = rest.split_once("<text")?.1.split_once('>')?.1.split_once("</text>")?.0;
        Some((name.replace("&#45;&gt;", " -> "), words.to_string()))
    };
    let mut stored: Vec<(String, String)> = graph.lines().filter_map(labelled).collect();
    let mut drawn: Vec<(String, String)> = PICTURE.split("<title>").filter_map(titled).collect();
    stored.sort_unstable();
    drawn.sort_unstable();
    assert_eq!(drawn, stored);
    assert!(README.contains("](docs/shop.svg)") && stored.len() > 2 * 39);
}

/// The bytes of stack that the README has are among those of docs/BENCH.md.
#[test]
fn the_stack_is_that_of_the_benchmark() {
    let stack = BENCH.split("\n## ").find(|part| part.starts_with("Stack\n")).expect("a part on stack");
    let said = README.split("\n- ").find(|item| item.starts_with("Of its caller's stack")).expect("a line on stack");
    let figures: Vec<&str> = said.split([' ', ':']).map(|word| word.trim_end_matches(',')).filter(|word| word.contains(',')).collect();
    assert_eq!(figures.len(), 4, "{figures:?}");
    assert!(figures.iter().all(|figure| stack.contains(figure)), "{figures:?}");
}

/// The numbers of definitions, lines and files that the README has are those that are counted.
#[test]
fn what_must_be_believed_is_as_the_readme_says() {
    let believed = believe::believed(Path::new(concat!(env!("CARGO_MANIFEST_DIR"), "/.."))).expect("every name is defined");
    let readme = README.split_whitespace().collect::<Vec<_>>().join(" ");
    for size in [believed.page, believed.below] {
        let words = believe::words(size);
        assert!(readme.contains(&words), "the README has not: {words}");
    }
    assert!(believed.files.contains_key("crates/term/specs/Unify.antt") && believed.files.contains_key("crates/refusal/src/lib.rt"));
    assert!(believed.files.keys().all(|path| !path.contains("/specs/code/") && !path.contains("/proofs/")), "what only proofs need");
}

/// Each exported entry has the parameters, the result and the clauses of crate dudowiej's, and is its call.
#[test]
fn what_is_exported_is_crate_dudowiej() {
    assert_eq!(unlike(ENTRIES, EXPORTED), Vec::<String>::new());
    assert_eq!(functions(EXPORTED).len(), 23);
}

/// A parameter, a result or a clause that is another, a clause more, parameters exchanged in the call, another call, a name that is not exported,
/// one more and one fewer, and words that mean something else by what is used are each found.
#[test]
fn a_wrong_export_is_found() {
    let found = |from: &str, to: &str| {
        assert!(EXPORTED.contains(from), "{from}");
        unlike(ENTRIES, &EXPORTED.replacen(from, to, 1))
    };
    assert_eq!(found("figure: u32", "figure: usize"), ["dudowiej_work_out: said otherwise"]);
    assert_eq!(found("-> u64", "-> usize"), ["dudowiej_read_table: said otherwise"]);
    assert_eq!(found("(append row.now) rec.old", "(append row.now) rec.new"), ["dudowiej_append: said otherwise"]);
    assert_eq!(found("ensures { EditCoded drop", "requires { ⊥ }\n    ensures { EditCoded drop"), ["dudowiej_drop_last: said otherwise"]);
    assert_eq!(found("_goal(rec, goal)", "_goal(rec, rec)"), ["dudowiej_read_goal: another call"]);
    assert_eq!(found("(rec, plan, goal, room)", "(rec, goal, plan, room)"), ["dudowiej_run_plan: another call"]);
    assert_eq!(found("dudowiej::dudowiej_row(rec, r)", "dudowiej::dudowiej_read_goal(rec, r)"), ["dudowiej_row: another call"]);
    assert_eq!(found("#[unsafe(no_mangle)]\n", ""), ["dudowiej_read_table: not exported"]);
    assert_eq!(found("extern \"C\" fn", "fn"), ["dudowiej_read_table: not exported"]);
    assert_eq!(found("fn dudowiej_row(", "fn dudowiej_rows("), ["dudowiej_row: not exported", "dudowiej_rows: not of crate dudowiej"]);
    let used = "ghost use Rattle.dudowiej.specs.Coded.{GoalTextCoded, AnswerCoded};";
    assert_eq!(found(used, &used.replace("dudowiej.", "other.")), [format!("{}: not of crate dudowiej", used.replace("dudowiej.", "other."))]);
}

/// What is wrong with exported entries beside those of the library, a line each.
fn unlike(entries: &str, exported: &str) -> Vec<String> {
    let (theirs, ours) = (functions(entries), functions(exported));
    let mut wrongs = Vec::new();
    for (name, function) in &theirs {
        match ours.get(name).filter(|function| function.exported) {
            None => wrongs.push(format!("{name}: not exported")),
            Some(our) if our.said != function.said => wrongs.push(format!("{name}: said otherwise")),
            Some(our) if our.body != format!("dudowiej::{name}({})", function.parameters()) => wrongs.push(format!("{name}: another call")),
            Some(_) => (),
        }
    }
    let more = ours.keys().filter(|name| !theirs.contains_key(*name)).copied();
    let used = |text| str::lines(text).filter(|line| line.starts_with("use ") || line.starts_with("ghost use "));
    let other = used(exported).filter(|line| used(entries).all(|one| one != *line));
    wrongs.extend(more.chain(other).map(|what| format!("{what}: not of crate dudowiej")));
    wrongs
}

/// A public function: whether it is exported under its name, what is said of it from its parameters to its body, and the body, without layout.
struct Function {
    exported: bool,
    said: String,
    body: String,
}

impl Function {
    /// The names of its parameters.
    fn parameters(&self) -> String {
        let list = self.said[1..].split(')').next().unwrap_or("");
        list.split(", ").map(|parameter| parameter.split(':').next().unwrap_or("")).collect::<Vec<_>>().join(", ")
    }
}

/// The public functions of a source, each from its head to the bracket at the margin that ends it.
fn functions(text: &str) -> BTreeMap<&str, Function> {
    let blocks = text.split("\n}\n").filter_map(|block| block.rsplit_once("\npub "));
    let parts = blocks.filter_map(|(before, block)| {
        let head = block.strip_prefix("extern \"C\" ");
        let (name, rest) = head.unwrap_or(block).strip_prefix("fn ")?.split_once('(')?;
        let (said, body) = rest.split_once("\n{\n")?;
        let exported = head.is_some() && before.ends_with("\n#[unsafe(no_mangle)]");
        Some((name, Function { exported, said: without_layout(&format!("({said}")), body: without_layout(body) }))
    });
    parts.collect()
}

/// Text with one blank where there are more, and none where brackets over several lines have them.
fn without_layout(text: &str) -> String {
    text.split_whitespace().collect::<Vec<_>>().join(" ").replace("( ", "(").replace(", )", ")")
}
