//! Every example of 01 ("On both sides", "Plans", "Errors that look right"), by each engine: the exported functions, the walk and the definitions.

mod notation;

use dudowiej_bench::compare::repeats;
use dudowiej_bench::engine::{Definition, Engine, Exported, Plain};
use dudowiej_bench::make::{big, records};
use dudowiej_bench::model::least::{least, least_by_search, Measure};
use dudowiej_bench::model::listing::listing;
use dudowiej_bench::model::plan::grow;
use dudowiej_bench::model::read;
use dudowiej_bench::model::record::Record;
use notation::{goal, name, plan, table};

const LONG: u64 = 4;
const SHORT: u64 = 5;
const CELL: u64 = 6;
const FRESH: u64 = 7;
const EXTRA: u64 = 9;
const EDGES: u64 = 13;
const ROOM: u64 = 16;

const FIGURE: u64 = 20;
const SAME: u64 = 24;

const TABLE: u64 = 1;
const PLAN: u64 = 2;
const ROOM_INPUT: u64 = 4;
const FIGURE_INPUT: u64 = 6;

fn engines() -> [&'static dyn Engine; 3] {
    [&Exported, &Plain, &Definition]
}

fn refused(number: u64, input: u64, place: u64) -> u64 {
    number | input << 8 | place << 16
}

fn answered(first: u64, second: u64) -> u64 {
    first << 16 | second << 32
}

/// The table worked out with a figure.
fn record(engine: &dyn Engine, table: &[u32], figure: u32) -> Box<Record> {
    let mut record = records::empty();
    assert_eq!(engine.work_out(table, figure, &mut record), engine.read_table(table));
    assert_eq!(record, records::worked_out(table, figure));
    record
}

/// Builds the plan in a room larger than it is; its cells and its cost.
fn built_from(engine: &dyn Engine, record: &Record) -> (Vec<u32>, u64) {
    let mut room = vec![7; 7000];
    let answer = engine.build_plan(record, &mut room);
    let cells = (answer >> 16 & 0xffff) as usize;
    assert_eq!(answer & 0xffff, 0);
    assert!(room[cells..].iter().all(|&cell| cell == 7));
    room.truncate(cells);
    (room, answer >> 32)
}

/// The plan with no figure, and its branches. Of 01's examples the plan is 01's.
fn built(engine: &dyn Engine, table: &[u32]) -> (Vec<u32>, u64) {
    let record = record(engine, table, 0);
    let cells = built_from(engine, &record).0;
    let checked = engine.check_plan(&record, &cells);
    assert_eq!(checked & 0xff, 0);
    (cells, checked >> 16)
}

/// The table's least number of branches, and its plan.
fn builds(rows: &str, branches: u64, written: &str) {
    for engine in engines() {
        assert_eq!(built(engine, &table(rows)), (plan(written), branches), "{rows}");
    }
    let read = read::read_table(&table(rows)).unwrap();
    assert_eq!(least(&read).write(), plan(written), "{rows}");
}

fn costs(rows: &str, branches: u64) {
    for engine in engines() {
        assert_eq!(built(engine, &table(rows)).1, branches, "{rows}");
    }
    let read = read::read_table(&table(rows)).unwrap();
    assert_eq!(least_by_search(&read, Measure::Branches), least(&read));
}

/// W-204: the plan by the work with a figure, and its cost.
fn works(rows: &str, figure: u32, cost: u64, written: &str) {
    for engine in engines() {
        assert_eq!(built_from(engine, &record(engine, &table(rows), figure)), (plan(written), cost), "{rows} {figure}");
    }
}

#[test]
fn work() {
    const P1: &str = "(a,b,c) (a,b,d) (a,c,c) (b,a,c)";
    const PLAIN: &str = "0 2 a 0 2 b 0 2 c 1 d 1 c 0 1 c 1 b 0 1 a 0 1 c 1";
    const WIDE: &str = "0 2 a 1 3 c 0 1 b 1 d 0 1 b 1 c 0 1 c 1 b 0 1 a 0 1 c 1";
    works("(v0)", 15, 0, "0 1 v0 1");
    works("(v0) (v0)", 15, 15, "0 2 v0 1 v0 1");
    works("(f1(a),b)", 3, 4, "0 1 f1 0 1 a 0 1 b 1");
    works(P1, 0, 9, PLAIN);
    works(P1, 1, 12, PLAIN);
    works(P1, 2, 14, WIDE);
    works(P1, 15, 40, WIDE);
    for engine in engines() {
        let mut untouched = records::empty();
        assert_eq!(engine.work_out(&[], 16, &mut untouched), refused(FIGURE, FIGURE_INPUT, 0));
        assert_eq!(engine.work_out(&table(P1), u32::MAX, &mut untouched), refused(FIGURE, FIGURE_INPUT, 0));
        assert_eq!(untouched, records::empty());
    }
}

/// Runs the least plan on the goal.
fn runs(rows: &str, asked: &str, hits: &[u8], tried: u64) {
    for engine in engines() {
        let record = record(engine, &table(rows), 0);
        let cells = built_from(engine, &record).0;
        let mut room = [7; 64];
        assert_eq!(engine.run_plan(&record, &cells, &goal(asked), &mut room), answered(hits.len() as u64, tried), "{rows} {asked}");
        assert_eq!(&room[..hits.len()], hits);
        assert!(room[hits.len()..].iter().all(|&byte| byte == 7));
    }
}

fn reads(cells: &[u32], answer: u64) {
    for engine in engines() {
        assert_eq!(engine.read_table(cells), answer, "{cells:?}");
    }
}

const G_ROWS: &str = "(g,a,1) (g,a,2) (g,a,3) (g,1,b) (g,2,b) (g,3,b)";

#[test]
fn p1() {
    builds("(a,b,c) (a,b,d) (a,c,c) (b,a,c)", 9, "0 2 a 0 2 b 0 2 c 1 d 1 c 0 1 c 1 b 0 1 a 0 1 c 1");
}

#[test]
fn p2() {
    let rows = "(a,b) (b,c) (a,d)";
    costs(rows, 6);
    for engine in engines() {
        assert_eq!(built(engine, &table(rows)).0[0], 0);
    }
    runs(rows, "(a,v0)", &[0, 2], 5);
    runs(rows, "(v0,v1)", &[0, 1, 2], 6);
}

#[test]
fn p3() {
    costs(G_ROWS, 11);
    for engine in engines() {
        let record = record(engine, &table(G_ROWS), 0);
        assert_eq!(engine.check_plan(&record, &plan("0 2")), refused(EDGES, PLAN, 1));
        let mut split = plan("0 2 g");
        split.extend(&built_from(engine, &record).0[3..]);
        assert_eq!(engine.check_plan(&record, &split), refused(EDGES, PLAN, 1));
    }
}

#[test]
fn p4_p5_p6() {
    builds("(v0)", 1, "0 1 v0 1");
    reads(&table("(a) (a)"), refused(SAME, TABLE, 3));
    builds("(v0) (v0)", 2, "0 2 v0 1 v0 1");
}

#[test]
fn p7() {
    runs("(a,b) (a,a)", "(v0,v0)", &[1], 3);
}

#[test]
fn p8() {
    builds("(f1(a)) (f1(b)) (g)", 4, "0 2 f1 0 2 a 1 b 1 g 1");
    runs("(f1(a)) (f1(b)) (g)", "(g)", &[2], 2);
}

#[test]
fn p9_p10() {
    // 02, W-209: a row may repeat a variable.
    reads(&[2, 1, 0, 0], answered(2, 1));
    builds("(v0,v0)", 2, "0 1 v0 0 1 v0 1");
    reads(&[1, 1, 1], refused(FRESH, TABLE, 2));
    reads(&[2, 1, name('a', 0)], refused(SHORT, TABLE, 3));
}

/// The table of 02's W-209: least costs with figures 0 and 3, plans, runs and replies.
#[test]
fn the_same_enamel_twice() {
    for case in &repeats::COSTS {
        costs(case.rows, case.branches as u64);
        case.plan.iter().for_each(|written| builds(case.rows, case.branches as u64, written));
        for (figure, cost) in repeats::FIGURES.into_iter().zip(case.work) {
            for engine in engines() {
                assert_eq!(built_from(engine, &record(engine, &table(case.rows), figure)).1, cost as u64, "{} {figure}", case.rows);
            }
        }
    }
    for (rows, asked, hits, tried, said) in repeats::RUNS {
        runs(rows, asked, hits, tried as u64);
        let replies: Vec<Vec<u32>> = said.split_whitespace().map(goal).collect();
        let cells = replies.concat();
        for engine in engines() {
            let mut room = vec![7; cells.len()];
            let record = record(engine, &table(rows), 0);
            let answer = engine.replies(&record, &built_from(engine, &record).0, &goal(asked), &mut room);
            assert_eq!((answer, room), (answered(replies.len() as u64, cells.len() as u64), cells.clone()), "{rows} {asked}");
        }
    }
}

#[test]
fn long_replies() {
    let (table, [largest, longer]) = repeats::at_the_bound();
    let (millions, goal) = big::million(64);
    for engine in engines() {
        let says = |table: &[u32], goal: &[u32], room: usize| {
            let record = record(engine, table, 0);
            let mut lent = vec![7; room];
            let answer = engine.replies(&record, &built_from(engine, &record).0, goal, &mut lent);
            assert!(answer & 0xff == 0 || lent.iter().all(|&cell| cell == 7));
            answer
        };
        assert_eq!(says(&table, &largest, 1024), answered(1, 1024));
        assert_eq!(says(&table, &largest, 1023), refused(ROOM, ROOM_INPUT, 1024));
        for room in [0, 1023, 1024, 70_000] {
            assert_eq!(says(&table, &longer, room), repeats::BIG);
            assert_eq!(says(&millions, &goal, room), repeats::BIG);
        }
    }
}

#[test]
fn long_rows() {
    let nested = |times| {
        let mut cells = vec![1, 1];
        cells.extend(std::iter::repeat_n(name('f', 1), times));
        cells.push(name('a', 0));
        cells
    };
    reads(&nested(31), answered(1, 1));
    reads(&nested(32), refused(LONG, TABLE, 34));
}

#[test]
fn five_arguments() {
    reads(&[1, 1, name('f', 4) + (1 << 16)], refused(CELL, TABLE, 2));
}

#[test]
fn four_rows_cost_13_and_not_14() {
    // 01's six rows are refused: the second and the sixth stand twice (02, W-208).
    reads(&table("(a,x,x,x) (a,x,x,x) (a,y,y,y) (b,y,y,y) (b,z,z,z) (b,z,z,z)"), refused(SAME, TABLE, 6));
    let rows = "(a,x,x,x) (a,y,y,y) (b,y,y,y) (b,z,z,z)";
    costs(rows, 13);
    // The first place has two runs and leads to 14, the second has three and leads to 13.
    let read = read::read_table(&table(rows)).unwrap();
    for (first, runs, cost) in [(0, 2, 14), (1, 3, 13)] {
        let mut top = true;
        let plan = grow(&read, |open, rows| {
            let place = if top { first } else { (0..open.places(rows)).min_by_key(|&p| open.runs(rows, p)).unwrap() };
            top = false;
            place
        });
        assert_eq!((plan.at(plan.top()).count(), plan.branches.len()), (runs, cost));
        for engine in engines() {
            assert_eq!(engine.check_plan(&record(engine, &table(rows), 0), &plan.write()), answered(cost as u64, 0));
        }
    }
}

#[test]
fn doubled_rows() {
    let (a, b, no_cell) = (name('a', 0), name('b', 0), 3 << 30);
    reads(&[1, 3, a, b, a], refused(SAME, TABLE, 4));
    // Before anything of the next row, and before EXTRA.
    for after in [&[1, 3, a, a, no_cell][..], &[1, 3, a, a], &[1, 2, a, a, a]] {
        reads(after, refused(SAME, TABLE, 3));
    }
    // A row that is not complete, a cell that is of no row, and rows with a variable.
    reads(&[2, 2, a, b, a, no_cell], refused(CELL, TABLE, 5));
    reads(&[1, 2, a, b, a], refused(EXTRA, TABLE, 4));
    reads(&[1, 2, 0, 0], answered(1, 2));
}

#[test]
fn the_listing() {
    let cells: [u32; 6] = [2, 2, 1073741825, 1073741826, 1073741825, 2147483657];
    let bytes: Vec<u8> = cells.iter().flat_map(|cell| cell.to_le_bytes()).collect();
    assert_eq!(listing(&bytes), "rows 2 width 2 edges 3\n0 0 n1/0 0-1\n1 0 n2/0 0-0\n1 0 i9 1-1\n");
    assert_eq!(listing(&[]), "refused 1 at 0\n");
    assert_eq!(listing(&[0; 7]), "refused 1 at 0\n");
    assert_eq!(listing(&[0; 8204]), "refused 1 at 0\n");
    assert_eq!(listing(&bytes[..12]), "refused 5 at 3\n");
}

#[test]
fn the_shop_of_the_samples() {
    assert_eq!(listing(include_bytes!("../../samples/shop.cells")), include_str!("../../samples/shop.listing"));
}
