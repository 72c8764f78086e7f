//! Times, side by side in one run. Each repeat times a batch of the exported side and then one of the independent side, so that a slower moment of
//! the machine falls on both; a ratio is of two neighbouring batches.

use std::time::{Duration, Instant};

use crate::branches::million;
use crate::cases::{Case, Measure, Work, KINDS, ROWS};

const REPEATS: usize = 101;
/// A batch lasts at least so long: short, so that few batches are interrupted and a median passes over those.
const BATCH: Duration = Duration::from_micros(200);

/// Nanoseconds for a call and the ratio's quartiles.
struct Figures {
    name: String,
    exported: f64,
    independent: f64,
    ratio: [f64; 3],
}

/// Measures every case and prints it.
pub fn time() {
    println!("Each figure: the median of {REPEATS} repeats. A ratio is exported / independent: median (first and third quartile).");
    for (name, kind) in KINDS {
        let cases = ROWS.map(|rows| Case::new(kind, rows));
        let figures = cases.each_ref().map(|case| case.measures().into_iter().map(figures).collect::<Vec<_>>());
        let largest = ROWS.len() - 1;
        println!("\n{name}: {}", cases[largest].title());
        print_lines(&figures[largest]);
        println!("\n{name}, growth: exported ns and ratio at {ROWS:?} rows");
        for (index, line) in figures[largest].iter().enumerate() {
            let times = figures.each_ref().map(|lines| format!("{:>10.0}", lines[index].exported)).concat();
            let ratios = figures.each_ref().map(|lines| format!("{:>7.2}", lines[index].ratio[1])).concat();
            println!("{:<34}{times}   {ratios}", line.name);
        }
    }
    time_million();
}

/// A run and its replies, which are BIG, where every common instance has over a million cells.
pub fn time_million() {
    let case = million();
    println!("\ncommon instances of over a million cells: {}", case.title());
    print_lines(&case.answers().into_iter().map(figures).collect::<Vec<_>>());
}

fn print_lines(lines: &[Figures]) {
    println!("{:<34}{:>12}{:>13}   {:<22}", "", "exported ns", "independent", "ratio");
    for line in lines {
        let [first, median, third] = line.ratio;
        println!("{:<34}{:>12.0}{:>13.0}   {median:.2} ({first:.2} {third:.2})", line.name, line.exported, line.independent);
    }
}

fn figures(mut measure: Measure) -> Figures {
    let mut batches = Vec::new();
    measure.figures(|work| {
        batches.push(batch(work));
        0.0
    });
    let (mut exported, mut independent, mut ratios) = (Vec::new(), Vec::new(), Vec::new());
    for _ in 0..REPEATS {
        let mut batches = batches.iter();
        let (ours, theirs) = measure.figures(|work| nanoseconds(work, *batches.next().expect("one for each work")));
        exported.push(ours);
        independent.push(theirs);
        ratios.push(ours / theirs);
    }
    Figures { name: measure.name, exported: quartiles(exported)[1], independent: quartiles(independent)[1], ratio: quartiles(ratios) }
}

/// How often the work is done in a batch; it is done a few times on the way.
fn batch(work: &mut Work) -> usize {
    let mut times = 1;
    while nanoseconds(work, times) * (times as f64) < BATCH.as_nanos() as f64 {
        times *= 2;
    }
    times
}

/// Nanoseconds for the work, done so often.
fn nanoseconds(work: &mut Work, times: usize) -> f64 {
    let start = Instant::now();
    for _ in 0..times {
        (work.work)();
    }
    start.elapsed().as_nanos() as f64 / times as f64
}

/// First quartile, median, third quartile.
fn quartiles(mut figures: Vec<f64>) -> [f64; 3] {
    figures.sort_by(f64::total_cmp);
    [1, 2, 3].map(|quarter| figures[(figures.len() - 1) * quarter / 4])
}
