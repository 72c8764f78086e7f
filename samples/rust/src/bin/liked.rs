//! Which columns to look at first, in Rust: that is asked of last month's jobs themselves. For three shops with the same rules, each with its own
//! jobs, the plan is built by which these try the fewest branches, and it is said which columns it looks at first.
//!
//! usage: liked FILE    (samples/shop.cells; samples/README.md has the numbers of the names)

use dudowiej::{variable, whole, Goals, Plan, Record, Refusal};
use samples::shared::said;
use samples::shop::{with_cells, BLACK, BLUE, BOWL, BROOCH, LARGE, RED, RING, WHITE};
use std::process::ExitCode;

/// What a choice between branches costs here.
const FIGURE: u32 = 0;

/// A job, and how often it was asked last month.
type Asked = (&'static [u32], usize);

/// Where enamel and piece are known. The last job has a column too few: it is refused, and adds nothing.
const BY_PIECE: [Asked; 6] = [
    (&[variable(0), RED, RING, variable(1)], 20),
    (&[variable(0), BLUE, RING, variable(1)], 15),
    (&[variable(0), WHITE, BOWL, LARGE, variable(1)], 8),
    (&[variable(0), BLACK, BROOCH, variable(1)], 5),
    (&[whole(9), BLUE, BOWL, LARGE, variable(0)], 4),
    (&[whole(9), BLUE, RING], 2),
];

/// Where the urgency is.
const BY_URGENCY: [Asked; 3] = [
    (&[whole(9), variable(0), variable(1), variable(2)], 12),
    (&[whole(10), variable(0), variable(1), variable(2)], 9),
    (&[whole(1), variable(0), RING, variable(1)], 2),
];

fn main() -> ExitCode {
    with_cells("liked", liked)
}

fn liked(table: &[u32]) -> Result<(), Refusal> {
    let record = Record::work_out(table, FIGURE)?;
    println!("worked out: {} rules", record.rows());
    let shops: [(&str, &[Asked]); 3] =
        [("enamel and piece are known", &BY_PIECE), ("the urgency is known", &BY_URGENCY), ("nothing was asked", &[])];
    for (shop, asked) in shops {
        tell(&record, shop, &gathered(asked))?;
    }
    Ok(())
}

/// A shop's jobs, each as often as it was asked.
fn gathered(asked: &[Asked]) -> Goals {
    asked.iter().flat_map(|&(job, times)| std::iter::repeat_n(job, times)).collect()
}

/// Prints what a shop's jobs like best, and that a cell too few for it is refused.
fn tell(record: &Record, shop: &str, jobs: &Goals) -> Result<(), Refusal> {
    let liked = Plan::build_liked(record, jobs);
    let tried = &liked.tried;
    let first: String = tried.columns.iter().map(|column| format!(" {column}")).collect();
    println!("\n{shop}: {} jobs", jobs.len());
    println!("  columns to look at first:{}", if first.is_empty() { " none, the plain plan" } else { &first });
    println!("  tried: {} by this plan, {} by the plain one", tried.best, tried.plain);
    println!("  cost {}, {} cells", liked.cost, liked.plan.cells().len());
    look_again(record, jobs, &tried.columns, &liked.plan)?;
    let mut short_room = vec![0; liked.plan.cells().len() - 1];
    println!("  a cell too few: {}", said(&Plan::build_liked_in(record, jobs, &mut short_room).unwrap_err()));
    Ok(())
}

/// The plan is the one for these columns, and the jobs, run by it, try as many branches as was said.
fn look_again(record: &Record, jobs: &Goals, columns: &[u32], plan: &Plan) -> Result<(), Refusal> {
    let other = Plan::build_for(record, columns)?.plan;
    let answers = record.run_jobs(plan, jobs)?;
    let tried: usize = answers.iter().flatten().map(|hits| hits.tried()).sum();
    let turned_away = answers.iter().filter(|answer| answer.is_err()).count();
    let same = if other == *plan { "the same plan" } else { "another plan" };
    println!("  built for these columns: {same}; run by it: {tried} tried, {turned_away} refused");
    Ok(())
}
