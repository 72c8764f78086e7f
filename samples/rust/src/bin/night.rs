//! A bad card at night in Rust: nobody can send a new one, so the shop saves what it can and runs from that. The shop's table with more rules
//! is written to a card, the card is harmed in some ways, and each time it is said what was saved; then a job is asked.
//!
//! usage: night FILE    (samples/shop.cells; samples/README.md has the numbers of the names)

use dudowiej::{variable, whole, Card, Plan, Record, Refusal, BLOCK_BYTES as BLOCK};
use samples::shared::{rule, said};
use samples::shop::{name_of, with_cells, BOWL, HARD, LARGE, WHITE};
use std::process::ExitCode;

/// What a choice between branches costs in the shop.
const FIGURE: u32 = 2;

/// Rules for as many urgencies more, and the first of these.
const MORE_RULES: i16 = 20;
const FIRST_URGENCY: i16 = 20;

fn main() -> ExitCode {
    with_cells("night", at_night)
}

fn at_night(table: &[u32]) -> Result<(), Refusal> {
    let card = write_card(table)?;
    if card.len() <= 2 * BLOCK {
        println!("the card has no block after block 1");
        return Ok(());
    }
    let mut wiped = card.clone();
    wiped[BLOCK..2 * BLOCK].fill(0);
    let lost = [&card[..BLOCK], &card[2 * BLOCK..]].concat();
    save("as written", &card)?;
    save("block 1 wiped", &wiped)?;
    save("block 1 lost", &lost)?;
    save("the last byte lost", &card[..card.len() - 1])?;
    save("only block 0 left", &card[..BLOCK])?;
    save("block 0 lost", &card[BLOCK..])?;
    if let Err(refusal) = Card::salvage_in(&wiped, &mut []) {
        println!("no room for a bad block: {}", said(&refusal));
    }
    Ok(())
}

/// The shop's rules, and for each of some urgencies that a large white bowl gets a hard firing.
fn write_card(table: &[u32]) -> Result<Vec<u8>, Refusal> {
    let mut shop = Record::work_out(table, FIGURE)?;
    for urgency in FIRST_URGENCY..FIRST_URGENCY + MORE_RULES {
        if let Err(refusal) = shop.append(&[whole(urgency), WHITE, BOWL, LARGE, HARD]) {
            println!("appended: {}", said(&refusal));
            break;
        }
    }
    let plan = Plan::build(&shop).plan;
    let card = shop.write_file(&plan)?;
    let (rules, cells, blocks) = (shop.rows(), shop.table().len(), card.len() / BLOCK);
    println!("written: {rules} rules, {cells} cells of table and {} of plan, {blocks} blocks", plan.cells().len());
    Ok(card)
}

/// Prints what was saved of the card, and runs the shop from it.
fn save(what: &str, card: &[u8]) -> Result<(), Refusal> {
    let saved = match Card::salvage(card) {
        Err(refusal) => {
            println!("{what}: {}", said(&refusal));
            return Ok(());
        }
        Ok(saved) => saved,
    };
    println!("{what}: {} of {} rules kept", saved.kept, saved.kept + saved.dropped);
    let (plan, cells) = (if saved.plan_kept { "kept" } else { "new" }, saved.card.plan.cells().len());
    println!("  the plan is {plan}, {} cells of table and {cells} of plan", saved.card.table.len());
    let bad: Vec<String> = saved.bad_blocks.iter().map(usize::to_string).collect();
    println!("  bad blocks: {}", if bad.is_empty() { "none".to_string() } else { bad.join(" ") });
    let record = saved.card.work_out(0)?;
    for urgency in [FIRST_URGENCY, FIRST_URGENCY + MORE_RULES - 1] {
        ask(&record, &saved.card.plan, urgency);
    }
    Ok(())
}

/// Which rules fit a large white bowl of this urgency?
fn ask(record: &Record, plan: &Plan, urgency: i16) {
    match record.run(plan, &[whole(urgency), WHITE, BOWL, LARGE, variable(0)]) {
        Err(refusal) => println!("job: {}", said(&refusal)),
        Ok(hits) => {
            println!("  urgency {urgency}:");
            hits.rows().for_each(|row| println!("    {}", rule(record, row, name_of)));
        }
    }
}
