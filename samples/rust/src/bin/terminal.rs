//! A shop's table and plan on a card in Rust: the shop writes them as one file, the terminal reads it, works the table out with a figure of
//! its own and asks for a job. Then the card is spoiled in some ways, and the terminal says so.
//!
//! usage: terminal FILE    (samples/shop.cells; samples/README.md has the numbers of the names)

use dudowiej::{variable, whole, Card, Plan, Record, Refusal, BLOCK_BYTES as BLOCK};
use samples::shared::{rule, said};
use samples::shop::{name_of, with_cells, BLUE, RING};
use std::process::ExitCode;

/// What a choice between branches costs: to the shop, which builds the plan; to the terminal, which only runs it, nothing.
const SHOP_FIGURE: u32 = 2;
const TERMINAL_FIGURE: u32 = 0;

/// Blue rings that wait: which firing?
const JOB: [u32; 4] = [whole(9), BLUE, RING, variable(0)];

/// A word's bytes, and where word 5 of block 1 stands.
const WORD: usize = 4;
const SPOILED: usize = BLOCK + 5 * WORD;

fn main() -> ExitCode {
    with_cells("terminal", by_card)
}

fn by_card(table: &[u32]) -> Result<(), Refusal> {
    let record = Record::work_out(table, SHOP_FIGURE)?;
    let plan = Plan::build(&record).plan;
    let card = record.write_file(&plan)?;
    let blocks = card.len() / BLOCK;
    println!("written: {} cells of table and {} of plan, {} bytes, {blocks} blocks", table.len(), plan.cells().len(), card.len());
    for block in card.chunks(BLOCK) {
        println!("  block {}: checks {} {}", word_at(block, 0), word_at(block, 126 * WORD), word_at(block, 127 * WORD));
    }

    match Card::read(&card) {
        Err(refusal) => println!("read: {}", said(&refusal)),
        Ok(read) => {
            let same = read.table == table && read.plan == plan;
            println!("read: {} cells of table and {} of plan, as written: {same}", read.table.len(), read.plan.cells().len());
            ask(&read)?;
        }
    }
    if card.len() > BLOCK {
        spoil(&card);
    }
    if let Err(refusal) = record.write_file_in(&plan, &mut vec![0; card.len() - 1]) {
        println!("a byte of room too few: {}", said(&refusal));
    }
    Ok(())
}

fn word_at(bytes: &[u8], place: usize) -> u32 {
    u32::from_le_bytes(bytes[place..place + WORD].try_into().expect("four bytes"))
}

/// The rules that fit the job, by what was on the card.
fn ask(card: &Card) -> Result<(), Refusal> {
    let terminal = card.work_out(TERMINAL_FIGURE)?;
    match terminal.run(&card.plan, &JOB) {
        Err(refusal) => println!("job: {}", said(&refusal)),
        Ok(hits) => hits.rows().for_each(|row| println!("  {}", rule(&terminal, row, name_of))),
    }
    Ok(())
}

/// A card of two blocks or more, spoiled.
fn spoil(card: &[u8]) {
    println!("word 5 of block 1 was {}", word_at(card, SPOILED));
    let mut changed = card.to_vec();
    changed[SPOILED..SPOILED + WORD].fill(0xff);
    tell("a word changed", &changed);

    let mut exchanged = card.to_vec();
    exchanged[SPOILED..SPOILED + 2 * WORD].rotate_left(WORD);
    tell("two words exchanged", &exchanged);

    let mut exchanged = card.to_vec();
    exchanged[..2 * BLOCK].rotate_left(BLOCK);
    tell("two blocks exchanged", &exchanged);
    tell("the last block lost", &card[..card.len() - BLOCK]);
    tell("a byte lost", &card[..card.len() - 1]);
}

fn tell(what: &str, file: &[u8]) {
    match Card::read(file) {
        Err(refusal) => println!("{what}: {}", said(&refusal)),
        Ok(_) => println!("{what}: read"),
    }
}
