//! 01's notation as cells, and a table with its least plan.

// Each file of tests uses some of these.
#![allow(dead_code)]

use dudowiej::{name, variable, whole, Input, Names, Plan, Reason, Record, Refusal};

/// A table that was read from facts, worked out with figure 0, and its plan.
pub struct Shop {
    pub record: Record,
    pub names: Names,
    pub plan: Plan,
}

pub fn shop(facts: &str) -> Shop {
    let (record, names) = Record::from_text(facts, 0).unwrap();
    let plan = Plan::build(&record).plan;
    Shop { record, names, plan }
}

impl Shop {
    /// Words as cells: a word is the name, `f/1` the name with one argument, `v0` a variable, `i9` a whole number, and digits are a plain
    /// number. A name that the facts do not have takes the number after theirs.
    pub fn cells(&self, words: &str) -> Vec<u32> {
        words.split_whitespace().map(|word| self.cell(word)).collect()
    }

    fn cell(&self, word: &str) -> u32 {
        let (first, rest) = word.split_at(1);
        if let Ok(number) = word.parse() {
            return number;
        }
        match (first, rest.parse::<i16>()) {
            ("v", Ok(number)) => variable(number as u16),
            ("i", Ok(value)) => whole(value),
            _ => {
                let (word, arguments) = word.split_once('/').unwrap_or((word, "0"));
                let number = self.names.number(word).unwrap_or(self.names.len() as u16);
                name(number, arguments.parse().unwrap())
            }
        }
    }

    /// The rows that fit a goal, and the branches tried.
    pub fn run(&self, goal: &str) -> (Vec<usize>, usize) {
        let hits = self.record.run(&self.plan, &self.cells(goal)).unwrap();
        (hits.rows().collect(), hits.tried())
    }

    /// What the rows say to a goal.
    pub fn says(&self, goal: &str) -> Vec<String> {
        let replies = self.record.replies(&self.plan, &self.cells(goal)).unwrap();
        replies.iter().map(|reply| self.names.show(reply)).collect()
    }
}

pub fn refused<T: std::fmt::Debug>(answer: Result<T, Refusal>) -> (Reason, Input, usize) {
    let refusal = answer.unwrap_err();
    (refusal.reason, refusal.input, refusal.place)
}

/// A block's checks set right.
pub fn mended(mut block: Vec<u8>) -> Vec<u8> {
    let (mut first, mut second) = (1u32, 0u32);
    for word in block[..504].chunks_exact(4) {
        first = first.wrapping_add(u32::from_le_bytes(word.try_into().unwrap()));
        second = second.wrapping_add(first);
    }
    block[504..508].copy_from_slice(&first.to_le_bytes());
    block[508..].copy_from_slice(&second.to_le_bytes());
    block
}

/// A block with one of its words changed, and its checks right.
pub fn with_word(block: &[u8], word: usize, value: u32) -> Vec<u8> {
    let mut block = block.to_vec();
    block[4 * word..4 * word + 4].copy_from_slice(&value.to_le_bytes());
    mended(block)
}
