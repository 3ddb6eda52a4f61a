//! Blocks that are to be turned away: one or several faults put into a block
//! that would have been accepted. A fault may by chance be none (an entry
//! changed to another that is allowed, say), so whoever uses this asks the
//! ledger, never the intention.

use super::random::Random;
use crate::engine::ledger::{MOST_BLOCKS, MOST_CITATIONS};
use crate::engine::{Block, Logs, Sheet};

/// A fault that can be put into a block; its number in the table is named.
#[derive(Clone, Copy, Debug, PartialEq, Eq)]
pub enum Fault {
    /// 8
    Instance,
    /// 17, if some instance is full
    Full,
    /// 9
    Number,
    /// 10
    Rank,
    /// 11
    OwnEntry,
    /// 11, if an entry can fall
    FallingEntry,
    /// 12
    HighEntry,
    /// 13
    Unknown,
    /// 14, if there is a transaction without a part here
    NoPart,
    /// 15, if this instance has cited anything
    CitedBefore,
    /// 15
    CitedTwice,
    /// 9 or 17: an accepted block once more
    Resent,
}

pub const FAULTS: [Fault; 12] = [
    Fault::Instance,
    Fault::Full,
    Fault::Number,
    Fault::Rank,
    Fault::OwnEntry,
    Fault::FallingEntry,
    Fault::HighEntry,
    Fault::Unknown,
    Fault::NoPart,
    Fault::CitedBefore,
    Fault::CitedTwice,
    Fault::Resent,
];

/// One to three faults, mostly one.
pub fn spoil(random: &mut Random, sheet: &Sheet, logs: &Logs, block: Block) -> Block {
    let faults = random.pick(&[1, 1, 1, 1, 2, 3]);
    (0..faults).fold(block, |block, _| {
        let fault = random.pick(&FAULTS);
        put(random, sheet, logs, block, fault)
    })
}

/// A block with one fault put into it.
pub fn put(
    random: &mut Random,
    sheet: &Sheet,
    logs: &Logs,
    mut block: Block,
    fault: Fault,
) -> Block {
    let m = sheet.instances();
    let own = usize::from(block.instance).min(m - 1);
    let last = logs.of(own).last();
    match fault {
        Fault::Instance => {
            let beyond = sheet.head.m + random.below(20) as u16;
            block.instance =
                random.pick(&[sheet.head.m, 16, 65_535, 256, beyond]).max(sheet.head.m);
        }
        Fault::Full => {
            let full: Vec<usize> = (0..m).filter(|i| logs.of(*i).len() == MOST_BLOCKS).collect();
            if !full.is_empty() {
                block.instance = random.pick(&full) as u16;
                block.number = random.pick(&[129, 129, 128, 1, 0, 130]);
                block.cut[usize::from(block.instance)] = block.number.saturating_sub(1);
            }
        }
        Fault::Number => {
            let due = logs.of(own).len() as u16 + 1;
            let other = random.bits() as u16;
            block.number = random.pick(&[0, due - 1, due + 1, 65_535, block.rank as u16, other]);
        }
        Fault::Rank => {
            let last = last.map_or(0, |last| last.rank);
            let below = random.below(u64::from(last) + 1) as u32;
            block.rank = random.pick(&[0, last, last.saturating_sub(1), below]);
        }
        Fault::OwnEntry => {
            let entry = &mut block.cut[own];
            *entry = random.pick(&[entry.wrapping_add(1), entry.wrapping_sub(1), 0, 65_535]);
        }
        Fault::FallingEntry => {
            let entry = random.place(m);
            if let Some(before) = last.filter(|before| before.cut[entry] > 0) {
                block.cut[entry] = random.below(before.cut[entry].into()) as u16;
            }
        }
        Fault::HighEntry => {
            let entry = random.place(m);
            let length = logs.of(entry).len() as u16;
            block.cut[entry] = random.pick(&[length + 1, length + 1, 128, 129, 65_535]);
        }
        Fault::Unknown => {
            let number = random.pick(&[sheet.head.t, sheet.head.t + 1, 1_024, 65_535]);
            cite(random, &mut block, number);
        }
        Fault::NoPart => {
            let elsewhere = |number: &u16| sheet.part(usize::from(*number), own).is_empty();
            let list: Vec<u16> = (0..sheet.head.t).filter(elsewhere).collect();
            if !list.is_empty() {
                let number = random.pick(&list);
                cite(random, &mut block, number);
            }
        }
        Fault::CitedBefore => {
            let list: Vec<u16> = logs.of(own).iter().flat_map(|b| b.citations.clone()).collect();
            if !list.is_empty() {
                let number = random.pick(&list);
                cite(random, &mut block, number);
            }
        }
        Fault::CitedTwice => {
            if !block.citations.is_empty() {
                let number = random.pick(&block.citations);
                cite(random, &mut block, number);
            }
        }
        Fault::Resent => {
            let all: Vec<&Block> = logs.all().collect();
            if !all.is_empty() {
                block = random.pick(&all).clone();
            }
        }
    }
    block
}

/// Puts a citation somewhere into a block that has room, else over another.
fn cite(random: &mut Random, block: &mut Block, number: u16) {
    let place = random.place(block.citations.len() + 1);
    if block.citations.len() < MOST_CITATIONS {
        block.citations.insert(place, number);
    } else {
        block.citations[place % MOST_CITATIONS] = number;
    }
}
