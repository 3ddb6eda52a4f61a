//! One run that fills 65,536 bytes, the most that `readrun` takes: 8 instances
//! with 128 blocks each and, beside them, as many transactions as go in, each
//! with four parts, all of them cited.

use super::random::Random;
use super::{damage, Run};
use crate::engine::format::{CONTRACT, PAYMENT};
use crate::engine::ledger::MOST_BLOCKS;
use crate::engine::{Block, Cut, Head, Operation, Posting, Sheet, Transaction};

const INSTANCES: u16 = 8;
const ACCOUNTS: u16 = 64;
const REGISTERS: u16 = 64;
/// One more, with its four citations, does not go in.
const TRANSACTIONS: u16 = 631;

/// The bytes: a last block, which is refused, fills what is left over.
pub fn bytes() -> Vec<u8> {
    damage::filled(&run())
}

/// The run without that last block. All its blocks are accepted.
pub fn run() -> Run {
    let mut random = Random::new(1);
    let head = Head { m: INSTANCES, a: ACCOUNTS, g: REGISTERS, t: TRANSACTIONS };
    // Enough for most of what is taken from an account, not for all.
    let starts = (0..ACCOUNTS).map(|_| 20 + random.below(100)).collect();
    let transactions = (0..TRANSACTIONS).map(|x| transaction(&mut random, x % 2 == 1)).collect();
    let sheet = Sheet { head, starts, transactions };
    let offers = blocks(&sheet);
    Run { sheet, offers }
}

/// Debits in four instances, one credit; in a contract one operation.
fn transaction(random: &mut Random, contract: bool) -> Transaction {
    let first = random.below(INSTANCES.into()) as u16;
    let mut debit = |place: u16| {
        let row = random.below(u64::from(ACCOUNTS / INSTANCES)) as u16;
        let account = row * INSTANCES + (first + place) % INSTANCES;
        Posting { account, amount: 1 + random.below(9) as u32 }
    };
    let debits: Vec<Posting> = (0..4).map(&mut debit).collect();
    let amount = debits.iter().map(|debit| debit.amount).sum();
    let credits = vec![Posting { account: random.below(ACCOUNTS.into()) as u16, amount }];
    if !contract {
        return Transaction { sort: PAYMENT, debits, credits, operations: Vec::new() };
    }
    // Adds, mostly; now and then a subtraction that may not pass.
    let code = random.pick(&[3, 3, 3, 4]);
    let register = random.below(REGISTERS.into()) as u8;
    let operations = vec![Operation { code, register, value: 1 + random.below(9) as u32 }];
    Transaction { sort: CONTRACT, debits, credits, operations }
}

/// The instances in turn. Each block has seen all that is there, and has the
/// next rank.
fn blocks(sheet: &Sheet) -> Vec<Block> {
    let lists: Vec<Vec<Vec<u16>>> =
        (0..sheet.instances()).map(|instance| citations(sheet, instance)).collect();
    let mut heights: Cut = [0; 16];
    let mut blocks = Vec::new();
    for number in 1..=MOST_BLOCKS as u16 {
        for instance in 0..INSTANCES {
            let own = usize::from(instance);
            let citations = lists[own][usize::from(number) - 1].clone();
            let rank = blocks.len() as u32 + 1;
            blocks.push(Block { instance, number, rank, cut: heights, citations });
            heights[own] += 1;
        }
    }
    blocks
}

/// The transactions with a part in an instance, dealt evenly to its blocks.
fn citations(sheet: &Sheet, instance: usize) -> Vec<Vec<u16>> {
    let here = |number: &u16| !sheet.part(usize::from(*number), instance).is_empty();
    let parts: Vec<u16> = (0..sheet.head.t).filter(here).collect();
    let mut lists = vec![Vec::new(); MOST_BLOCKS];
    for (place, part) in parts.iter().enumerate() {
        lists[place * MOST_BLOCKS / parts.len()].push(*part);
    }
    lists
}
