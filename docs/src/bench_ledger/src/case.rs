// The largest run: every limit of the head, every instance full, every part of every transaction cited once.

use crosscheck::engine::format::{CONTRACT, PAYMENT};
use crosscheck::engine::{write, Block, Head, Operation, Posting, Sheet, Transaction};
use crosscheck::generate::random::Random;

pub const INSTANCES: u16 = 16;
pub const BLOCKS: u16 = 128;
const ACCOUNTS: u16 = 1024;
const REGISTERS: u16 = 64;
const TRANSACTIONS: u16 = 1024;
const MOST_CITATIONS: usize = 32;

// Where an instance's citations stand among its blocks: what a citation costs depends on what is in its view.
#[derive(Clone, Copy)]
pub enum Spread {
    First,
    Even,
    Last,
}

// A sheet, its blocks in the order in which they are offered, and the same as a run's bytes.
pub struct Case {
    pub sheet: Sheet,
    pub blocks: Vec<Block>,
    pub run: Vec<u8>,
}

impl Case {
    pub fn new(seed: u64, spread: Spread) -> Case {
        let mut random = Random::new(seed);
        let head = Head {
            m: INSTANCES,
            a: ACCOUNTS,
            g: REGISTERS,
            t: TRANSACTIONS,
        };
        let sheet = Sheet {
            head,
            // Enough for most of what is taken from an account, not for all.
            starts: (0..ACCOUNTS).map(|_| 100 + random.below(200)).collect(),
            transactions: (0..TRANSACTIONS)
                .map(|x| transaction(&mut random, x % 2 == 1))
                .collect(),
        };
        let blocks = blocks(&mut random, &sheet, spread);
        let mut run = write::sheet(&sheet).concat();
        for block in &blocks {
            run.extend(write::block(block, INSTANCES));
        }
        Case { sheet, blocks, run }
    }

    pub fn citations(&self) -> usize {
        self.blocks.iter().map(|block| block.citations.len()).sum()
    }
}

// Four debits in four instances, so four parts, the most there can be; two credits; in a contract up to eight operations.
fn transaction(random: &mut Random, contract: bool) -> Transaction {
    let mut debits: Vec<Posting> = Vec::new();
    while debits.len() < 4 {
        let account = random.below(ACCOUNTS.into()) as u16;
        if debits
            .iter()
            .all(|debit| debit.account % INSTANCES != account % INSTANCES)
        {
            let amount = 1 + random.below(100) as u32;
            debits.push(Posting { account, amount });
        }
    }
    let total: u32 = debits.iter().map(|debit| debit.amount).sum();
    let first = random.below(ACCOUNTS.into()) as u16;
    let second = (first + 1 + random.below(u64::from(ACCOUNTS) - 1) as u16) % ACCOUNTS;
    let credits = [(first, total / 2), (second, total - total / 2)]
        .map(|(account, amount)| Posting { account, amount });
    let operations = if contract {
        (0..random.below(9)).map(|_| operation(random)).collect()
    } else {
        Vec::new()
    };
    Transaction {
        sort: if contract { CONTRACT } else { PAYMENT },
        debits,
        credits: credits.to_vec(),
        operations,
    }
}

// Of these nearly all pass.
fn operation(random: &mut Random) -> Operation {
    let register = random.below(REGISTERS.into()) as u8;
    let (code, value) = match random.below(40) {
        0 => (4, 1 + random.below(3) as u32),
        1..8 => (1, 0),
        8..16 => (2, 10 + random.below(90) as u32),
        _ => (3, random.below(10) as u32),
    };
    Operation {
        code,
        register,
        value,
    }
}

// All instances in turn, each round in another order. A block has seen all that is there, or up to two blocks less of an
// instance, and has a rank above those that it has seen.
fn blocks(random: &mut Random, sheet: &Sheet, spread: Spread) -> Vec<Block> {
    let m = usize::from(INSTANCES);
    let lists: Vec<Vec<Vec<u16>>> = (0..m)
        .map(|i| citations(random, sheet, i, spread))
        .collect();
    let mut ranks: Vec<Vec<u32>> = vec![Vec::new(); m];
    let mut cuts = vec![[0u16; 16]; m];
    let mut blocks = Vec::new();
    for _ in 0..BLOCKS {
        for own in shuffled(random, m) {
            let cut = &mut cuts[own];
            for (j, entry) in cut.iter_mut().enumerate() {
                let there = ranks[j].len() as u16;
                let lag = if j == own { 0 } else { random.below(3) as u16 };
                *entry = there.saturating_sub(lag).max(*entry);
            }
            let seen = (0..m).filter_map(|j| ranks[j][..cut[j].into()].last());
            let rank = seen.max().copied().unwrap_or(0) + 1 + random.below(3) as u32;
            let n = ranks[own].len();
            ranks[own].push(rank);
            blocks.push(Block {
                instance: own as u16,
                number: n as u16 + 1,
                rank,
                cut: *cut,
                citations: lists[own][n].clone(),
            });
        }
    }
    blocks
}

fn shuffled(random: &mut Random, count: usize) -> Vec<usize> {
    let mut order: Vec<usize> = (0..count).collect();
    for place in (1..count).rev() {
        order.swap(place, random.place(place + 1));
    }
    order
}

// An instance's parts, in sheet order but for some, dealt to its blocks.
fn citations(random: &mut Random, sheet: &Sheet, instance: usize, spread: Spread) -> Vec<Vec<u16>> {
    let mut parts: Vec<u16> = (0..TRANSACTIONS)
        .filter(|x| !sheet.part(usize::from(*x), instance).is_empty())
        .collect();
    for place in 1..parts.len() {
        if random.chance(20) {
            parts.swap(place - 1, place);
        }
    }
    let blocks = usize::from(BLOCKS);
    let full = parts.len().div_ceil(MOST_CITATIONS);
    let mut lists = vec![Vec::new(); blocks];
    for (place, part) in parts.iter().enumerate() {
        let block = match spread {
            Spread::First => place / MOST_CITATIONS,
            Spread::Even => place * blocks / parts.len(),
            Spread::Last => blocks - full + place / MOST_CITATIONS,
        };
        lists[block].push(*part);
    }
    lists
}
