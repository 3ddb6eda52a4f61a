//! Small runs by the writer: sound sheets, and blocks of which a ledger accepts most.

use super::Random;
use rugxeni::{
    Block, Code, Entry, Kind, Ledger, Offer, Operation, Refusal, RunWriter, Sizes, Transaction,
};

const CODES: [Code; 5] = [
    Code::Equal,
    Code::AtLeast,
    Code::Set,
    Code::Add,
    Code::Subtract,
];

/// A run; small, so that many can be read.
pub fn written(random: &mut Random) -> Result<Vec<u8>, Refusal> {
    let sizes = Sizes {
        instances: 1 + random.below(4) as u16,
        accounts: 1 + random.below(6) as u16,
        registers: random.below(3) as u16,
        transactions: random.below(5) as u16,
    };
    let mut writer = RunWriter::new();
    writer.header(sizes)?;
    let balances: Vec<u64> = (0..sizes.accounts).map(|_| random.below(20)).collect();
    writer.balances(&balances)?;
    for _ in 0..sizes.transactions {
        writer.transaction(&transaction(random, sizes))?;
    }
    let (mut ledger, _) = Ledger::load(writer.bytes())?;
    let mut rank = 0;
    for _ in 0..random.below(9) {
        let block = block(random, &mut ledger, &mut rank);
        writer.block(&block)?;
    }
    Ok(writer.into_bytes())
}

/// One to four entries with different accounts, as far as there are some, and this sum, which is 4 or more.
fn entries(random: &mut Random, accounts: u16, sum: u32) -> Vec<Entry> {
    let count = 1 + random.below(accounts.min(4).into()) as u16;
    let first = random.below(accounts.into()) as u16;
    let of = |place: u16| Entry {
        account: (first + place) % accounts,
        amount: if place > 0 {
            1
        } else {
            sum + 1 - u32::from(count)
        },
    };
    (0..count).map(of).collect()
}

fn transaction(random: &mut Random, sizes: Sizes) -> Transaction {
    let is_contract = random.below(2) == 1;
    let operations = if is_contract && sizes.registers > 0 {
        random.below(4)
    } else {
        0
    };
    let sum = 4 + random.below(8) as u32;
    Transaction {
        kind: if is_contract {
            Kind::Contract
        } else {
            Kind::Payment
        },
        debits: entries(random, sizes.accounts, sum),
        credits: entries(random, sizes.accounts, sum),
        operations: (0..operations)
            .map(|_| Operation {
                code: *random.pick(&CODES),
                register: random.below(sizes.registers.into()) as u8,
                value: random.below(3) as u32,
            })
            .collect(),
    }
}

/// The block that is due in some instance, which has seen all there is; one time in eight a number of it is any other. The
/// ledger is offered it, citation by citation, so that most are such as it accepts.
fn block(random: &mut Random, ledger: &mut Ledger, rank: &mut u32) -> Block {
    let heights = ledger.heights().to_vec();
    let instance = random.below(heights.len() as u64) as u16;
    let mut cut = [0; 16];
    cut[..heights.len()].copy_from_slice(&heights);
    *rank += 1 + random.below(3) as u32;
    let mut block = Block {
        instance,
        sequence: heights[usize::from(instance)] + 1,
        rank: *rank,
        cut,
        citations: vec![],
    };
    let transactions = ledger.sizes().map_or(0, |sizes| sizes.transactions);
    for transaction in 0..transactions {
        block.citations.push(transaction);
        if ledger.clone().offer_block(&block) != Offer::Accepted {
            block.citations.pop();
        }
    }
    let any = random.below(4) as u16;
    match random.below(32) {
        0 => block.instance = any,
        1 => block.sequence = any,
        2 => block.rank = any.into(),
        3 => block.citations.push(any),
        _ => {}
    }
    ledger.offer_block(&block);
    block
}
