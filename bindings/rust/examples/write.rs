//! Writes the worked run of document 01: `cargo run --example write > worked.run`

use rugxeni::{Block, Code, Entry, Kind, Operation, RunWriter, Sizes, Transaction};
use std::error::Error;
use std::io::{self, Write};

fn entry(account: u16, amount: u32) -> Entry {
    Entry { account, amount }
}

fn main() -> Result<(), Box<dyn Error>> {
    let mut writer = RunWriter::new();
    writer.header(Sizes {
        instances: 2,
        accounts: 3,
        registers: 1,
        transactions: 2,
    })?;
    writer.balances(&[10, 5, 0])?;
    writer.transaction(&Transaction {
        kind: Kind::Payment,
        debits: vec![entry(0, 4), entry(1, 5)],
        credits: vec![entry(2, 9)],
        operations: vec![],
    })?;
    writer.transaction(&Transaction {
        kind: Kind::Contract,
        debits: vec![entry(2, 6)],
        credits: vec![entry(1, 6)],
        operations: vec![Operation {
            code: Code::Set,
            register: 0,
            value: 7,
        }],
    })?;
    let seen_nothing = [0; 16];
    let mut seen_first = seen_nothing;
    seen_first[1] = 1;
    writer.block(&Block {
        instance: 1,
        sequence: 1,
        rank: 1,
        cut: seen_nothing,
        citations: vec![0],
    })?;
    writer.block(&Block {
        instance: 0,
        sequence: 1,
        rank: 2,
        cut: seen_first,
        citations: vec![0, 1],
    })?;
    io::stdout().write_all(writer.bytes())?;
    Ok(())
}
