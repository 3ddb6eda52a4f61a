//! Named runs, each with the text that the scope paper gives for it, requests
//! 04 and 05 included.
//!
//! The texts are worked out by hand from the papers, not by the engine; the
//! engine is checked against them, and so may be any other program.
//!
//! * [`edges`] — "Edges", and the worked run ended at every byte;
//! * [`rules`] — places where a rule of the ledger is easily mistaken;
//! * [`empty`], [`empty_views`] — request 04: instances without a block;
//! * [`share`] — request 05: the share, rounded to the nearest;
//! * [`slips`] — refusals 1 to 7;
//! * [`blocks`] — refusals 8 to 15 and 17.

pub mod blocks;
pub mod edges;
pub mod empty;
pub mod empty_views;
pub mod rules;
pub mod share;
pub mod slips;

use crate::engine::format::{CONTRACT, PAYMENT};
use crate::engine::{write, Block, Head, Operation, Posting, Sheet, Transaction};

/// A run and its reading.
pub struct Case {
    pub name: String,
    pub run: Vec<u8>,
    pub text: String,
}

/// Every named case.
pub fn all() -> Vec<Case> {
    [
        edges::edges(),
        edges::truncations(),
        rules::rules(),
        slips::of_the_sheet(),
        slips::among_the_blocks(),
        blocks::blocks(),
        empty::empty(),
        empty_views::views(),
        share::share(),
    ]
    .into_iter()
    .flatten()
    .collect()
}

fn postings(list: &[(u16, u32)]) -> Vec<Posting> {
    list.iter().map(|(account, amount)| Posting { account: *account, amount: *amount }).collect()
}

/// A payment: (account, amount) each.
pub fn payment(debits: &[(u16, u32)], credits: &[(u16, u32)]) -> Transaction {
    let (debits, credits) = (postings(debits), postings(credits));
    Transaction { sort: PAYMENT, debits, credits, operations: Vec::new() }
}

/// A contract: operations are (code, register, value).
pub fn contract(
    debits: &[(u16, u32)],
    credits: &[(u16, u32)],
    operations: &[(u8, u8, u32)],
) -> Transaction {
    let (debits, credits) = (postings(debits), postings(credits));
    let operation = |&(code, register, value)| Operation { code, register, value };
    let operations = operations.iter().map(operation).collect();
    Transaction { sort: CONTRACT, debits, credits, operations }
}

/// A block; the cut is given by its used entries.
pub fn block(instance: u16, number: u16, rank: u32, cut: &[u16], citations: &[u16]) -> Block {
    let mut entries = [0; 16];
    for (entry, count) in entries.iter_mut().zip(cut) {
        *entry = *count;
    }
    Block { instance, number, rank, cut: entries, citations: citations.to_vec() }
}

/// A sheet; a and t are those of the lists.
pub fn sheet(m: u16, g: u16, starts: &[u64], transactions: &[Transaction]) -> Sheet {
    let head = Head { m, a: starts.len() as u16, g, t: transactions.len() as u16 };
    Sheet { head, starts: starts.to_vec(), transactions: transactions.to_vec() }
}

/// The bytes of a sheet.
pub fn sheet_bytes(sheet: &Sheet) -> Vec<u8> {
    write::sheet(sheet).concat()
}

/// The bytes of a whole run.
pub fn run(sheet: &Sheet, blocks: &[Block]) -> Vec<u8> {
    let mut bytes = sheet_bytes(sheet);
    bytes.extend(blocks.iter().flat_map(|block| write::block(block, sheet.head.m)));
    bytes
}

fn case(name: &str, run: Vec<u8>, text: &str) -> Case {
    Case { name: name.to_string(), run, text: text.to_string() }
}

/// The sheet of "One reading, whole".
pub fn worked_sheet() -> Sheet {
    let transactions =
        [payment(&[(0, 4), (1, 5)], &[(2, 9)]), contract(&[(2, 6)], &[(1, 6)], &[(2, 0, 7)])];
    sheet(2, 1, &[10, 5, 0], &transactions)
}

/// Its two blocks.
pub fn worked_blocks() -> Vec<Block> {
    vec![block(1, 1, 1, &[0, 0], &[0]), block(0, 1, 2, &[0, 1], &[0, 1])]
}

/// Its text, as printed in the paper.
pub const WORKED_TEXT: &str = "\
run 2 3 1 2
ok 1 1
ok 0 1
log 1 1
log 0 1
tx 0 paid
tx 1 paid
account 0 6 0
account 1 6 0
account 2 3 0
register 0 7
share 1000
";
