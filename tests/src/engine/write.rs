//! Values to slips.
//!
//! The plain functions write whatever they are given, so that damaged runs
//! can be made with them too. [`checked`] is the writer of the paper, with
//! its refusals.

pub mod checked;

use super::format::{Block, Head, Operation, Posting, Transaction};
use super::sheet::Sheet;

/// A slip of a kind and a body.
pub fn slip(kind: u16, body: &[u8]) -> Vec<u8> {
    let length = body.len() as u32 + 2;
    [&length.to_le_bytes()[..], &kind.to_le_bytes(), body].concat()
}

pub fn head(head: &Head) -> Vec<u8> {
    let sizes = [head.m, head.a, head.g, head.t];
    slip(1, &sizes.map(u16::to_le_bytes).concat())
}

pub fn starts(starts: &[u64]) -> Vec<u8> {
    let body: Vec<u8> = starts.iter().flat_map(|start| start.to_le_bytes()).collect();
    slip(2, &body)
}

pub fn transaction(transaction: &Transaction) -> Vec<u8> {
    let Transaction { sort, debits, credits, operations } = transaction;
    let counts = [*sort, debits.len() as u8, credits.len() as u8, operations.len() as u8];
    let mut body = counts.to_vec();
    body.extend(debits.iter().chain(credits).flat_map(posting));
    body.extend(operations.iter().flat_map(operation));
    slip(3, &body)
}

fn posting(posting: &Posting) -> Vec<u8> {
    [&posting.account.to_le_bytes()[..], &posting.amount.to_le_bytes()].concat()
}

fn operation(operation: &Operation) -> Vec<u8> {
    [&[operation.code, operation.register][..], &operation.value.to_le_bytes()].concat()
}

/// A block of a sheet with m instances.
pub fn block(block: &Block, m: u16) -> Vec<u8> {
    let mut body = [block.instance.to_le_bytes(), block.number.to_le_bytes()].concat();
    body.extend(block.rank.to_le_bytes());
    body.extend((block.citations.len() as u16).to_le_bytes());
    let entries = block.cut.iter().take(m.into());
    body.extend(entries.chain(&block.citations).flat_map(|number| number.to_le_bytes()));
    slip(4, &body)
}

/// The slips of a sheet, one by one.
pub fn sheet(sheet: &Sheet) -> Vec<Vec<u8>> {
    let mut slips = vec![head(&sheet.head), starts(&sheet.starts)];
    slips.extend(sheet.transactions.iter().map(transaction));
    slips
}
