//! The writer of the paper: "The writer of a slip knows the sheet so far; it
//! gives 3 (kind not due), 4 (a list of another length than its count), 5 (also
//! for an unused cut entry that is not 0), 6 or 7, in that order with place 0,
//! and only then 16."
//!
//! A head has no list. The count of the starts is a, which the sheet so far
//! has. A transaction and a block come with their counts beside their lists.

use crate::engine::format::{Block, Head, Operation, Posting, Refusal, Transaction};
use crate::engine::ledger::MOST_CITATIONS;
use crate::engine::sheet::{self, Draft};

pub type Written = Result<Vec<u8>, Refusal>;

/// A transaction as the writer is given it: type and counts, then its lists
/// with each number of a debit, a credit or an operation in a list of its own.
#[derive(Clone, Debug, Default, PartialEq, Eq)]
pub struct Lists {
    pub sort: u8,
    pub debit_count: u8,
    pub credit_count: u8,
    pub operation_count: u8,
    /// Accounts and amounts of the debits.
    pub payers: Vec<u16>,
    pub debits: Vec<u32>,
    /// Accounts and amounts of the credits.
    pub payees: Vec<u16>,
    pub credits: Vec<u32>,
    /// Codes, registers and values of the operations.
    pub codes: Vec<u8>,
    pub registers: Vec<u8>,
    pub values: Vec<u32>,
}

impl Lists {
    /// The lists of a transaction, and their lengths as its counts.
    pub fn of(transaction: &Transaction) -> Lists {
        let Transaction { sort, debits, credits, operations } = transaction;
        Lists {
            sort: *sort,
            debit_count: debits.len() as u8,
            credit_count: credits.len() as u8,
            operation_count: operations.len() as u8,
            payers: debits.iter().map(|debit| debit.account).collect(),
            debits: debits.iter().map(|debit| debit.amount).collect(),
            payees: credits.iter().map(|credit| credit.account).collect(),
            credits: credits.iter().map(|credit| credit.amount).collect(),
            codes: operations.iter().map(|operation| operation.code).collect(),
            registers: operations.iter().map(|operation| operation.register).collect(),
            values: operations.iter().map(|operation| operation.value).collect(),
        }
    }

    /// The transaction that the lists are; `None` if one of them has another
    /// length than its count.
    pub fn transaction(&self) -> Option<Transaction> {
        let codes = counted(&self.codes, self.operation_count)?;
        let registers = counted(&self.registers, self.operation_count)?;
        let values = counted(&self.values, self.operation_count)?;
        let operation = |((code, register), value): ((&u8, &u8), &u32)| Operation {
            code: *code,
            register: *register,
            value: *value,
        };
        Some(Transaction {
            sort: self.sort,
            debits: postings(&self.payers, &self.debits, self.debit_count)?,
            credits: postings(&self.payees, &self.credits, self.credit_count)?,
            operations: codes.iter().zip(registers).zip(values).map(operation).collect(),
        })
    }
}

/// A list, if it has the length that its count says.
fn counted<T>(list: &[T], count: u8) -> Option<&[T]> {
    (list.len() == usize::from(count)).then_some(list)
}

fn postings(accounts: &[u16], amounts: &[u32], count: u8) -> Option<Vec<Posting>> {
    let pairs = counted(accounts, count)?.iter().zip(counted(amounts, count)?);
    Some(pairs.map(|(account, amount)| Posting { account: *account, amount: *amount }).collect())
}

fn refuse(number: u8) -> Refusal {
    Refusal::new(number, 0)
}

pub fn head(draft: &Draft, head: &Head) -> Written {
    if *draft != Draft::Empty {
        return Err(refuse(3));
    }
    sheet::check_head(head).map_err(refuse)?;
    Ok(super::head(head))
}

pub fn starts(draft: &Draft, starts: &[u64]) -> Written {
    let Draft::Headed(head) = draft else {
        return Err(refuse(3));
    };
    if starts.len() != usize::from(head.a) {
        return Err(refuse(4));
    }
    sheet::check_starts(starts).map_err(refuse)?;
    Ok(super::starts(starts))
}

pub fn transaction(draft: &Draft, lists: &Lists) -> Written {
    match draft {
        Draft::Begun(sheet) if !sheet.is_complete() => {
            let transaction = lists.transaction().ok_or(refuse(4))?;
            sheet::check_transaction(&sheet.head, &transaction).map_err(refuse)?;
            Ok(super::transaction(&transaction))
        }
        _ => Err(refuse(3)),
    }
}

/// A block, the count of its citations beside it. Whether the block would be
/// accepted is not the writer's question: 8 and above are not in its list.
pub fn block(draft: &Draft, block: &Block, count: u16) -> Written {
    let sheet = draft.complete().ok_or(refuse(3))?;
    if block.citations.len() != usize::from(count) {
        return Err(refuse(4));
    }
    let unused = &block.cut[sheet.instances()..];
    if usize::from(count) > MOST_CITATIONS || unused.iter().any(|entry| *entry != 0) {
        return Err(refuse(5));
    }
    Ok(super::block(block, sheet.head.m))
}

/// What is written, to a lent buffer of a length: "and only then 16". "Least
/// lengths are what the call fills: … the slip's bytes for the writer."
pub fn lent(written: Written, length: usize) -> Written {
    let slip = written?;
    match slip.len() {
        least if length < least => Err(Refusal::new(16, least)),
        _ => Ok(slip),
    }
}
