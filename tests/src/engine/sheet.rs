//! The sheet: head, starts and transactions, in that order.
//!
//! Here are the refusals that need the sheet so far: 3 for a slip that is not
//! due, 5 for a field out of range, 6 for an account named twice, 7 for sums
//! that differ. They come in that order and each over the whole slip.

use std::collections::BTreeSet;

use super::format::{self, Head, Operation, Posting, Refusal, Transaction, CONTRACT, PAYMENT};

/// A starting balance is at most 2^40.
const GREATEST_START: u64 = 1 << 40;

/// Head and starts, and the transactions so far.
#[derive(Clone, Debug, PartialEq, Eq)]
pub struct Sheet {
    pub head: Head,
    pub starts: Vec<u64>,
    pub transactions: Vec<Transaction>,
}

impl Sheet {
    /// "With t 0 it is complete after the starts."
    pub fn is_complete(&self) -> bool {
        self.transactions.len() >= usize::from(self.head.t)
    }

    /// m, as a count of lists.
    pub fn instances(&self) -> usize {
        self.head.m.into()
    }

    /// "Account k belongs to instance k modulo m."
    pub fn instance_of(&self, account: u16) -> usize {
        usize::from(account % self.head.m)
    }

    /// "The part of a transaction in an instance is all its debits on
    /// accounts of that instance." Empty: it has no part there.
    pub fn part(&self, transaction: usize, instance: usize) -> Vec<Posting> {
        let debits = &self.transactions[transaction].debits;
        debits.iter().copied().filter(|debit| self.instance_of(debit.account) == instance).collect()
    }

    /// In how many instances a transaction has a part.
    pub fn parts(&self, transaction: usize) -> usize {
        let debits = &self.transactions[transaction].debits;
        let instances: BTreeSet<usize> =
            debits.iter().map(|debit| self.instance_of(debit.account)).collect();
        instances.len()
    }
}

/// What has been read of a sheet: "A run is one head, one starts slip, t
/// transactions in number order, then blocks."
#[derive(Clone, Debug, Default, PartialEq, Eq)]
pub enum Draft {
    #[default]
    Empty,
    Headed(Head),
    Begun(Sheet),
}

impl Draft {
    pub fn complete(&self) -> Option<&Sheet> {
        match self {
            Draft::Begun(sheet) if sheet.is_complete() => Some(sheet),
            _ => None,
        }
    }

    /// Takes the slip at an offset and returns the offset after it. Once the
    /// sheet is complete no slip is due here any more.
    pub fn take(&mut self, bytes: &[u8], offset: usize) -> Result<usize, Refusal> {
        let slip = format::slip_at(bytes, offset)?;
        self.take_body(slip.kind, slip.body).map_err(|number| Refusal::new(number, offset))?;
        Ok(slip.next)
    }

    /// The refusals 3 to 7 of a sheet slip, in the order of the paper.
    fn take_body(&mut self, kind: u16, body: &[u8]) -> Result<(), u8> {
        match (&mut *self, kind) {
            (Draft::Empty, 1) => {
                let head = format::head(body).ok_or(4)?;
                check_head(&head)?;
                *self = Draft::Headed(head);
            }
            (Draft::Headed(head), 2) => {
                let starts = format::starts(body, head.a).ok_or(4)?;
                check_starts(&starts)?;
                *self = Draft::Begun(Sheet { head: *head, starts, transactions: Vec::new() });
            }
            (Draft::Begun(sheet), 3) if !sheet.is_complete() => {
                let transaction = format::transaction(body).ok_or(4)?;
                check_transaction(&sheet.head, &transaction)?;
                sheet.transactions.push(transaction);
            }
            // "kind unknown or not due here"
            _ => return Err(3),
        }
        Ok(())
    }
}

/// 5: "m instances (1 to 16), a accounts (1 to 1,024), g registers (0 to 64),
/// t transactions (0 to 1,024)".
pub fn check_head(head: &Head) -> Result<(), u8> {
    let in_range = (1..=16).contains(&head.m)
        && (1..=1_024).contains(&head.a)
        && head.g <= 64
        && head.t <= 1_024;
    in_range.then_some(()).ok_or(5)
}

/// 5: "each at most 2^40".
pub fn check_starts(starts: &[u64]) -> Result<(), u8> {
    starts.iter().all(|start| *start <= GREATEST_START).then_some(()).ok_or(5)
}

/// 5, then 6, then 7.
pub fn check_transaction(head: &Head, transaction: &Transaction) -> Result<(), u8> {
    let Transaction { debits, credits, .. } = transaction;
    if !in_range(head, transaction) {
        return Err(5);
    }
    if names_twice(debits) || names_twice(credits) {
        return Err(6);
    }
    if total(debits) != total(credits) {
        return Err(7);
    }
    Ok(())
}

/// "a field outside its range or an account or register not on the sheet".
fn in_range(head: &Head, transaction: &Transaction) -> bool {
    let Transaction { sort, debits, credits, operations } = transaction;
    let most_operations = if *sort == PAYMENT { 0 } else { 8 };
    (*sort == PAYMENT || *sort == CONTRACT)
        && (1..=4).contains(&debits.len())
        && (1..=4).contains(&credits.len())
        && operations.len() <= most_operations
        && debits.iter().chain(credits).all(|posting| posting_in_range(head, posting))
        && operations.iter().all(|operation| operation_in_range(head, operation))
}

/// An account on the sheet, and an amount of "at least 1".
fn posting_in_range(head: &Head, posting: &Posting) -> bool {
    posting.account < head.a && posting.amount >= 1
}

/// A register on the sheet, and one of the five codes that the paragraph
/// "Operations" gives a meaning.
fn operation_in_range(head: &Head, operation: &Operation) -> bool {
    operation.code <= 4 && u16::from(operation.register) < head.g
}

/// 6: "an account twice in the debits, or twice in the credits".
fn names_twice(postings: &[Posting]) -> bool {
    let accounts: BTreeSet<u16> = postings.iter().map(|posting| posting.account).collect();
    accounts.len() != postings.len()
}

/// 7: the sum of debits or credits as a number, not modulo anything.
fn total(postings: &[Posting]) -> u128 {
    postings.iter().map(|posting| u128::from(posting.amount)).sum()
}
