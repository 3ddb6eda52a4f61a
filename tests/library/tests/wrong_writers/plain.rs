//! Frames of values that need not be sound.

use crosscheck::engine::write::{self, checked::Lists};
use crosscheck::engine::Transaction;
use crosscheck_library::writers::Values;

/// The lists of a transaction.
pub const LISTS: usize = 7;

/// The frame of values that need not be sound: a list as long as the shortest
/// that belongs to it.
pub fn plain(values: &Values, m: u16) -> Vec<u8> {
    match values {
        Values::Header(head) => write::head(head),
        Values::Balances(balances) => write::starts(balances),
        Values::Transaction(lists) => write::transaction(&as_far_as_long(lists)),
        Values::Block(values) => write::block(&values.block(), m),
    }
}

fn as_far_as_long(lists: &Lists) -> Transaction {
    let mut lists = lists.clone();
    let debits = lists.payers.len().min(lists.debits.len()).min(255);
    let credits = lists.payees.len().min(lists.credits.len()).min(255);
    let operations = lists.codes.len().min(lists.registers.len()).min(lists.values.len()).min(255);
    lists.debit_count = debits as u8;
    lists.credit_count = credits as u8;
    lists.operation_count = operations as u8;
    let lists =
        (0..LISTS).fold(Values::Transaction(lists), |lists, list| with_length(&lists, list));
    match lists {
        Values::Transaction(lists) => lists.transaction().expect("lists as long as their counts"),
        _ => unreachable!("a transaction's lists"),
    }
}

/// The values with one of the seven lists as long as its count says.
pub fn with_length(values: &Values, list: usize) -> Values {
    let Values::Transaction(lists) = values else {
        return values.clone();
    };
    let mut lists = lists.clone();
    let [debits, credits, operations] =
        [lists.debit_count, lists.credit_count, lists.operation_count].map(usize::from);
    match list {
        0 => lists.payers.resize(debits, 0),
        1 => lists.debits.resize(debits, 1),
        2 => lists.payees.resize(credits, 0),
        3 => lists.credits.resize(credits, 1),
        4 => lists.codes.resize(operations, 0),
        5 => lists.registers.resize(operations, 0),
        _ => lists.values.resize(operations, 0),
    }
    Values::Transaction(lists)
}

/// Which of the four kinds values are, counted from 0.
pub fn kind_of(values: &Values) -> usize {
    match values {
        Values::Header(_) => 0,
        Values::Balances(_) => 1,
        Values::Transaction(_) => 2,
        Values::Block(_) => 3,
    }
}
