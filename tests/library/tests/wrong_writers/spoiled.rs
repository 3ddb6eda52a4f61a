//! Frames with bytes that are not those of their values.

use std::fmt;

use crosscheck_library::writers::Values;

/// What a fault does to the frame of values.
#[derive(Clone, Copy)]
pub struct Spoiled {
    name: &'static str,
    pub spoil: fn(&Values, &mut [u8]),
}

impl fmt::Debug for Spoiled {
    fn fmt(&self, out: &mut fmt::Formatter<'_>) -> fmt::Result {
        write!(out, "{}", self.name)
    }
}

const fn spoiled(name: &'static str, spoil: fn(&Values, &mut [u8])) -> Spoiled {
    Spoiled { name, spoil }
}

/// Where a body begins, a transaction's lists, and a block's rank and cut.
const BODY: usize = 6;
const LISTS: usize = BODY + 4;
const RANK: usize = BODY + 4;
const CUT: usize = BODY + 10;
/// A debit, a credit and an operation have so many bytes.
const ITEM: usize = 6;

pub const SPOILED: [Spoiled; 14] = [
    spoiled("the length without its kind", |_, frame| frame[0] = frame[0].wrapping_sub(2)),
    spoiled("the length in two bytes alone", |_, frame| frame[2] = 1),
    spoiled("registers and transactions exchanged", |values, frame| {
        if matches!(values, Values::Header(_)) {
            frame[BODY + 4..].rotate_left(2);
        }
    }),
    spoiled("the last balance lost", |values, frame| {
        if let Values::Balances(_) = values {
            frame.iter_mut().rev().take(8).for_each(|byte| *byte = 0);
        }
    }),
    spoiled("balances in four bytes", |values, frame| {
        if let Values::Balances(_) = values {
            frame[BODY..].chunks_mut(8).for_each(|balance| balance[4..].fill(0));
        }
    }),
    spoiled("a contract as a payment", |values, frame| {
        if let Values::Transaction(_) = values {
            frame[BODY] = 0;
        }
    }),
    spoiled("the fourth debit lost", |values, frame| {
        lost(values, frame, |lists| (lists[0] == 4).then_some(3));
    }),
    spoiled("the last credit lost", |values, frame| {
        lost(values, frame, |[debits, credits, _]| Some(debits + credits - 1));
    }),
    spoiled("the eighth operation lost", |values, frame| {
        lost(values, frame, |[debits, credits, operations]| {
            (operations == 8).then_some(debits + credits + 7)
        });
    }),
    spoiled("values of operations in two bytes", |values, frame| {
        if let Values::Transaction(lists) = values {
            let first = usize::from(lists.debit_count) + usize::from(lists.credit_count);
            let operations = frame[LISTS + ITEM * first..].chunks_mut(ITEM);
            operations.for_each(|operation| operation[4..].fill(0));
        }
    }),
    spoiled("instance and sequence number exchanged", |values, frame| {
        if let Values::Block(_) = values {
            frame[BODY..RANK].rotate_left(2);
        }
    }),
    spoiled("the rank in two bytes", |values, frame| {
        if let Values::Block(_) = values {
            frame[RANK + 2..RANK + 4].fill(0);
        }
    }),
    spoiled("the first entry of the cut lost", |values, frame| {
        if let Values::Block(_) = values {
            frame[CUT..CUT + 2].fill(0);
        }
    }),
    spoiled("the citation at place 31 lost", |values, frame| {
        if matches!(values, Values::Block(block) if block.count == 32) {
            frame.iter_mut().rev().take(2).for_each(|byte| *byte = 0);
        }
    }),
];

/// Clears a debit, a credit or an operation of a transaction, which of all of
/// them being said by the counts.
fn lost(values: &Values, frame: &mut [u8], which: impl Fn([usize; 3]) -> Option<usize>) {
    let Values::Transaction(lists) = values else {
        return;
    };
    let counts = [lists.debit_count, lists.credit_count, lists.operation_count].map(usize::from);
    if let Some(item) = which(counts) {
        frame[LISTS + ITEM * item..][..ITEM].fill(0);
    }
}
