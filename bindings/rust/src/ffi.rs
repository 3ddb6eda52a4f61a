//! The boundary of the static library, over slices.
//!
//! A [`Ledger`](crate::Ledger), [`text`](crate::text) and a [`RunWriter`](crate::RunWriter) make these calls with buffers
//! that suffice. They are public for a caller that lends buffers of its own: one that is too short gets refusal 16, and
//! what lies behind the least lengths of `docs/BUFFERS.md` is left alone. `numbers` are the 22 that a ledger is, all 0 at
//! first. `told` gets two numbers: a refusal's place, the next offset or the length of what was written, and a value.
//! Contents and lengths are unconstrained: every call answers on any of them.
//!
//! The declarations, and all `unsafe`, are in `ffi/calls.rs`, which `bindings/boundary.py` writes from the library's own
//! signatures.

mod calls;
mod lent;
#[cfg(test)]
mod tests;

pub use calls::{frame, load, log, write_balances};
pub use lent::{Kept, Working, LARGEST, LONGEST_FRAME, LONGEST_TEXT};

/// A transaction as the boundary takes it: debits and credits as accounts and amounts, operations as codes, registers and
/// values. A list of another length than its count says is refused.
#[derive(Clone, Copy, Debug, Default, PartialEq)]
pub struct TransactionLists<'a> {
    /// 0 payment, 1 contract.
    pub kind: u8,
    /// How many debits, credits and operations there are.
    pub counts: [u8; 3],
    /// The accounts of the debits.
    pub payers: &'a [u16],
    /// The amounts of the debits.
    pub debits: &'a [u32],
    /// The accounts of the credits.
    pub payees: &'a [u16],
    /// The amounts of the credits.
    pub credits: &'a [u32],
    /// The codes of the operations.
    pub codes: &'a [u8],
    /// The registers of the operations.
    pub registers: &'a [u8],
    /// The values of the operations.
    pub values: &'a [u32],
}

/// The frame at an offset is offered. Returns 0 where it is accepted; a refusal's number, its place told; or 255 where
/// no byte is left.
pub fn offer_frame(
    numbers: &mut [u16],
    kept: &mut Kept,
    working: &mut Working,
    bytes: &[u8],
    at: usize,
    told: &mut [u64],
) -> u16 {
    calls::offer_frame(
        numbers,
        &kept.sheet,
        &mut kept.ranks,
        &mut kept.cuts,
        &mut kept.cites,
        &mut kept.good,
        &mut working.counts,
        &mut working.table,
        &mut working.order,
        bytes,
        at,
        told,
    )
}

/// A block's values are offered: instance, sequence number and rank, the cut's first sixteen entries (0 where there are
/// fewer), the citations. Returns as for a frame.
pub fn offer_block(
    numbers: &mut [u16],
    kept: &mut Kept,
    working: &mut Working,
    (instance, sequence, rank): (u16, u16, u32),
    cut: &[u16],
    citations: &[u16],
    told: &mut [u64],
) -> u16 {
    calls::offer_block(
        numbers,
        &kept.sheet,
        &mut kept.ranks,
        &mut kept.cuts,
        &mut kept.cites,
        &mut kept.good,
        &mut working.counts,
        &mut working.table,
        &mut working.order,
        instance,
        sequence,
        rank,
        cut,
        citations,
        told,
    )
}

/// A call for a reading: its numbers, what the ledger keeps but for the cuts, working space, then what it fills.
macro_rules! reading {
    ($call:ident, $numbers:expr, $kept:expr, $working:expr, $($filled:expr),*) => {
        calls::$call(
            $numbers,
            &$kept.sheet,
            &$kept.ranks,
            &$kept.cites,
            &$kept.good,
            &mut $working.counts,
            &mut $working.table,
            &mut $working.order,
            $($filled),*
        )
    };
}

/// Fills the amounts of every account. Returns 0, or a refusal's number, its place told; so do all calls for readings.
pub fn accounts(
    numbers: &[u16],
    kept: &Kept,
    working: &mut Working,
    free: &mut [u64],
    held: &mut [u64],
    told: &mut [u64],
) -> u16 {
    reading!(accounts, numbers, kept, working, free, held, told)
}

/// Fills the registers.
pub fn registers(
    numbers: &[u16],
    kept: &Kept,
    working: &mut Working,
    values: &mut [u32],
    told: &mut [u64],
) -> u16 {
    reading!(registers, numbers, kept, working, values, told)
}

/// Fills the settlement of every transaction: 0 open, 1 paid, 2 returned.
pub fn settlements(
    numbers: &[u16],
    kept: &Kept,
    working: &mut Working,
    statuses: &mut [u8],
    told: &mut [u64],
) -> u16 {
    reading!(settlements, numbers, kept, working, statuses, told)
}

/// Tells the share as the second number.
pub fn share(numbers: &[u16], kept: &Kept, working: &mut Working, told: &mut [u64]) -> u16 {
    reading!(share, numbers, kept, working, told)
}

/// Writes what `readrun` prints of a run to the front of `out`. Returns 0, the text's length told; or 16 where a buffer is
/// shorter than the largest sheet ([`LARGEST`]) or the longest text ([`LONGEST_TEXT`]) needs it. What the buffers hold
/// before and afterwards means nothing: whoever keeps a ledger lends others.
pub fn report(
    run: &[u8],
    kept: &mut Kept,
    working: &mut Working,
    out: &mut [u8],
    told: &mut [u64],
) -> u16 {
    calls::report(
        run,
        &mut kept.sheet,
        &mut kept.ranks,
        &mut kept.cuts,
        &mut kept.cites,
        &mut kept.good,
        &mut working.counts,
        &mut working.table,
        &mut working.order,
        out,
        told,
    )
}

/// Writes a header's frame to the front of `out`: m, a, g and t. Returns 0, the frame's length told; or a refusal's
/// number, its place told, nothing being written; so do all writers.
pub fn write_header(
    numbers: &[u16],
    [m, a, g, t]: [u16; 4],
    out: &mut [u8],
    told: &mut [u64],
) -> u16 {
    calls::write_header(numbers, m, a, g, t, out, told)
}

/// Writes a transaction's frame.
pub fn write_transaction(
    numbers: &[u16],
    lists: &TransactionLists,
    out: &mut [u8],
    told: &mut [u64],
) -> u16 {
    let [debits, credits, operations] = lists.counts;
    calls::write_transaction(
        numbers,
        lists.kind,
        debits,
        credits,
        operations,
        lists.payers,
        lists.debits,
        lists.payees,
        lists.credits,
        lists.codes,
        lists.registers,
        lists.values,
        out,
        told,
    )
}

/// Writes a block's frame: instance, sequence number and rank, how many citations there are, the cut's first sixteen
/// entries (0 where there are fewer), the citations.
pub fn write_block(
    numbers: &[u16],
    (instance, sequence, rank): (u16, u16, u32),
    count: u16,
    cut: &[u16],
    citations: &[u16],
    out: &mut [u8],
    told: &mut [u64],
) -> u16 {
    calls::write_block(
        numbers, instance, sequence, rank, count, cut, citations, out, told,
    )
}
