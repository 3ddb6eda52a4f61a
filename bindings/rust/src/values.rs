//! What goes in and what comes out, as values.

use crate::Refusal;
use std::fmt;

/// The sizes in the header of a sheet.
#[derive(Clone, Copy, Debug, PartialEq, Eq)]
pub struct Sizes {
    /// m, 1 to 16.
    pub instances: u16,
    /// a, 1 to 1,024.
    pub accounts: u16,
    /// g, at most 64.
    pub registers: u16,
    /// t, at most 1,024.
    pub transactions: u16,
}

/// A transaction of the sheet.
#[derive(Clone, Debug, PartialEq, Eq)]
pub struct Transaction {
    /// A contract alone has operations.
    pub kind: Kind,
    /// What it takes, 1 to 4 entries.
    pub debits: Vec<Entry>,
    /// What it gives, 1 to 4 entries; as much as it takes.
    pub credits: Vec<Entry>,
    /// At most 8.
    pub operations: Vec<Operation>,
}

/// What sort of transaction it is; the number is the boundary's.
#[derive(Clone, Copy, Debug, PartialEq, Eq)]
pub enum Kind {
    /// Paid once all its parts are booked and good.
    Payment = 0,
    /// Runs its operations once the blocks of all its parts are in the global log.
    Contract = 1,
}

/// A debit or a credit.
#[derive(Clone, Copy, Debug, PartialEq, Eq)]
pub struct Entry {
    /// The account, counted from 0.
    pub account: u16,
    /// At least 1.
    pub amount: u32,
}

/// What a contract does with a register.
#[derive(Clone, Copy, Debug, PartialEq, Eq)]
pub struct Operation {
    /// What is done.
    pub code: Code,
    /// The register, counted from 0.
    pub register: u8,
    /// What the register is compared with, set to or changed by.
    pub value: u32,
}

/// What an operation does; the number is the boundary's. Where it cannot, the contract is returned.
#[derive(Clone, Copy, Debug, PartialEq, Eq)]
pub enum Code {
    /// The register is the value.
    Equal = 0,
    /// The register is the value or more.
    AtLeast = 1,
    /// It becomes the value.
    Set = 2,
    /// The value is added, up to 2^32 − 1.
    Add = 3,
    /// The value is subtracted, down to 0.
    Subtract = 4,
}

/// A block's values.
#[derive(Clone, Debug, PartialEq, Eq)]
pub struct Block {
    /// The instance that delivered it, counted from 0.
    pub instance: u16,
    /// Its number in that instance, counted from 1. Never a rank.
    pub sequence: u16,
    /// Its rank, at least 1. Never a sequence number.
    pub rank: u32,
    /// How many blocks of each instance it had seen; entries beyond the sheet's instances are 0.
    pub cut: [u16; 16],
    /// The transactions whose part in this instance it books, at most 32.
    pub citations: Vec<u16>,
}

/// What became of a frame of the sheet.
#[derive(Clone, Copy, Debug, PartialEq, Eq)]
pub enum Loading {
    /// It was taken; the next frame begins at this offset.
    Next(usize),
    /// The sheet is complete already, nothing is left to load.
    Complete,
}

/// The answer to an offer.
#[derive(Clone, Copy, Debug, PartialEq, Eq)]
pub enum Offer {
    /// The block stands at the end of its instance's log.
    Accepted,
    /// Nothing changed.
    Refused(Refusal),
    /// No byte is left at this offset, so nothing was offered.
    NoByte,
}

/// The answer to a block of a run. As text it is the line that `readrun` prints, without its end.
#[derive(Clone, Copy, Debug, PartialEq, Eq)]
pub enum Answer {
    /// The block stands at the end of its instance's log.
    Accepted {
        /// Its instance.
        instance: u16,
        /// Its number there.
        sequence: u16,
    },
    /// Nothing changed. The number is 8 or more.
    Refused(Refusal),
}

/// The amounts of an account.
#[derive(Clone, Copy, Debug, Default, PartialEq, Eq)]
pub struct Account {
    /// What can be spent.
    pub free: u64,
    /// What good parts of open transactions have reserved.
    pub held: u64,
}

/// What became of a transaction. As text it is the word that `readrun` prints.
#[derive(Clone, Copy, Debug, PartialEq, Eq)]
pub enum Settlement {
    /// Not decided by the blocks so far.
    Open,
    /// Its credits are booked.
    Paid,
    /// What it had reserved is free again.
    Returned,
}

impl Sizes {
    /// In the header's order: m, a, g, t.
    pub(crate) fn in_order(self) -> [u16; 4] {
        [
            self.instances,
            self.accounts,
            self.registers,
            self.transactions,
        ]
    }
}

impl fmt::Display for Answer {
    fn fmt(&self, out: &mut fmt::Formatter<'_>) -> fmt::Result {
        match self {
            Answer::Accepted { instance, sequence } => write!(out, "ok {instance} {sequence}"),
            Answer::Refused(Refusal { number, place }) => write!(out, "refused {number} {place}"),
        }
    }
}

impl fmt::Display for Settlement {
    fn fmt(&self, out: &mut fmt::Formatter<'_>) -> fmt::Result {
        out.write_str(match self {
            Settlement::Open => "open",
            Settlement::Paid => "paid",
            Settlement::Returned => "returned",
        })
    }
}
