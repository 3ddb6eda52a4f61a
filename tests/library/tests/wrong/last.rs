//! Faults at the last place that a bound allows: transaction 1,023, account
//! 1,023, register 63, instance and cut entry 15, block 128, list place 31,
//! operation 7, debit 3, credit 3.

use crosscheck::engine::format::{self, slip_at};
use crosscheck::engine::{write, Block, Head, Posting, Transaction};
use crosscheck_library::subject::Readings;
use rugxeni::{Offer, Refusal, Settlement};

use super::rounding::{share, Rounding};

#[derive(Clone, Copy, Debug, PartialEq)]
pub enum Last {
    /// Nothing is wrong: sheet, blocks and log are as they are here.
    Nothing,
    /// The operations of transaction 1,023 are lost.
    OperationsLost,
    /// So are those on register 63, and the eighth of any contract.
    RegisterLost,
    OperationLost,
    /// The fourth debit or credit goes to another account.
    DebitElsewhere,
    CreditElsewhere,
    /// What is taken from account 1,023 is always covered, or never.
    AlwaysCovered,
    NeverCovered,
    /// A citation at place 31 is not booked, nor are those of block 128, nor
    /// those of instance 15.
    PlaceNotBooked,
    BlockNotBooked,
    InstanceNotBooked,
    /// The citations at places 30 and 31 are booked in the other order.
    PlacesSwapped,
    /// Entry 15 of a cut is taken for 0, or an entry of 128 for 127.
    EntryNotSeen,
    BlockNotSeen,
    /// A citation at place 31 that repeats place 30 is accepted.
    RepetitionAccepted,
    /// A refusal of this number at place 31, or at entry 15, is not given.
    PlaceAccepted(u16),
    EntryAccepted(u16),
    /// The same account in debits 2 and 3, or in credits 2 and 3, is taken, or
    /// debit 3 of an account that is not there, or an operation 7 of no code.
    DebitTwice,
    CreditTwice,
    DebitOfNobody,
    OperationOfNoCode,
    /// Block 129 is accepted, or instance 16 of 16.
    BlockAccepted,
    InstanceAccepted,
    /// Block 128 is turned away, or a block with 32 citations.
    BlockRefused,
    PlaceRefused,
    /// Readings in which the last number is not counted.
    StaysOpen,
    RegisterStays,
    NothingHeld,
    NotInTheShare,
    NotInTheLog,
    /// The log with a bar that instance 15 has no part in; without blocks of
    /// the highest rank; with instance 15 behind instance 0 of the next rank.
    NotInTheBar,
    HighestNotInTheLog,
    BehindTheNext,
}

pub const ALL: [Last; 35] = [
    Last::OperationsLost,
    Last::RegisterLost,
    Last::OperationLost,
    Last::DebitElsewhere,
    Last::CreditElsewhere,
    Last::AlwaysCovered,
    Last::NeverCovered,
    Last::PlaceNotBooked,
    Last::BlockNotBooked,
    Last::InstanceNotBooked,
    Last::PlacesSwapped,
    Last::EntryNotSeen,
    Last::BlockNotSeen,
    Last::RepetitionAccepted,
    Last::PlaceAccepted(13),
    Last::PlaceAccepted(14),
    Last::PlaceAccepted(15),
    Last::EntryAccepted(11),
    Last::EntryAccepted(12),
    Last::DebitTwice,
    Last::CreditTwice,
    Last::DebitOfNobody,
    Last::OperationOfNoCode,
    Last::BlockAccepted,
    Last::InstanceAccepted,
    Last::BlockRefused,
    Last::PlaceRefused,
    Last::StaysOpen,
    Last::RegisterStays,
    Last::NothingHeld,
    Last::NotInTheShare,
    Last::NotInTheLog,
    Last::NotInTheBar,
    Last::HighestNotInTheLog,
    Last::BehindTheNext,
];

const TRANSACTION: usize = 1_023;
const ACCOUNT: usize = 1_023;
const REGISTER: u8 = 63;
const INSTANCE: u16 = 15;
const BLOCK: u16 = 128;
const PLACE: usize = 31;
const OPERATION: usize = 7;
const POSTING: usize = 3;
/// The greatest start: it covers whatever is taken.
const ENOUGH: u64 = 1 << 40;

/// The sheet's slips, one by one, as a fault has them, and what was accepted.
#[derive(Default)]
pub struct Sheet {
    head: Option<Head>,
    transactions: usize,
    blocks: Vec<Block>,
    /// What account 1,023 has more than it should, modulo 2^64.
    more: u64,
}

impl Sheet {
    /// A sound slip of the sheet, and what a fault makes of it.
    pub fn slip(&mut self, fault: Last, slip: &[u8]) -> Vec<u8> {
        let changed = slip_at(slip, 0).ok().and_then(|read| match (read.kind, self.head) {
            (1, _) => {
                self.head = format::head(read.body);
                None
            }
            (2, Some(head)) => {
                let mut starts = format::starts(read.body, head.a)?;
                let start = starts.get_mut(ACCOUNT)?;
                let wrong = match fault {
                    Last::AlwaysCovered => ENOUGH,
                    Last::NeverCovered => 0,
                    _ => *start,
                };
                self.more = wrong.wrapping_sub(*start);
                *start = wrong;
                Some(write::starts(&starts))
            }
            (3, Some(head)) => {
                let mut transaction = format::transaction(read.body)?;
                self.transactions += 1;
                change(fault, &head, self.transactions - 1, &mut transaction);
                Some(write::transaction(&transaction))
            }
            _ => None,
        });
        changed.unwrap_or(slip.to_vec())
    }

    /// An accepted block, and what a fault books of it.
    pub fn booked(&mut self, fault: Last, block: &Block) -> Block {
        self.blocks.push(block.clone());
        let mut block = block.clone();
        match fault {
            Last::PlaceNotBooked => block.citations.truncate(PLACE),
            Last::BlockNotBooked if block.number == BLOCK => block.citations.clear(),
            Last::InstanceNotBooked if block.instance == INSTANCE => block.citations.clear(),
            Last::PlacesSwapped if block.citations.len() > PLACE => {
                block.citations.swap(PLACE - 1, PLACE);
            }
            Last::EntryNotSeen if block.instance != INSTANCE => {
                block.cut[usize::from(INSTANCE)] = 0;
            }
            Last::BlockNotSeen => {
                block.cut.iter_mut().for_each(|count| *count = (*count).min(BLOCK - 1));
            }
            _ => {}
        }
        block
    }

    /// The log as a fault has it: by a bar, and by keys of blocks.
    fn log(&self, fault: Last) -> Vec<(u16, u16)> {
        let m = self.head.map_or(0, |head| head.m);
        let key = |rank: u64, instance: u16| rank * 16 + u64::from(instance);
        let of = |block: &Block| key(block.rank.into(), block.instance);
        let asked = if fault == Last::NotInTheBar { m.min(INSTANCE) } else { m };
        let of_instance = |i: u16| self.blocks.iter().filter(move |block| block.instance == i);
        let last = |i: u16| of_instance(i).map(|block| block.rank).max().unwrap_or(0);
        let bar = (0..asked).map(|i| key(u64::from(last(i)) + 1, i)).min().unwrap_or(0);
        let mut log: Vec<&Block> = self.blocks.iter().filter(|block| of(block) < bar).collect();
        log.sort_by_key(|block| match (fault, block.instance) {
            (Last::BehindTheNext, INSTANCE) => 2 * key(u64::from(block.rank) + 1, 0) + 1,
            _ => 2 * of(block),
        });
        if fault == Last::HighestNotInTheLog {
            log.retain(|block| block.rank < u32::MAX);
        }
        log.iter().map(|block| (block.instance, block.number)).collect()
    }

    /// Readings, and what a fault makes of them.
    pub fn readings(&self, fault: Last, readings: &mut Readings) {
        match fault {
            Last::AlwaysCovered | Last::NeverCovered => {
                let account =
                    readings.accounts.as_mut().ok().and_then(|list| list.get_mut(ACCOUNT));
                account.into_iter().for_each(|last| last.free = last.free.wrapping_sub(self.more));
            }
            Last::StaysOpen => {
                let list = readings.settlements.iter_mut().flatten();
                list.skip(TRANSACTION).for_each(|status| *status = Settlement::Open);
            }
            Last::RegisterStays => {
                let list = readings.registers.iter_mut().flatten();
                list.skip(REGISTER.into()).for_each(|value| *value = 0);
            }
            Last::NothingHeld => {
                let list = readings.accounts.iter_mut().flatten();
                list.skip(ACCOUNT).for_each(|account| account.held = 0);
            }
            Last::NotInTheShare => {
                if let Ok(settlements) = &readings.settlements {
                    readings.share = Ok(share(Rounding::Nearest, settlements, TRANSACTION));
                }
            }
            Last::Nothing | Last::NotInTheBar | Last::HighestNotInTheLog | Last::BehindTheNext => {
                readings.log = readings.log.clone().map(|_| self.log(fault));
            }
            Last::NotInTheLog => {
                if let Ok(log) = &mut readings.log {
                    log.retain(|(_, number)| *number != BLOCK);
                }
            }
            _ => {}
        }
    }
}

/// What a fault makes of a transaction.
fn change(fault: Last, head: &Head, number: usize, transaction: &mut Transaction) {
    let Transaction { debits, credits, operations, .. } = transaction;
    match fault {
        Last::OperationsLost if number == TRANSACTION => operations.clear(),
        Last::RegisterLost => operations.retain(|operation| operation.register != REGISTER),
        Last::OperationLost => operations.truncate(OPERATION),
        // In the same instance, so that the parts stay.
        Last::DebitElsewhere => elsewhere(debits, head.a, head.m),
        Last::CreditElsewhere => elsewhere(credits, head.a, 1),
        _ => {}
    }
}

/// Gives the last of four postings another account, some steps further.
fn elsewhere(postings: &mut [Posting], accounts: u16, step: u16) {
    let taken: Vec<u16> = postings.iter().map(|posting| posting.account).collect();
    if let Some(last) = postings.get_mut(POSTING) {
        let other = (0..accounts)
            .find(|account| account % step == last.account % step && !taken.contains(account));
        last.account = other.unwrap_or(last.account);
    }
}

/// Whether a fault takes a transaction that is refused.
pub fn takes(fault: Last, slip: &[u8], refusal: Refusal) -> bool {
    let transaction = slip_at(slip, 0).ok().and_then(|read| format::transaction(read.body));
    let Some(Transaction { debits, credits, operations, .. }) = transaction else {
        return false;
    };
    let twice =
        |list: &[Posting]| list.len() == 4 && list[POSTING].account == list[POSTING - 1].account;
    match (fault, refusal.number) {
        (Last::DebitTwice, 6) => twice(&debits),
        (Last::CreditTwice, 6) => twice(&credits),
        (Last::DebitOfNobody, 5) => debits.get(POSTING).is_some_and(|last| last.account == 1_024),
        (Last::OperationOfNoCode, 5) => operations.get(OPERATION).is_some_and(|last| last.code > 4),
        _ => false,
    }
}

/// What a fault answers to a block.
pub fn answer(fault: Last, block: &Block, answer: Offer) -> Offer {
    let Block { instance, number, citations, .. } = block;
    let last = |number: u16, place: u64| Offer::Refused(Refusal { number, place });
    let wrongly = match fault {
        Last::RepetitionAccepted => {
            answer == last(15, PLACE as u64) && citations[PLACE] == citations[PLACE - 1]
        }
        Last::PlaceAccepted(number) => answer == last(number, PLACE as u64),
        Last::EntryAccepted(number) => answer == last(number, INSTANCE.into()),
        Last::BlockAccepted => answer == last(17, 0) && *number == BLOCK + 1,
        Last::InstanceAccepted => answer == last(8, 0) && *instance == INSTANCE + 1,
        _ => false,
    };
    match (fault, answer) {
        _ if wrongly => Offer::Accepted,
        (Last::BlockRefused, Offer::Accepted) if *number == BLOCK => last(17, 0),
        (Last::PlaceRefused, Offer::Accepted) if citations.len() > PLACE => last(5, 0),
        _ => answer,
    }
}
