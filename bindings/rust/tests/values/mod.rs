//! The wrapper's values, in few words.

use crate::frames::{block, worked_run};
use rugxeni::{Account, Block, Ledger, Offer, Refusal, Settlement};

pub fn refusal(number: u16, place: u64) -> Refusal {
    Refusal { number, place }
}

/// A block; the cut's other entries are 0.
pub fn values(instance: u16, sequence: u16, rank: u32, used: &[u16], citations: &[u16]) -> Block {
    let mut cut = [0; 16];
    cut[..used.len()].copy_from_slice(used);
    Block {
        instance,
        sequence,
        rank,
        cut,
        citations: citations.to_vec(),
    }
}

pub fn account(free: u64, held: u64) -> Account {
    Account { free, held }
}

/// All five readings.
#[derive(Debug, PartialEq)]
pub struct Readings {
    pub log: Vec<(u16, u16)>,
    pub settlements: Vec<Settlement>,
    pub accounts: Vec<Account>,
    pub registers: Vec<u32>,
    pub share: u32,
}

pub fn readings(ledger: &mut Ledger) -> Result<Readings, Refusal> {
    Ok(Readings {
        log: ledger.log()?,
        settlements: ledger.settlements()?,
        accounts: ledger.accounts()?,
        registers: ledger.registers()?,
        share: ledger.share()?,
    })
}

/// A ledger with the worked run's sheet and blocks.
pub fn worked() -> Ledger {
    let run = worked_run();
    let (mut ledger, at) = Ledger::load(&run).expect("a sound sheet");
    assert_eq!(ledger.offer_frame(&run, at), Offer::Accepted);
    assert_eq!(ledger.offer_frame(&run, 122), Offer::Accepted);
    ledger
}

/// The frame of a block on a sheet with m instances.
pub fn as_frame(values: &Block, m: usize) -> Vec<u8> {
    let Block {
        instance,
        sequence,
        rank,
        cut,
        citations,
    } = values;
    block(*instance, *sequence, *rank, &cut[..m], citations)
}
