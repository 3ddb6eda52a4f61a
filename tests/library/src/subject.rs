//! What is compared: anything that answers as the static library does.

use crosscheck::engine::Block;
use rugxeni::{Account, Ledger, Loading, Offer, Refusal, Settlement};

/// The five readings, each with the answer to its own call.
#[derive(Clone, Debug, PartialEq)]
pub struct Readings {
    pub log: Result<Vec<(u16, u16)>, Refusal>,
    pub settlements: Result<Vec<Settlement>, Refusal>,
    pub accounts: Result<Vec<Account>, Refusal>,
    pub registers: Result<Vec<u32>, Refusal>,
    pub share: Result<u32, Refusal>,
}

/// A ledger, from its first slip on.
pub trait Subject {
    fn load(&mut self, run: &[u8], at: usize) -> Result<Loading, Refusal>;
    fn offer_slip(&mut self, bytes: &[u8], at: usize) -> Offer;
    fn offer_values(&mut self, block: &Block) -> Offer;
    fn readings(&mut self) -> Readings;
}

impl Subject for Ledger {
    fn load(&mut self, run: &[u8], at: usize) -> Result<Loading, Refusal> {
        self.load_frame(run, at)
    }

    fn offer_slip(&mut self, bytes: &[u8], at: usize) -> Offer {
        Ledger::offer_frame(self, bytes, at)
    }

    fn offer_values(&mut self, block: &Block) -> Offer {
        self.offer_block(&rugxeni::Block {
            instance: block.instance,
            sequence: block.number,
            rank: block.rank,
            cut: block.cut,
            citations: block.citations.clone(),
        })
    }

    fn readings(&mut self) -> Readings {
        Readings {
            log: self.log(),
            settlements: self.settlements(),
            accounts: self.accounts(),
            registers: self.registers(),
            share: self.share(),
        }
    }
}
