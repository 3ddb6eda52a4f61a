//! The second engine.
//!
//! One file for each heading of the scope paper:
//!
//! * [`format`] — "Slips": bytes to values, refusals 1, 2 and 4;
//! * [`sheet`] — head, starts and transactions, refusals 3, 5, 6 and 7;
//! * [`ledger`] — "Plain ledger": offers, refusals 8 to 15 and 17;
//! * [`rules`] — "Rules of the ledger": views, outcomes, log, settlement;
//! * [`text`] — "One reading, whole": the lines of `readrun`;
//! * [`write`] — values to bytes, and the refusals of the slip writer.
//!
//! [`Engine`] below puts them together call by call, so that answers and
//! readings can be compared with another engine after every single call.

pub mod format;
pub mod ledger;
pub mod rules;
pub mod sheet;
pub mod text;
pub mod write;

pub use format::{Block, Cut, Head, Operation, Posting, Refusal, Transaction};
pub use ledger::{Answer, Ledger, Logs};
pub use rules::{Account, Outcomes, Status};
pub use sheet::{Draft, Sheet};
pub use text::{reading, reading_of_any_length};

/// An engine from its first byte on: first fed the sheet, then offers.
#[derive(Clone, Debug, Default)]
pub struct Engine {
    draft: Draft,
    /// There once the sheet is complete.
    ledger: Option<Ledger>,
}

impl Engine {
    pub fn new() -> Engine {
        Engine::default()
    }

    /// Reads a sheet from the first bytes of a run. Returns the engine, its
    /// sheet just complete, and the offset at which the blocks begin.
    pub fn load(run: &[u8]) -> Result<(Engine, usize), Refusal> {
        let mut engine = Engine::new();
        let mut offset = 0;
        while engine.ledger.is_none() {
            offset = engine.feed(run, offset)?;
        }
        Ok((engine, offset))
    }

    /// An engine on a sheet given as values. They are written and read, so
    /// that a sheet which is not sound gets its refusal here.
    pub fn on(sheet: &Sheet) -> Result<Engine, Refusal> {
        Engine::load(&write::sheet(sheet).concat()).map(|(engine, _)| engine)
    }

    /// Takes the next slip of the sheet and returns the offset after it.
    /// On a refusal nothing has changed.
    pub fn feed(&mut self, bytes: &[u8], offset: usize) -> Result<usize, Refusal> {
        let next = self.draft.take(bytes, offset)?;
        self.ledger = self.draft.complete().cloned().map(Ledger::new);
        Ok(next)
    }

    /// The sheet so far.
    pub fn draft(&self) -> &Draft {
        &self.draft
    }

    /// The ledger, or 3 with place 0: "A call for accounts, registers,
    /// settlements, share or the log before the sheet is complete gets 3 with
    /// place 0".
    pub fn ledger(&self) -> Result<&Ledger, Refusal> {
        self.ledger.as_ref().ok_or(Refusal::new(3, 0))
    }

    /// Offers the slip at `offset` as a block.
    pub fn offer_slip(&mut self, bytes: &[u8], offset: usize) -> Answer {
        match &mut self.ledger {
            Some(ledger) => ledger.offer_slip(bytes, offset),
            // No block is due yet, so every readable slip gets 3.
            None => match format::slip_at(bytes, offset) {
                Ok(_) => Answer::Refused(Refusal::new(3, offset)),
                Err(refusal) => Answer::Refused(refusal),
            },
        }
    }

    /// Offers a block's values: "first 3 with place 0 if the sheet is not
    /// complete".
    pub fn offer_values(&mut self, block: &Block) -> Answer {
        match &mut self.ledger {
            Some(ledger) => ledger.offer_values(block),
            None => Answer::Refused(Refusal::new(3, 0)),
        }
    }

    pub fn accounts(&self) -> Result<Vec<Account>, Refusal> {
        self.ledger().map(Ledger::accounts)
    }

    pub fn registers(&self) -> Result<Vec<u32>, Refusal> {
        self.ledger().map(Ledger::registers)
    }

    pub fn settlements(&self) -> Result<Vec<Status>, Refusal> {
        self.ledger().map(Ledger::settlements)
    }

    pub fn share(&self) -> Result<u32, Refusal> {
        self.ledger().map(Ledger::share)
    }

    /// The global log as (instance, sequence number), in log order.
    pub fn log(&self) -> Result<Vec<(u16, u16)>, Refusal> {
        self.ledger().map(Ledger::log)
    }
}
