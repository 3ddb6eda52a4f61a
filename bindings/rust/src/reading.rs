//! A run, read whole.

use crate::ffi::{self, LARGEST, LONGEST_TEXT};
use crate::refusal::checked;
use crate::{Account, Answer, Ledger, Refusal, Settlement, Sizes};
use std::fmt;

/// What a whole run comes to. As text it is what `readrun` prints.
#[derive(Clone, Debug, PartialEq, Eq)]
pub struct Reading {
    /// The sizes of the sheet.
    pub sizes: Sizes,
    /// The answer to each block, in the run's order.
    pub answers: Vec<Answer>,
    /// The global log as (instance, sequence number), in log order.
    pub log: Vec<(u16, u16)>,
    /// What became of every transaction, from transaction 0 up.
    pub settlements: Vec<Settlement>,
    /// Every account, from account 0 up.
    pub accounts: Vec<Account>,
    /// The registers, from register 0 up.
    pub registers: Vec<u32>,
    /// Settled transactions (paid or returned) in thousandths of all, to the nearest and a tie to the even figure; 1000
    /// where there are none.
    pub share: u32,
}

/// Reads a whole run, just as `readrun` does: its sheet is loaded, each of its blocks offered, then the readings are taken.
/// A block that is turned away with refusal 8 or above has that as its answer, and the next may follow. The run may be
/// longer than the 65,536 bytes that `readrun` takes.
///
/// Refusals: 1 to 7, with the offset of the frame that cannot be read. Then there is no reading, also where blocks before
/// it were accepted.
pub fn read(run: &[u8]) -> Result<Reading, Refusal> {
    Reader::new().read(run)
}

/// What `readrun` prints of a run, byte for byte, by the one call that `readrun` is made of: the reading's text; of a run
/// that cannot be read whole the lines up to the refusal that ends it; or `long` where it has more than 65,536 bytes.
///
/// The call is lent 656,384 bytes, whatever the run. Of a small run that is most of what it costs; a [`Reader`] keeps them.
pub fn text(run: &[u8]) -> String {
    Reader::new().text(run).to_owned()
}

/// Reads runs one after the other, and keeps the buffers that the library is lent.
#[derive(Clone, Debug, Default)]
pub struct Reader {
    ledger: Ledger,
    out: Vec<u8>,
}

impl Reader {
    /// A reader that has no buffers yet.
    pub fn new() -> Reader {
        Reader::default()
    }

    /// Does what [`read`](read()) does.
    pub fn read(&mut self, run: &[u8]) -> Result<Reading, Refusal> {
        let ledger = &mut self.ledger;
        let mut at = ledger.load_anew(run)?;
        let mut answers = Vec::new();
        while let Some((answer, next)) = ledger.read_block(run, at)? {
            answers.push(answer);
            at = next;
        }
        Ok(Reading {
            sizes: ledger.header(),
            answers,
            log: ledger.log()?,
            settlements: ledger.settlements()?,
            accounts: ledger.accounts()?,
            registers: ledger.registers()?,
            share: ledger.share()?,
        })
    }

    /// Does what [`text`](text()) does.
    pub fn text(&mut self, run: &[u8]) -> &str {
        let Ledger { kept, working, .. } = &mut self.ledger;
        kept.lend(LARGEST);
        working.lend(LARGEST);
        if self.out.is_empty() {
            self.out = vec![0; LONGEST_TEXT];
        }
        let mut told = [0; 2];
        let code = ffi::report(run, kept, working, &mut self.out, &mut told);
        // The buffers are as long as the call asks, so that it is never refused; and the text is ASCII.
        let length = checked(code, told).map_or(0, |[length, _]| length as usize);
        std::str::from_utf8(&self.out[..length]).unwrap_or_default()
    }
}

impl fmt::Display for Reading {
    fn fmt(&self, out: &mut fmt::Formatter<'_>) -> fmt::Result {
        let [m, a, g, t] = self.sizes.in_order();
        writeln!(out, "run {m} {a} {g} {t}")?;
        self.answers
            .iter()
            .try_for_each(|answer| writeln!(out, "{answer}"))?;
        self.log
            .iter()
            .try_for_each(|(instance, sequence)| writeln!(out, "log {instance} {sequence}"))?;
        self.settlements
            .iter()
            .enumerate()
            .try_for_each(|(number, settlement)| writeln!(out, "tx {number} {settlement}"))?;
        self.accounts
            .iter()
            .enumerate()
            .try_for_each(|(number, account)| {
                writeln!(out, "account {number} {} {}", account.free, account.held)
            })?;
        self.registers
            .iter()
            .enumerate()
            .try_for_each(|(number, value)| writeln!(out, "register {number} {value}"))?;
        writeln!(out, "share {}", self.share)
    }
}
