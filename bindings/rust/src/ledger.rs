//! A ledger with the buffers that it lends.

use crate::ffi::{self, Kept, Working};
use crate::framing::{frame, NOTHING_LEFT};
use crate::refusal::{checked, Refusal};
use crate::values::{Account, Answer, Block, Loading, Offer, Settlement, Sizes};

/// Where the heights begin among a ledger's numbers.
const HEIGHTS: usize = 6;

/// A ledger: a sheet, and the blocks accepted of each instance.
///
/// A clone is a ledger of its own; what happens to the one leaves the other as it was.
#[derive(Clone, Debug, Default)]
pub struct Ledger {
    /// The library's own 22 numbers: m, a, g, t, the stage of loading, the transactions taken, then sixteen heights.
    pub(crate) numbers: [u16; 22],
    pub(crate) kept: Kept,
    pub(crate) working: Working,
}

impl Ledger {
    /// A ledger with no sheet yet: its header is due.
    pub fn new() -> Ledger {
        Ledger::default()
    }

    /// Loads the sheet with which a run begins. Returns the ledger, and the offset at which the blocks begin.
    ///
    /// Refusals: 1 to 7, with the offset of the frame.
    pub fn load(run: &[u8]) -> Result<(Ledger, usize), Refusal> {
        let mut ledger = Ledger::new();
        let at = ledger.load_anew(run)?;
        Ok((ledger, at))
    }

    /// Loads a run's sheet in the place of all that was there; the buffers are lent once more.
    pub(crate) fn load_anew(&mut self, run: &[u8]) -> Result<usize, Refusal> {
        self.numbers = [0; 22];
        let mut at = 0;
        while let Loading::Next(end) = self.load_frame(run, at)? {
            at = end;
        }
        Ok(at)
    }

    /// Loads the frame of the sheet at an offset: header, balances, or the next transaction. Refused, nothing changes.
    ///
    /// Refusals: 1 to 7, with the offset. On a complete sheet the answer is [`Loading::Complete`], whatever the bytes.
    pub fn load_frame(&mut self, run: &[u8], at: usize) -> Result<Loading, Refusal> {
        let is_begun = self.sizes().is_some();
        let mut told = [0; 2];
        let code = ffi::load(&mut self.numbers, run, at, &mut self.kept.sheet, &mut told);
        if code == NOTHING_LEFT {
            return Ok(Loading::Complete);
        }
        let [end, _] = checked(code, told)?;
        if !is_begun {
            let sizes = self.header().in_order();
            self.kept.lend(sizes);
            self.working.lend(sizes);
        }
        Ok(Loading::Next(end as usize))
    }

    /// The sizes, all 0 before the header is loaded.
    pub(crate) fn header(&self) -> Sizes {
        let [instances, accounts, registers, transactions, ..] = self.numbers;
        Sizes {
            instances,
            accounts,
            registers,
            transactions,
        }
    }

    /// The sizes of the sheet, once its header is loaded.
    pub fn sizes(&self) -> Option<Sizes> {
        let sizes = self.header();
        (sizes.instances > 0).then_some(sizes)
    }

    /// How many blocks of each instance are accepted.
    pub fn heights(&self) -> &[u16] {
        let heights = &self.numbers[HEIGHTS..];
        &heights[..heights.len().min(self.numbers[0].into())]
    }

    /// The bytes of all buffers that this ledger lends to the library.
    pub fn lent_bytes(&self) -> usize {
        self.kept.bytes() + self.working.bytes()
    }

    /// Reads on in a run whose sheet this ledger has: offers the block at an offset. Gives its answer and the offset of the
    /// next one; `None` where no byte is left.
    ///
    /// Refusals: 1 to 7, with the offset. A run's reading ends there.
    pub fn read_block(
        &mut self,
        run: &[u8],
        at: usize,
    ) -> Result<Option<(Answer, usize)>, Refusal> {
        let before = self.numbers;
        let answer = match self.offer_frame(run, at) {
            Offer::NoByte => return Ok(None),
            Offer::Refused(refusal) if refusal.ends_reading() => return Err(refusal),
            Offer::Refused(refusal) => Answer::Refused(refusal),
            Offer::Accepted => self.accepted_since(before),
        };
        Ok(frame(run, at)?.map(|frame| (answer, frame.end)))
    }

    /// The block that was accepted last: it raised its instance's height, and its sequence number is the new one.
    fn accepted_since(&self, before: [u16; 22]) -> Answer {
        let mut heights = (0..).zip(self.heights()).zip(&before[HEIGHTS..]);
        let risen = heights.find(|((_, height), before)| height != before);
        let (instance, sequence) =
            risen.map_or((0, 0), |((instance, height), _)| (instance, *height));
        Answer::Accepted { instance, sequence }
    }

    /// Offers the block's frame at an offset of some bytes. Only an accepted offer changes the ledger.
    ///
    /// Refusals: 1 to 5, with the offset; 8 to 15 and 17. For a ledger refusals 1 to 7 end nothing: a later offer is judged
    /// as any other. Whoever reads a run ends there, as [`Ledger::read_block`] does.
    pub fn offer_frame(&mut self, bytes: &[u8], at: usize) -> Offer {
        let mut told = [0; 2];
        let code = ffi::offer_frame(
            &mut self.numbers,
            &mut self.kept,
            &mut self.working,
            bytes,
            at,
            &mut told,
        );
        offered(code, told)
    }

    /// Offers a block's values. Only an accepted offer changes the ledger. Never [`Offer::NoByte`].
    ///
    /// Refusals: 3 or 5, with place 0; 8 to 15 and 17.
    pub fn offer_block(&mut self, block: &Block) -> Offer {
        let mut told = [0; 2];
        let code = ffi::offer_block(
            &mut self.numbers,
            &mut self.kept,
            &mut self.working,
            (block.instance, block.sequence, block.rank),
            &block.cut,
            &block.citations,
            &mut told,
        );
        offered(code, told)
    }

    /// Free and held amount of every account, from account 0 up. Refusal: 3 with place 0 before the sheet is complete.
    ///
    /// Readings leave the ledger as it is; they are `&mut` because the library works in lent buffers.
    pub fn accounts(&mut self) -> Result<Vec<Account>, Refusal> {
        let a = self.header().accounts.into();
        let (mut free, mut held) = (vec![0; a], vec![0; a]);
        let mut told = [0; 2];
        let code = ffi::accounts(
            &self.numbers,
            &self.kept,
            &mut self.working,
            &mut free,
            &mut held,
            &mut told,
        );
        checked(code, told)?;
        let amounts = free.into_iter().zip(held);
        Ok(amounts.map(|(free, held)| Account { free, held }).collect())
    }

    /// The registers, from register 0 up. Refusal: 3 with place 0 before the sheet is complete.
    pub fn registers(&mut self) -> Result<Vec<u32>, Refusal> {
        let g = self.header().registers.into();
        let mut values = vec![0; g];
        let mut told = [0; 2];
        let code = ffi::registers(
            &self.numbers,
            &self.kept,
            &mut self.working,
            &mut values,
            &mut told,
        );
        checked(code, told)?;
        Ok(values)
    }

    /// What became of every transaction, from transaction 0 up. Refusal: 3 with place 0 before the sheet is complete.
    pub fn settlements(&mut self) -> Result<Vec<Settlement>, Refusal> {
        let t = self.header().transactions.into();
        let mut statuses = vec![0; t];
        let mut told = [0; 2];
        let code = ffi::settlements(
            &self.numbers,
            &self.kept,
            &mut self.working,
            &mut statuses,
            &mut told,
        );
        checked(code, told)?;
        Ok(statuses.into_iter().map(settlement).collect())
    }

    /// Settled transactions (paid or returned) in thousandths of all, to the nearest and a tie to the even figure; 1000
    /// where there are none. Refusal: 3 with place 0 before the sheet is complete.
    pub fn share(&mut self) -> Result<u32, Refusal> {
        let mut told = [0; 2];
        let code = ffi::share(&self.numbers, &self.kept, &mut self.working, &mut told);
        let [_, share] = checked(code, told)?;
        Ok(share as u32)
    }

    /// The global log as (instance, sequence number), in log order. Refusal: 3 with place 0 before the sheet is complete.
    pub fn log(&self) -> Result<Vec<(u16, u16)>, Refusal> {
        // No log is longer than all blocks accepted.
        let most = self
            .heights()
            .iter()
            .map(|&height| usize::from(height))
            .sum();
        let (mut instances, mut sequences) = (vec![0; most], vec![0; most]);
        let mut told = [0; 2];
        let code = ffi::log(
            &self.numbers,
            &self.kept.ranks,
            &mut instances,
            &mut sequences,
            &mut told,
        );
        let [_, length] = checked(code, told)?;
        let log = instances.into_iter().zip(sequences);
        Ok(log.take(length as usize).collect())
    }
}

fn offered(code: u16, told: [u64; 2]) -> Offer {
    match checked(code, told) {
        _ if code == NOTHING_LEFT => Offer::NoByte,
        Ok(_) => Offer::Accepted,
        Err(refusal) => Offer::Refused(refusal),
    }
}

/// The boundary's numbers of settlements.
fn settlement(number: u8) -> Settlement {
    match number {
        1 => Settlement::Paid,
        2 => Settlement::Returned,
        _ => Settlement::Open,
    }
}
