//! "Plain ledger": the instance logs, and what is answered to an offer.
//!
//! "Its state is one list of blocks per instance, the instance log, empty at
//! first. An offer that meets no refusal below is put at the end of its
//! instance's log and answered as accepted. Any other changes no log".
//!
//! Refusal 16 has no place here: nothing is lent to this engine.

use std::cmp::Ordering;

use super::format::{self, Block, Refusal};
use super::rules::{self, Account, Outcomes, Picture, Status, View};
use super::sheet::Sheet;

/// What an offer is answered.
#[derive(Clone, Copy, Debug, PartialEq, Eq)]
pub enum Answer {
    Accepted { instance: u16, number: u16 },
    Refused(Refusal),
}

/// An instance holds at most this many blocks.
pub const MOST_BLOCKS: usize = 128;
/// A block cites at most this many transactions.
pub const MOST_CITATIONS: usize = 32;
/// A share is given in thousandths: this many are the whole.
pub const THOUSANDTHS: u32 = 1000;

/// The instance logs. Block n of an instance stands at place n - 1.
#[derive(Clone, Debug, PartialEq, Eq)]
pub struct Logs {
    lists: Vec<Vec<Block>>,
}

impl Logs {
    pub fn new(instances: usize) -> Logs {
        Logs { lists: vec![Vec::new(); instances] }
    }

    pub fn instances(&self) -> usize {
        self.lists.len()
    }

    /// The log of one instance, in number order.
    pub fn of(&self, instance: usize) -> &[Block] {
        &self.lists[instance]
    }

    /// The block with a sequence number, if it is there.
    pub fn block(&self, instance: usize, number: usize) -> Option<&Block> {
        self.lists.get(instance)?.get(number.checked_sub(1)?)
    }

    pub fn all(&self) -> impl Iterator<Item = &Block> {
        self.lists.iter().flatten()
    }

    /// Puts a block at the end of its instance's log. Only for one that
    /// [`Logs::judge`] has passed.
    pub fn push(&mut self, block: Block) {
        self.lists[usize::from(block.instance)].push(block);
    }

    /// The refusals of a block, in order: "8, 17, 9, 10, 11 over all entries,
    /// 12 over all entries, then 13, 14, 15 at each citation in turn".
    pub fn judge(&self, sheet: &Sheet, block: &Block) -> Result<(), Refusal> {
        if block.instance >= sheet.head.m {
            return Err(Refusal::new(8, 0));
        }
        let own = usize::from(block.instance);
        if self.of(own).len() >= MOST_BLOCKS {
            return Err(Refusal::new(17, 0));
        }
        let due = self.of(own).len() + 1;
        if usize::from(block.number) != due {
            return Err(Refusal::new(9, due));
        }
        let last_rank = self.of(own).last().map_or(0, |last| last.rank);
        if block.rank == 0 || block.rank <= last_rank {
            return Err(Refusal::new(10, last_rank as usize));
        }
        self.judge_cut(block)?;
        self.judge_citations(sheet, block)
    }

    /// 11 over all entries, then 12 over all entries.
    fn judge_cut(&self, block: &Block) -> Result<(), Refusal> {
        let own = usize::from(block.instance);
        let before = self.of(own).last();
        for entry in 0..self.instances() {
            let count = block.cut[entry];
            // "own entry is not sequence number − 1"
            let not_own = entry == own && usize::from(count) + 1 != usize::from(block.number);
            // "or an entry is below that of the instance's block before"
            let falls = before.is_some_and(|before| count < before.cut[entry]);
            if not_own || falls {
                return Err(Refusal::new(11, entry));
            }
        }
        for entry in 0..self.instances() {
            if usize::from(block.cut[entry]) > self.of(entry).len() {
                return Err(Refusal::new(12, entry));
            }
        }
        Ok(())
    }

    /// 13, 14 and 15, place by place.
    fn judge_citations(&self, sheet: &Sheet, block: &Block) -> Result<(), Refusal> {
        let own = usize::from(block.instance);
        for (place, transaction) in block.citations.iter().enumerate() {
            if *transaction >= sheet.head.t {
                return Err(Refusal::new(13, place));
            }
            if sheet.part(usize::from(*transaction), own).is_empty() {
                return Err(Refusal::new(14, place));
            }
            // "already cited by this instance, earlier places of this block
            // included"
            let earlier = self.of(own).iter().flat_map(|block| &block.citations);
            if earlier.chain(&block.citations[..place]).any(|cited| cited == transaction) {
                return Err(Refusal::new(15, place));
            }
        }
        Ok(())
    }
}

/// The plain ledger on a complete sheet.
///
/// The state is sheet and logs. The outcomes beside them are a memo: they
/// are judged when a block is accepted and kept, since "The outcome is never
/// changed". [`rules::outcomes`] gives the same from the logs alone.
#[derive(Clone, Debug, PartialEq, Eq)]
pub struct Ledger {
    sheet: Sheet,
    logs: Logs,
    outcomes: Outcomes,
}

impl Ledger {
    /// A fresh ledger. The sheet has to be complete.
    pub fn new(sheet: Sheet) -> Ledger {
        let logs = Logs::new(sheet.instances());
        let outcomes = Outcomes::new(sheet.instances());
        Ledger { sheet, logs, outcomes }
    }

    pub fn sheet(&self) -> &Sheet {
        &self.sheet
    }

    pub fn logs(&self) -> &Logs {
        &self.logs
    }

    /// Part outcomes: for each instance and each of its blocks, good or not
    /// for each citation.
    pub fn outcomes(&self) -> &Outcomes {
        &self.outcomes
    }

    /// Offers the slip at an offset at which a byte is left: "for a slip 1
    /// (length field), 2, 1 (body), 3, 4, 5", then the refusals of a block.
    pub fn offer_slip(&mut self, bytes: &[u8], offset: usize) -> Answer {
        let block = match self.read_block(bytes, offset) {
            Ok(block) => block,
            Err(refusal) => return Answer::Refused(refusal),
        };
        self.offer(block)
    }

    /// The block slip at an offset: of all kinds only 4 is due here.
    fn read_block(&self, bytes: &[u8], offset: usize) -> Result<Block, Refusal> {
        let slip = format::slip_at(bytes, offset)?;
        if slip.kind != 4 {
            return Err(Refusal::new(3, offset));
        }
        let block = format::block(slip.body, self.sheet.head.m).ok_or(Refusal::new(4, offset))?;
        if block.citations.len() > MOST_CITATIONS {
            return Err(Refusal::new(5, offset));
        }
        Ok(block)
    }

    /// Offers values: "5 with place 0 if its count is above 32 or an unused
    /// cut entry is not 0", then the refusals of a block.
    pub fn offer_values(&mut self, block: &Block) -> Answer {
        let unused = &block.cut[self.sheet.instances()..];
        if block.citations.len() > MOST_CITATIONS || unused.iter().any(|entry| *entry != 0) {
            return Answer::Refused(Refusal::new(5, 0));
        }
        self.offer(block.clone())
    }

    /// Judges a block, puts it at the end of its log, and judges its parts.
    fn offer(&mut self, block: Block) -> Answer {
        if let Err(refusal) = self.logs.judge(&self.sheet, &block) {
            return Answer::Refused(refusal);
        }
        let (instance, number) = (block.instance, block.number);
        self.logs.push(block);
        rules::judge_block(&self.sheet, &self.logs, &mut self.outcomes, instance.into());
        Answer::Accepted { instance, number }
    }

    /// "The full view is everything accepted."
    fn full_picture(&self) -> Picture<'_> {
        Picture::of(&self.sheet, &self.logs, &self.outcomes, &View::full(&self.logs))
    }

    /// Free and held of every account, in account order.
    pub fn accounts(&self) -> Vec<Account> {
        self.full_picture().accounts()
    }

    pub fn registers(&self) -> Vec<u32> {
        self.full_picture().registers().to_vec()
    }

    pub fn settlements(&self) -> Vec<Status> {
        self.full_picture().settlements().to_vec()
    }

    /// "settled transactions (paid or returned) in thousandths of t", rounded
    /// as request 05 says.
    pub fn share(&self) -> u32 {
        let settlements = self.settlements();
        let settled = settlements.iter().filter(|status| **status != Status::Open).count() as u32;
        share(settled, self.sheet.head.t.into())
    }

    /// The global log of the full view, as (instance, sequence number).
    pub fn log(&self) -> Vec<(u16, u16)> {
        let log = rules::global_log(&self.logs, &View::full(&self.logs));
        log.iter().map(|block| (block.instance, block.number)).collect()
    }
}

/// So many settled transactions of all, at most all, "in thousandths of t".
///
/// Request 05: "round to nearest, a tie to the even figure". "One settled of 16
/// is 62.5 thousandths and prints 62; three of 16 is 187.5 and prints 188."
pub fn share(settled: u32, all: u32) -> u32 {
    // Document 01: "1000 if t is 0". Request 05: "t 0 still prints 1000".
    if all == 0 {
        return THOUSANDTHS;
    }
    let (all, thousandths) = (u64::from(all), u64::from(settled) * u64::from(THOUSANDTHS));
    // The share is not below the one figure, and below the other.
    let lower = (thousandths / all) as u32;
    let upper = lower + 1;
    // How far it is from either of them, both times `all`.
    let above_lower = thousandths % all;
    let below_upper = all - above_lower;
    match above_lower.cmp(&below_upper) {
        Ordering::Less => lower,
        Ordering::Greater => upper,
        Ordering::Equal if lower.is_multiple_of(2) => lower,
        Ordering::Equal => upper,
    }
}
