//! Runs whose share is at a tie, or one transaction beside it.
//!
//! Request 05: "round to nearest, a tie to the even figure". There is a tie
//! only if t is a multiple of 16. Such a run is like any other but for its
//! end: some payments with one debit each have been kept back, and the last
//! blocks cite as many of them as are wanting. Each is settled by that.

use super::blocks::{self, Delivery};
use super::pace::Pace;
use super::random::Random;
use super::{sheets, Run, Size};
use crate::cases::payment;
use crate::engine::ledger::{MOST_CITATIONS, THOUSANDTHS};
use crate::engine::{Block, Ledger, Sheet, Status};

/// If t is a multiple of this, every odd number of such parts of it is a tie.
const PARTS: usize = 16;
/// The bytes of a block with 16 instances and 32 citations.
const LONGEST_BLOCK: usize = 112;

/// A run of a size that has room for 16 transactions.
pub fn run(random: &mut Random, size: Size, noise: u64) -> Run {
    let mut sheet = sheet(random, size);
    let kept = KeptBack::random(random, &mut sheet);
    let budget = super::budget(&sheet, size).saturating_sub(kept.blocks() * LONGEST_BLOCK);
    let pace = Pace::random(random, &sheet, size, budget, noise);
    let offers = pace.offers.saturating_sub(kept.blocks());
    let pace = Pace { offers, kept_back: kept.numbers.len(), ..pace };
    let delivery = blocks::delivery(random, &sheet, &pace);
    let offers = kept.close(random, delivery);
    Run { sheet, offers }
}

/// A sheet whose t is a multiple of 16, but not 0.
fn sheet(random: &mut Random, size: Size) -> Sheet {
    let multiple = |count: usize| (count - count % PARTS).max(PARTS);
    let mut head = sheets::head(random, size);
    head.t = multiple(head.t.into()) as u16;
    let mut sheet = sheets::with_head(random, size, head);
    sheet.transactions.truncate(multiple(sheet.transactions.len()));
    sheet.head.t = sheet.transactions.len() as u16;
    sheet
}

/// The last transactions of a sheet, in any order: payments of one instance
/// with one debit, paid or returned as soon as they are cited.
struct KeptBack {
    instance: usize,
    numbers: Vec<u16>,
}

impl KeptBack {
    /// Writes them over what the sheet has there. From one tie to the next it
    /// is an eighth of t at most; they are more than that.
    fn random(random: &mut Random, sheet: &mut Sheet) -> KeptBack {
        let accounts = sheet.head.a;
        let anyone = |random: &mut Random| random.below(accounts.into()) as u16;
        let instance = sheet.instance_of(anyone(random));
        let payers: Vec<u16> =
            (0..accounts).filter(|k| sheet.instance_of(*k) == instance).collect();
        let eighth = sheet.transactions.len() / (PARTS / 2);
        let first = sheet.transactions.len() - eighth - 1 - random.place(eighth);
        for transaction in &mut sheet.transactions[first..] {
            let amount = 1 + random.below(6) as u32;
            let (payer, payee) = (random.pick(&payers), anyone(random));
            *transaction = payment(&[(payer, amount)], &[(payee, amount)]);
        }
        let mut numbers: Vec<u16> = (first as u16..sheet.head.t).collect();
        numbers.sort_by_cached_key(|_| random.bits());
        KeptBack { instance, numbers }
    }

    /// How many blocks can cite them all.
    fn blocks(&self) -> usize {
        self.numbers.len().div_ceil(MOST_CITATIONS)
    }

    /// The offers of a delivery, and the last blocks. These are there before it
    /// is asked what they have to cite, since they put others into the log. If
    /// the instance can have no other block, the share is what it is.
    fn close(&self, random: &mut Random, mut delivery: Delivery<'_>) -> Vec<Block> {
        let before = delivery.offers.len();
        for _ in 0..self.blocks() {
            let block = delivery.citing(random, self.instance, Vec::new());
            if delivery.logs.judge(delivery.sheet, &block).is_ok() {
                delivery.offer(block);
            }
        }
        let Delivery { sheet, mut offers, .. } = delivery;
        let cited = &self.numbers[..self.wanting(random, sheet, settled(sheet, &offers))];
        for (block, citations) in offers[before..].iter_mut().zip(cited.chunks(MOST_CITATIONS)) {
            block.citations = citations.to_vec();
        }
        offers
    }

    /// How many of them are wanting to a tie, or to one less or one more.
    fn wanting(&self, random: &mut Random, sheet: &Sheet, settled: usize) -> usize {
        let most = self.numbers.len();
        let reached = |more: &usize| is_tie(settled + more, sheet.transactions.len());
        let ties: Vec<usize> = (0..=most).filter(reached).collect();
        let tie = random.pick(&ties);
        random.pick(&[tie, tie, tie, tie, tie.saturating_sub(1), most.min(tie + 1)])
    }
}

/// How many transactions the offers settle.
fn settled(sheet: &Sheet, offers: &[Block]) -> usize {
    let mut ledger = Ledger::new(sheet.clone());
    for block in offers {
        ledger.offer_values(block);
    }
    ledger.settlements().iter().filter(|status| **status != Status::Open).count()
}

/// Whether the thousandths of so many of all end in a half.
fn is_tie(settled: usize, all: usize) -> bool {
    2 * (settled * THOUSANDTHS as usize % all) == all
}
