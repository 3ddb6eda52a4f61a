//! Seeded runs: the same seed gives the same bytes, always and everywhere.
//!
//! * [`random`] — the little generator of numbers;
//! * [`sheets`] — sheets: scarce balances, chains, self payments, contracts;
//! * [`blocks`] — deliveries: ranks, cuts, turns and citations of every habit;
//! * [`pace`] — the habits of one delivery;
//! * [`silent`] — runs with instances that deliver nothing, or begin late;
//! * [`ties`] — runs whose share is at a tie, or beside one;
//! * [`spoil`] — blocks that are to be turned away (8 to 15 and 17);
//! * [`damage`] — slips and runs that are not sound (1 to 7);
//! * [`bounds`] — runs that hang on the last place of every list;
//! * [`full`] — one run that fills 65,536 bytes.

pub mod blocks;
pub mod bounds;
pub mod damage;
pub mod full;
pub mod pace;
pub mod random;
pub mod sheets;
pub mod silent;
pub mod spoil;
pub mod ties;

use crate::engine::text::LONGEST_RUN;
use crate::engine::{write, Block, Logs, Sheet};
use pace::Pace;
use random::Random;

/// So many runs of a hundred are about instances that deliver nothing.
const SILENT: u64 = 40;
/// So many of a hundred are about ties, but for tiny ones, which have none.
const TIES: u64 = 25;

/// How large a run is.
#[derive(Clone, Copy, Debug, PartialEq, Eq)]
pub enum Size {
    /// Up to 3 instances, 5 accounts, 6 transactions and 12 offers.
    Tiny,
    /// Up to 5 instances, 16 accounts, 40 transactions and 60 offers, at
    /// times enough offers to fill an instance.
    Small,
    /// Up to 16 instances, 128 accounts, 200 transactions and 300 offers.
    Medium,
    /// Every limit of the head, as far as 65,536 bytes go.
    Large,
    /// 16 instances with 128 blocks each, 1,024 accounts, 64 registers and
    /// 1,024 transactions: more bytes than `readrun` takes.
    Largest,
}

/// A sheet and the blocks offered on it, in order.
#[derive(Clone, Debug)]
pub struct Run {
    pub sheet: Sheet,
    pub offers: Vec<Block>,
}

impl Run {
    /// The slips, one by one.
    pub fn slips(&self) -> Vec<Vec<u8>> {
        let mut slips = write::sheet(&self.sheet);
        slips.extend(self.offers.iter().map(|block| write::block(block, self.sheet.head.m)));
        slips
    }

    pub fn bytes(&self) -> Vec<u8> {
        self.slips().concat()
    }

    /// The instance logs that the offers come to.
    pub fn logs(&self) -> Logs {
        let mut logs = Logs::new(self.sheet.instances());
        for block in &self.offers {
            if logs.judge(&self.sheet, block).is_ok() {
                logs.push(block.clone());
            }
        }
        logs
    }
}

/// A run of a size whose slips are all sound. `noise` is the share of offers,
/// in percent, that are meant to be turned away. Many of the runs are about
/// instances that deliver nothing, some about ties of the share.
pub fn run(random: &mut Random, size: Size, noise: u64) -> Run {
    if size == Size::Largest {
        return plain(random, size, noise);
    }
    let ticket = random.below(100);
    if ticket < SILENT {
        return silent::run(random, size, noise);
    }
    if ticket < SILENT + TIES && size != Size::Tiny {
        return ties::run(random, size, noise);
    }
    plain(random, size, noise)
}

/// A run in which instances deliver nothing, or the share is at a tie, only by
/// chance.
pub fn plain(random: &mut Random, size: Size, noise: u64) -> Run {
    let sheet = sheets::sheet(random, size);
    let pace = Pace::random(random, &sheet, size, budget(&sheet, size), noise);
    let offers = blocks::offers(random, &sheet, &pace);
    Run { sheet, offers }
}

/// How many bytes the blocks of a run may take.
fn budget(sheet: &Sheet, size: Size) -> usize {
    let taken: usize = write::sheet(sheet).iter().map(Vec::len).sum();
    match size {
        Size::Largest => usize::MAX,
        _ => LONGEST_RUN.saturating_sub(taken),
    }
}

/// Whether a seed stands for a run at the limits: every tenth does.
pub fn is_at_the_limits(seed: u64) -> bool {
    seed % 10 == 7
}

/// The bytes that a seed stands for, for `gen` and `compare`.
pub fn bytes(seed: u64) -> Vec<u8> {
    if is_at_the_limits(seed) {
        return at_the_limits(seed);
    }
    usual(seed)
}

/// Runs at the limits, some of them damaged at the last transaction.
fn at_the_limits(seed: u64) -> Vec<u8> {
    let mut random = Random::new(seed);
    let run = bounds::run(&mut random);
    match random.below(100) {
        0..12 => damage::last_transaction(&mut random, &run),
        _ => run.bytes(),
    }
}

/// Runs of every size but the largest, mostly small and medium ones, some of
/// them noisy, some damaged.
pub fn usual(seed: u64) -> Vec<u8> {
    let mut random = Random::new(seed);
    let size = match random.below(100) {
        0..34 => Size::Tiny,
        34..70 => Size::Small,
        70..94 => Size::Medium,
        _ => Size::Large,
    };
    any(&mut random, size)
}

/// The bytes that a seed stands for in the long comparison. Every tenth run
/// is a usual one, every hundredth one at the limits; the others are tiny or
/// small, so that a million of them are read within the hour.
pub fn mostly_small(seed: u64) -> Vec<u8> {
    if seed.is_multiple_of(10) || seed % 100 == 7 {
        return bytes(seed);
    }
    let mut random = Random::new(seed);
    let size = random.pick(&[Size::Tiny, Size::Tiny, Size::Tiny, Size::Small, Size::Small]);
    any(&mut random, size)
}

/// A run of a size: sound, noisy or damaged.
fn any(random: &mut Random, size: Size) -> Vec<u8> {
    let noise = random.pick(&[0, 0, 5, 20, 50]);
    let run = run(random, size, noise);
    match (size, random.below(100)) {
        (_, 0..3) => damage::near_the_limit(random, &run),
        (_, 3..25) => damage::damaged(random, &run),
        // Small sheets are quickly read, so they carry most of the faults.
        (Size::Tiny, 25..65) | (Size::Small, 25..35) => damage::one_fault(random, &run),
        _ => run.bytes(),
    }
}
