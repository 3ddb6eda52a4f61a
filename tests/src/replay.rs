//! The same instance logs, delivered again.
//!
//! "Each group replays the blocks in the order in which its own replica
//! received them": here an accepted run's logs are put into a random order
//! that the plain ledger accepts, with offers in between that it turns away.

use crate::engine::ledger::MOST_CITATIONS;
use crate::engine::{write, Answer, Block, Engine, Logs, Sheet};
use crate::generate::random::Random;
use crate::generate::{damage, spoil};

/// One offer to a plain ledger.
#[derive(Clone, Debug)]
pub enum Offer {
    /// The slip at an offset in some bytes.
    Slip {
        bytes: Vec<u8>,
        offset: usize,
    },
    Values(Block),
}

impl Offer {
    /// Makes the offer to the second engine.
    pub fn make(&self, engine: &mut Engine) -> Answer {
        match self {
            Offer::Slip { bytes, offset } => engine.offer_slip(bytes, *offset),
            Offer::Values(block) => engine.offer_values(block),
        }
    }
}

/// All blocks of the logs in a random order in which each comes after those
/// of its cut and after the earlier ones of its own instance.
pub fn order(random: &mut Random, logs: &Logs) -> Vec<Block> {
    let mut counts = vec![0; logs.instances()];
    let mut blocks = Vec::new();
    // Some orders go in bursts, so that one instance runs far ahead.
    let bursts = random.pick(&[0, 50, 95]);
    let mut last = 0;
    loop {
        let ready: Vec<usize> =
            (0..logs.instances()).filter(|i| next(logs, &counts, *i).is_some()).collect();
        if ready.is_empty() {
            return blocks;
        }
        if !ready.contains(&last) || !random.chance(bursts) {
            last = random.pick(&ready);
        }
        blocks.extend(next(logs, &counts, last).cloned());
        counts[last] += 1;
    }
}

/// The next block of an instance, if the counts cover its cut.
fn next<'a>(logs: &'a Logs, counts: &[usize], instance: usize) -> Option<&'a Block> {
    let block = logs.block(instance, counts[instance] + 1)?;
    let covered = counts.iter().zip(block.cut).all(|(count, entry)| usize::from(entry) <= *count);
    covered.then_some(block)
}

/// Offers that come to the given logs: their blocks in a random order, as
/// slips or as values, and between them offers that are turned away. `noise`
/// is the chance of another such offer, in percent (below 100).
pub fn offers(random: &mut Random, sheet: &Sheet, logs: &Logs, noise: u64) -> Vec<Offer> {
    let mut so_far = Logs::new(sheet.instances());
    let mut offers = Vec::new();
    for block in order(random, logs) {
        while random.chance(noise) {
            offers.extend(refused(random, sheet, logs, &so_far, &block));
        }
        offers.push(sound(random, sheet, &block));
        so_far.push(block);
    }
    while random.chance(noise) {
        if let Some(block) = logs.all().last() {
            offers.extend(refused(random, sheet, logs, &so_far, block));
        }
    }
    offers
}

/// A block as a slip or as values.
fn sound(random: &mut Random, sheet: &Sheet, block: &Block) -> Offer {
    if random.chance(50) {
        return Offer::Values(block.clone());
    }
    slip(random, write::block(block, sheet.head.m))
}

/// A slip with other bytes before and perhaps behind it.
fn slip(random: &mut Random, slip: Vec<u8>) -> Offer {
    let offset = random.place(6);
    let mut bytes: Vec<u8> = (0..offset).map(|_| random.bits() as u8).collect();
    bytes.extend(slip);
    Offer::Slip { bytes, offset }
}

/// An offer that the logs so far turn away; `None` if it happens to be one
/// that they accept.
fn refused(
    random: &mut Random,
    sheet: &Sheet,
    logs: &Logs,
    so_far: &Logs,
    next: &Block,
) -> Option<Offer> {
    match random.below(4) {
        0 => Some(damaged_slip(random, sheet, next)),
        1 => Some(damaged_values(random, sheet, next)),
        choice => {
            let block = if choice == 2 {
                // A block of the run, too early or too late.
                let all: Vec<&Block> = logs.all().collect();
                random.pick(&all).clone()
            } else {
                spoil::spoil(random, sheet, so_far, next.clone())
            };
            let turned_away = so_far.judge(sheet, &block).is_err();
            turned_away.then(|| sound(random, sheet, &block))
        }
    }
}

/// A slip with one of the refusals 1 to 5, at least one byte of it there.
fn damaged_slip(random: &mut Random, sheet: &Sheet, block: &Block) -> Offer {
    let written = write::block(block, sheet.head.m);
    let mut faulty = damage::shape_faults(&written);
    // Among the kinds tried there is 4 itself, which is no fault.
    faulty.retain(|slip| *slip != written);
    faulty.extend(damage::block_faults(sheet, block));
    let chosen = random.place(faulty.len());
    slip(random, faulty.swap_remove(chosen))
}

/// Values with refusal 5: a list too long, or an unused entry that is not 0.
fn damaged_values(random: &mut Random, sheet: &Sheet, block: &Block) -> Offer {
    let mut block = block.clone();
    let m = sheet.instances();
    if m == block.cut.len() || random.chance(50) {
        block.citations.resize(MOST_CITATIONS + 1, 0);
    } else {
        block.cut[m + random.place(block.cut.len() - m)] = 1;
    }
    Offer::Values(block)
}
