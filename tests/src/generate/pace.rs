//! The habits of a delivery: turns, ranks, cuts, citations.

use super::random::Random;
use super::silent::Silence;
use super::Size;
use crate::engine::ledger::{MOST_BLOCKS, MOST_CITATIONS};
use crate::engine::Sheet;

/// The habits of one delivery.
#[derive(Clone, Debug)]
pub struct Pace {
    /// How many blocks are offered.
    pub(super) offers: usize,
    /// How many bytes they may take.
    pub(super) budget: usize,
    /// Offers meant to be turned away, in percent.
    pub(super) noise: u64,
    /// How often each instance has its turn; 0 if it never delivers.
    pub(super) weights: Vec<u64>,
    /// An instance that delivers nothing before so many blocks of the others.
    pub(super) late: Option<(usize, usize)>,
    /// Instances that are to deliver nothing; some noise is theirs.
    pub(super) silent: Vec<usize>,
    /// Who delivers the first blocks, in this order.
    pub(super) opening: Vec<usize>,
    /// How often the same instance goes on, in percent.
    pub(super) bursts: u64,
    pub(super) ranks: Ranks,
    pub(super) cuts: Cuts,
    /// Blocks without citations, in percent.
    pub(super) empty: u64,
    pub(super) most_citations: u64,
    /// How often citations follow the order of the sheet, in percent.
    pub(super) in_order: u64,
    /// Parts that are never cited, in percent.
    pub(super) forgotten: u64,
    /// So many of the last transactions are not cited.
    pub(super) kept_back: usize,
}

/// How ranks grow.
#[derive(Clone, Copy, Debug)]
pub(super) enum Ranks {
    /// One more than the last of the instance: ties everywhere.
    Steps,
    /// The next multiple of four: ties with gaps.
    Coarse,
    /// Above every rank in the block's cut, as a leader would choose it.
    AboveCut,
    Jumps,
    /// From 1 on, mostly, in steps of one or two.
    Low,
    /// From just below 2^32 − 1 on, until it is reached.
    Top,
}

/// How much of the others a block has seen.
#[derive(Clone, Copy, Debug)]
pub(super) enum Cuts {
    /// Everything accepted so far.
    Exact,
    /// Anything between the block before and everything.
    Lagging,
    /// As little as possible.
    Still,
    /// Each entry in its own way.
    Mixed,
}

impl Pace {
    pub fn random(
        random: &mut Random,
        sheet: &Sheet,
        size: Size,
        budget: usize,
        noise: u64,
    ) -> Pace {
        let offers = offers(random, sheet, size, noise);
        let ranks = [Ranks::Steps, Ranks::Coarse, Ranks::AboveCut, Ranks::Jumps, Ranks::Top];
        let cuts = [Cuts::Exact, Cuts::Exact, Cuts::Lagging, Cuts::Still, Cuts::Mixed];
        Pace {
            offers,
            budget,
            noise,
            weights: weights(random, sheet, size),
            late: late(random, sheet, offers).filter(|_| size != Size::Largest),
            silent: Vec::new(),
            opening: Vec::new(),
            bursts: random.pick(&[0, 0, 60, 90]),
            ranks: random.pick(if size == Size::Largest { &ranks[..4] } else { &ranks }),
            cuts: random.pick(&cuts),
            empty: random.pick(&[0, 10, 40]),
            most_citations: random.pick(&[1, 3, 8, 32]),
            in_order: random.pick(&[0, 80, 100]),
            forgotten: random.pick(&[0, 0, 5, 30]),
            kept_back: 0,
        }
    }

    /// For a delivery in which some instances deliver nothing, or begin late;
    /// the others begin with low ranks and the first transactions, mostly one
    /// after the other. Now and then one of them goes on until it is full.
    pub fn around(self, random: &mut Random, size: Size, silence: &Silence) -> Pace {
        let opening = silence.opening(random);
        let mut offers = self.offers.max(random.place(2 * opening.len() + 2));
        let mut weights = silence.weights();
        if size != Size::Tiny && random.chance(8) {
            offers = offers.max(2 * MOST_BLOCKS);
            weights[random.pick(&opening)] *= 20;
        }
        let after = offers / 3 + random.place(offers / 2 + 1);
        let ranks = [Ranks::Low, Ranks::Low, Ranks::Steps, Ranks::AboveCut, self.ranks];
        Pace {
            offers,
            weights,
            late: silence.late.map(|instance| (instance, after)),
            silent: silence.silent.clone(),
            opening,
            ranks: random.pick(&ranks),
            cuts: random.pick(&[Cuts::Exact, Cuts::Exact, Cuts::Exact, self.cuts]),
            empty: random.pick(&[0, 0, 0, self.empty]),
            most_citations: random.pick(&[1, 2, 3, self.most_citations]),
            in_order: random.pick(&[100, 100, 100, self.in_order]),
            forgotten: random.pick(&[0, 0, 0, self.forgotten]),
            ..self
        }
    }

    /// For a delivery whose citations are given: mostly each block has seen
    /// all that is there, and comes after it.
    pub fn thorough(random: &mut Random, sheet: &Sheet) -> Pace {
        let above = Ranks::AboveCut;
        let exact = Cuts::Exact;
        Pace {
            offers: usize::MAX,
            budget: usize::MAX,
            noise: 0,
            weights: vec![1; sheet.instances()],
            late: None,
            silent: Vec::new(),
            opening: Vec::new(),
            bursts: 0,
            ranks: random.pick(&[above, above, above, above, Ranks::Steps, Ranks::Coarse]),
            cuts: random.pick(&[exact, exact, exact, exact, Cuts::Lagging, Cuts::Mixed]),
            empty: 0,
            most_citations: MOST_CITATIONS as u64,
            in_order: 100,
            forgotten: 0,
            kept_back: 0,
        }
    }
}

/// How many blocks are offered.
fn offers(random: &mut Random, sheet: &Sheet, size: Size, noise: u64) -> usize {
    let fill = sheet.instances() * MOST_BLOCKS;
    let most = match size {
        Size::Tiny => 12,
        Size::Small if random.chance(6) => (fill + 8).min(400),
        Size::Small => 60,
        Size::Medium => 300,
        Size::Large => fill + 8,
        // Every instance gets its 128 blocks.
        Size::Largest => return fill * 200 / (100 - noise.min(90)) as usize,
    };
    random.within(0..=most as u64) as usize
}

/// Mostly all alike; sometimes a straggler, sometimes silent instances.
fn weights(random: &mut Random, sheet: &Sheet, size: Size) -> Vec<u64> {
    let mut weights = vec![20; sheet.instances()];
    let habit = if size == Size::Largest { 0 } else { random.below(10) };
    match habit {
        0..7 => {}
        7..9 => weights[random.place(sheet.instances())] = 1,
        _ => weights.iter_mut().for_each(|weight| *weight *= random.below(2)),
    }
    weights
}

/// Now and then a latecomer.
fn late(random: &mut Random, sheet: &Sheet, offers: usize) -> Option<(usize, usize)> {
    let instance = random.place(sheet.instances());
    let after = random.place(offers / 2 + 1);
    (sheet.instances() > 1 && random.chance(15)).then_some((instance, after))
}
