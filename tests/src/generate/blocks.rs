//! Deliveries: the blocks of a run, in the order in which they are offered.

use super::pace::{Cuts, Pace, Ranks};
use super::random::Random;
use super::spoil;
use crate::engine::ledger::{MOST_BLOCKS, MOST_CITATIONS};
use crate::engine::{write, Block, Cut, Logs, Sheet};

/// The blocks of a run. Those that are not noise are all accepted.
pub fn offers(random: &mut Random, sheet: &Sheet, pace: &Pace) -> Vec<Block> {
    delivery(random, sheet, pace).offers
}

/// The delivery of such blocks, come to its end.
pub fn delivery<'a>(random: &mut Random, sheet: &'a Sheet, pace: &'a Pace) -> Delivery<'a> {
    let mut delivery = Delivery::new(random, sheet, pace);
    let mut left = pace.budget;
    while delivery.offers.len() < pace.offers {
        let Some(block) = delivery.next(random) else {
            break;
        };
        match left.checked_sub(write::block(&block, sheet.head.m).len()) {
            Some(rest) => left = rest,
            None => break,
        }
        delivery.offer(block);
    }
    delivery
}

/// A delivery under way.
pub struct Delivery<'a> {
    pub sheet: &'a Sheet,
    pace: &'a Pace,
    pub logs: Logs,
    /// For each instance the transactions with a part there that it may cite.
    pools: Vec<Vec<u16>>,
    last: usize,
    pub offers: Vec<Block>,
}

impl<'a> Delivery<'a> {
    pub fn new(random: &mut Random, sheet: &'a Sheet, pace: &'a Pace) -> Delivery<'a> {
        let cited = sheet.transactions.len() - pace.kept_back;
        let mut pool = |instance| {
            let here = |number: &u16| !sheet.part(usize::from(*number), instance).is_empty();
            let mut pool: Vec<u16> = (0..cited as u16).filter(here).collect();
            pool.retain(|_| !random.chance(pace.forgotten));
            pool
        };
        let pools = (0..sheet.instances()).map(&mut pool).collect();
        let logs = Logs::new(sheet.instances());
        Delivery { sheet, pace, logs, pools, last: 0, offers: Vec::new() }
    }

    /// The next offer. `None` if no instance can go on and no noise is wanted.
    fn next(&mut self, random: &mut Random) -> Option<Block> {
        let wants_noise = random.chance(self.pace.noise);
        match self.turn(random) {
            Some(instance) if wants_noise => Some(self.spoiled(random, instance)),
            Some(instance) => Some(self.block(random, instance)),
            None if self.pace.noise > 0 => Some(self.spoiled(random, self.last)),
            None => None,
        }
    }

    /// A block with faults: of a given instance, or at times of one that is to
    /// stay silent, and then in any case one that is turned away.
    fn spoiled(&self, random: &mut Random, instance: usize) -> Block {
        let silent = &self.pace.silent;
        if silent.is_empty() || random.chance(60) {
            let block = self.block(random, instance);
            return spoil::spoil(random, self.sheet, &self.logs, block);
        }
        let instance = random.pick(silent);
        let block = self.block(random, instance);
        let mut block = spoil::spoil(random, self.sheet, &self.logs, block);
        if self.logs.judge(self.sheet, &block).is_ok() {
            block.rank = 0;
        }
        block
    }

    /// Keeps account of an offer.
    pub fn offer(&mut self, block: Block) {
        if self.logs.judge(self.sheet, &block).is_ok() {
            let instance = usize::from(block.instance);
            self.pools[instance].retain(|number| !block.citations.contains(number));
            self.last = instance;
            self.logs.push(block.clone());
        }
        self.offers.push(block);
    }

    /// Whose turn it is, among those that can have another block.
    fn turn(&self, random: &mut Random) -> Option<usize> {
        let blocks = self.logs.all().count();
        if let Some(instance) = self.pace.opening.get(blocks) {
            return Some(*instance);
        }
        let can = |instance: usize| {
            let log = self.logs.of(instance);
            let waits =
                self.pace.late.is_some_and(|(late, after)| late == instance && blocks < after);
            !waits && log.len() < MOST_BLOCKS && log.last().map_or(0, |last| last.rank) < u32::MAX
        };
        let weight = |instance: usize| if can(instance) { self.pace.weights[instance] } else { 0 };
        if weight(self.last) > 0 && random.chance(self.pace.bursts) {
            return Some(self.last);
        }
        let total: u64 = (0..self.logs.instances()).map(weight).sum();
        let mut ticket = random.below(total);
        (0..self.logs.instances()).find(|instance| {
            let drawn = ticket < weight(*instance);
            ticket = ticket.saturating_sub(weight(*instance));
            drawn
        })
    }

    /// A block of an instance that would be accepted, if any would.
    fn block(&self, random: &mut Random, instance: usize) -> Block {
        let block = self.citing(random, instance, Vec::new());
        Block { citations: self.citations(random, instance), ..block }
    }

    /// The same with citations that are given.
    pub fn citing(&self, random: &mut Random, instance: usize, citations: Vec<u16>) -> Block {
        let cut = self.cut(random, instance);
        let number = self.logs.of(instance).len() as u16 + 1;
        let rank = self.rank(random, instance, &cut);
        Block { instance: instance as u16, number, rank, cut, citations }
    }

    fn cut(&self, random: &mut Random, own: usize) -> Cut {
        let mut cut = [0; 16];
        for (entry, count) in cut.iter_mut().enumerate().take(self.logs.instances()) {
            let least = self.logs.of(own).last().map_or(0, |before| before.cut[entry]);
            let greatest = self.logs.of(entry).len() as u16;
            let lagging = least + random.below(u64::from(greatest - least) + 1) as u16;
            *count = match self.pace.cuts {
                _ if entry == own => greatest,
                Cuts::Exact => greatest,
                Cuts::Lagging => lagging,
                Cuts::Still => least,
                Cuts::Mixed => random.pick(&[least, lagging, greatest, greatest]),
            };
        }
        cut
    }

    fn rank(&self, random: &mut Random, own: usize, cut: &Cut) -> u32 {
        let last = self.logs.of(own).last().map(|last| last.rank);
        let next = last.unwrap_or(0).saturating_add(1);
        let seen = (0..self.logs.instances())
            .filter_map(|j| self.logs.block(j, cut[j].into()))
            .map(|block| block.rank)
            .max();
        let more = random.below(50) as u32;
        match self.pace.ranks {
            Ranks::Steps => next,
            Ranks::Coarse => next.checked_next_multiple_of(4).unwrap_or(next),
            Ranks::AboveCut => seen.map_or(next, |seen| seen.saturating_add(1).max(next)),
            Ranks::Jumps => next.saturating_add(more * more),
            Ranks::Low if last.is_none() => 1 + u32::from(more < 8) + u32::from(more < 3),
            Ranks::Low => next.saturating_add(more / 25),
            Ranks::Top if last.is_none() => u32::MAX - more,
            Ranks::Top => next.saturating_add(more / 25),
        }
    }

    fn citations(&self, random: &mut Random, instance: usize) -> Vec<u16> {
        let mut pool = self.pools[instance].clone();
        let mut citations = Vec::new();
        if random.chance(self.pace.empty) {
            return citations;
        }
        let wanted = random.within(1..=self.pace.most_citations) as usize;
        while citations.len() < wanted.min(MOST_CITATIONS) && !pool.is_empty() {
            let first = random.chance(self.pace.in_order);
            let place = if first { 0 } else { random.place(pool.len()) };
            citations.push(pool.remove(place));
        }
        citations
    }
}
