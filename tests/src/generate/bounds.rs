//! Runs at the limits: the last account, register, transaction, instance, cut
//! entry, block, list place, debit, credit and operation that there can be,
//! each with something in the reading that hangs on it.
//!
//! * [`sheet`] — many small payments, and a few marked transactions;
//! * [`faults`] — blocks to be turned away at their last place or entry.
//!
//! The marked transactions have accounts of their own, which are spent to the
//! last unit, so that what becomes of them hangs on these places alone.

pub mod faults;
pub mod sheet;

use super::blocks::Delivery;
use super::pace::Pace;
use super::random::Random;
use super::Run;
use crate::engine::ledger::{MOST_BLOCKS, MOST_CITATIONS};
use crate::engine::{Block, Logs, Sheet};
use sheet::Marked;

/// A run at the limits. Which of them it reaches is drawn, each often. All
/// slips are sound; some blocks are meant to be turned away.
pub fn run(random: &mut Random) -> Run {
    let marked = Marked::random(random);
    let sheet = marked.sheet(random);
    let offers = {
        let pace = Pace::thorough(random, &sheet);
        let lists = lists(random, &sheet, &marked);
        let mut deliverer = Deliverer {
            delivery: Delivery::new(random, &sheet, &pace),
            noise: random.pick(&[0, 60, 60, 90]),
        };
        deliverer.deliver(random, lists, &marked);
        deliverer.delivery.offers
    };
    Run { sheet, offers }
}

/// What the blocks of one instance cite, in order.
struct Lists {
    early: Vec<Vec<u16>>,
    /// The block that waits until the early ones of all instances are there.
    late: Option<Vec<u16>>,
}

/// For every instance what its blocks cite: mostly as many at once as may be.
/// One instance may get all its 128 blocks, most of them without citations.
fn lists(random: &mut Random, sheet: &Sheet, marked: &Marked) -> Vec<Lists> {
    let last = sheet.head.t - 1;
    let any = last_or_any(random, sheet.instances());
    let full = random.pick(&[None, None, Some(any), Some(marked.crowded.into())]);
    // A view is worked out for each citation: most full sheets are not cited
    // through, so that many of them can be read.
    let full_sheet = sheet.transactions.len() > 200;
    let forgotten = match random.below(12) {
        0 => 0,
        1 if full_sheet => 60,
        _ if full_sheet => 85,
        1..6 => 30,
        _ => 0,
    };
    let of = |instance: usize| {
        let mut pool: Vec<u16> = (0..=last)
            .filter(|number| !sheet.part(usize::from(*number), instance).is_empty())
            .filter(|number| *number != marked.after)
            .filter(|number| marked.is_marked(*number) || !random.chance(forgotten))
            .collect();
        let wait = match pool.len() {
            _ if pool.last() != Some(&last) => 0,
            length if length > MOST_CITATIONS => MOST_CITATIONS,
            length => length.div_ceil(2),
        };
        let late = pool.split_off(pool.len() - wait);
        let most = random.pick(&[MOST_CITATIONS, MOST_CITATIONS, MOST_CITATIONS, 31, 5]);
        let mut early: Vec<Vec<u16>> = pool.chunks(most).map(<[u16]>::to_vec).collect();
        let mut late = (!late.is_empty()).then_some(late);
        if full == Some(instance) {
            late = late.or_else(|| early.pop()).or(Some(Vec::new()));
            while early.len() < MOST_BLOCKS - 1 {
                early.insert(random.place(early.len() + 1), Vec::new());
            }
        }
        Lists { early, late }
    };
    (0..sheet.instances()).map(of).collect()
}

/// A place in a list of a length, mostly the last.
fn last_or_any(random: &mut Random, length: usize) -> usize {
    if random.chance(70) {
        length - 1
    } else {
        random.place(length)
    }
}

/// A delivery by lists, with blocks between that are to be turned away.
struct Deliverer<'a> {
    delivery: Delivery<'a>,
    /// Blocks before which such ones are offered, in percent.
    noise: u64,
}

impl Deliverer<'_> {
    /// The early blocks, the instances in any order; the late ones, that of a
    /// full instance last; then what closes the run.
    fn deliver(&mut self, random: &mut Random, lists: Vec<Lists>, marked: &Marked) {
        let mut early: Vec<_> = lists.iter().map(|lists| lists.early.iter()).collect();
        loop {
            let left: usize = early.iter().map(ExactSizeIterator::len).sum();
            let mut ticket = random.place(left);
            let turn = early.iter().position(|lists| {
                let drawn = ticket < lists.len();
                ticket = ticket.saturating_sub(lists.len());
                drawn
            });
            let Some(instance) = turn else {
                break;
            };
            let citations = early[instance].next().cloned().unwrap_or_default();
            self.offer(random, instance, citations, None);
        }
        let mut late: Vec<usize> = (0..lists.len()).collect();
        late.sort_by_key(|instance| (lists[*instance].early.len(), random.bits()));
        for instance in late {
            if let Some(citations) = lists[instance].late.clone() {
                self.offer(random, instance, citations, None);
            }
        }
        self.close(random, marked);
        self.refused(random, faults::at_the_end);
    }

    /// A block of each instance that has room, with a rank above all, so that
    /// whatever came before is in the log; now and then one instance stays
    /// behind. Then a block that cites what hangs on all of this.
    fn close(&mut self, random: &mut Random, marked: &Marked) {
        let m = self.delivery.logs.instances();
        let behind = random.chance(15).then(|| last_or_any(random, m));
        let top = self.delivery.logs.all().map(|block| block.rank).max().unwrap_or(0);
        let rank = match random.below(8) {
            0 => u32::MAX,
            1 => u32::MAX - 1,
            _ => top + 1,
        };
        let has_room = |logs: &Logs, instance: usize| logs.of(instance).len() < MOST_BLOCKS;
        for instance in (0..m).filter(|instance| behind != Some(*instance)) {
            if has_room(&self.delivery.logs, instance) {
                self.offer(random, instance, Vec::new(), Some(rank));
            }
        }
        let heir = usize::from(marked.heir) % m;
        if rank < u32::MAX && has_room(&self.delivery.logs, heir) {
            self.offer(random, heir, vec![marked.after], Some(rank + 1));
        }
    }

    /// The next block of an instance, faulty ones perhaps before it. One with a
    /// given rank has seen all that is there.
    fn offer(
        &mut self,
        random: &mut Random,
        instance: usize,
        citations: Vec<u16>,
        rank: Option<u32>,
    ) {
        let logs = &self.delivery.logs;
        let mut block = self.delivery.citing(random, instance, citations);
        if let Some(rank) = rank {
            block.rank = rank;
            for (entry, count) in block.cut.iter_mut().enumerate().take(logs.instances()) {
                *count = logs.of(entry).len() as u16;
            }
        }
        let many = block.citations.len() == MOST_CITATIONS;
        if random.chance(if many { self.noise } else { self.noise / 10 }) {
            self.refused(random, |random, sheet, logs| faults::of(random, sheet, logs, &block));
        }
        self.delivery.offer(block);
    }

    /// Offers those of some blocks that are turned away.
    fn refused(
        &mut self,
        random: &mut Random,
        faulty: impl FnOnce(&mut Random, &Sheet, &Logs) -> Vec<Block>,
    ) {
        let Delivery { sheet, logs, .. } = &self.delivery;
        let mut faulty = faulty(random, sheet, logs);
        faulty.retain(|block| logs.judge(sheet, block).is_err());
        faulty.into_iter().for_each(|block| self.delivery.offer(block));
    }
}
