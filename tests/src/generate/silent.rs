//! Runs with instances that deliver nothing, or nothing for long.
//!
//! Request 04: such an instance "counts as having last rank 0", so that blocks
//! of rank 1 below the lowest of them are in the log. The first transactions
//! are pairs that hang on this: a contract of a low instance, and one behind
//! it that is covered only in a view in which the contract has run.

use super::pace::Pace;
use super::random::Random;
use super::{blocks, sheets, Run, Size};
use crate::cases::{contract, payment};
use crate::engine::{Sheet, Transaction};

/// Which instances deliver nothing, and which begins late.
#[derive(Clone, Debug)]
pub struct Silence {
    pub instances: usize,
    pub silent: Vec<usize>,
    pub late: Option<usize>,
}

/// A run of a size with more than one instance.
pub fn run(random: &mut Random, size: Size, noise: u64) -> Run {
    let mut head = sheets::head(random, size);
    head.m = match size {
        Size::Medium | Size::Large if random.chance(20) => 16,
        _ => head.m.max(2 + random.below(2) as u16),
    };
    head.a = head.a.max(head.m + 2);
    head.t = head.t.max(random.below(5) as u16);
    let mut sheet = sheets::with_head(random, size, head);
    let silence = Silence::random(random, sheet.instances());
    Pairs { sheet: &mut sheet, silence: &silence, taken: Vec::new() }.write(random);
    let pace = Pace::random(random, &sheet, size, super::budget(&sheet, size), noise);
    let pace = pace.around(random, size, &silence);
    let offers = blocks::offers(random, &sheet, &pace);
    Run { sheet, offers }
}

impl Silence {
    /// Of at least two instances: the highest, one between, several or the
    /// lowest never start; or one does, but late; or all do.
    fn random(random: &mut Random, instances: usize) -> Silence {
        let highest = instances - 1;
        let mut silent: Vec<usize> = Vec::new();
        let mut late = None;
        match random.below(100) {
            0..26 => silent.push(highest),
            26..46 => silent.push(1 + random.place(highest - 1)),
            46..62 => silent = several(random, instances),
            62..67 => silent.push(0),
            67..91 => late = Some(random.place(instances)),
            _ => {}
        }
        if (1..highest).contains(&silent.len()) && random.chance(10) {
            late = Some(random.place(instances)).filter(|late| !silent.contains(late));
        }
        Silence { instances, silent, late }
    }

    fn is_silent(&self, instance: usize) -> bool {
        self.silent.contains(&instance) || self.late == Some(instance)
    }

    /// Those that deliver from the start on, mostly ascending.
    pub fn opening(&self, random: &mut Random) -> Vec<usize> {
        let mut opening: Vec<usize> = (0..self.instances).filter(|i| !self.is_silent(*i)).collect();
        if random.chance(30) {
            opening.sort_by_cached_key(|_| random.bits());
        }
        opening
    }

    /// How often each has its turn; one that begins late soon does, once it may.
    pub fn weights(&self) -> Vec<u64> {
        let weight = |instance: usize| match instance {
            _ if self.silent.contains(&instance) => 0,
            _ if self.late == Some(instance) => 60,
            _ => 20,
        };
        (0..self.instances).map(weight).collect()
    }

    /// An instance below all silent ones, if there is one.
    fn low(&self, random: &mut Random) -> usize {
        let lowest = (0..self.instances).find(|instance| self.is_silent(*instance));
        random.place(lowest.unwrap_or(self.instances))
    }
}

/// Some instances, not all; the lowest less often than the others.
fn several(random: &mut Random, instances: usize) -> Vec<usize> {
    let mut some = Vec::new();
    some.extend((0..instances).filter(|i| random.chance(if *i == 0 { 20 } else { 50 })));
    if some.len() == instances {
        some.remove(random.place(instances));
    }
    some
}

/// The instance that pays and the one that spends: mostly a low one and one
/// above it; often any and the one that begins late, on either side of it; at
/// times the same.
fn between(random: &mut Random, silence: &Silence) -> [usize; 2] {
    let delivers = |instance: &usize| !silence.silent.contains(instance);
    let from = silence.low(random);
    let above: Vec<usize> = (from + 1..silence.instances).filter(delivers).collect();
    match silence.late {
        Some(late) if random.chance(75) => {
            let others = (0..silence.instances).filter(|i| *i != late).filter(delivers);
            let others: Vec<usize> = others.collect();
            [others.get(random.place(others.len())).copied().unwrap_or(late), late]
        }
        _ if above.is_empty() || random.chance(15) => [from, from],
        _ => [from, random.pick(&above)],
    }
}

/// A sheet whose first transactions are written over by pairs.
struct Pairs<'a> {
    sheet: &'a mut Sheet,
    silence: &'a Silence,
    /// Accounts of earlier pairs: each has its own.
    taken: Vec<u16>,
}

impl Pairs<'_> {
    /// Up to four pairs, as far as the accounts go.
    fn write(&mut self, random: &mut Random) {
        for first in (0..self.sheet.transactions.len().min(8)).step_by(2) {
            let [from, to] = between(random, self.silence);
            let pair = match random.below(10) {
                0..7 => self.credit(random, from, to),
                7..9 => self.debit(random, from),
                _ => None,
            };
            let places = first..self.sheet.transactions.len();
            for (place, transaction) in places.zip(pair.into_iter().flatten()) {
                self.sheet.transactions[place] = transaction;
            }
        }
    }

    /// A contract that brings something from one instance to another, and a
    /// transaction that needs it there. The contract may have a second part.
    fn credit(&mut self, random: &mut Random, from: usize, to: usize) -> Option<[Transaction; 2]> {
        let (payer, payee) = (self.account(random, from)?, self.account(random, to)?);
        let mut debits = vec![(payer, 1 + random.below(5) as u32)];
        if random.chance(30) {
            let other = self.silence.low(random);
            let second = self.account(random, other);
            debits.extend(second.map(|second| (second, 1 + random.below(5) as u32)));
        }
        for (account, amount) in &debits {
            self.sheet.starts[usize::from(*account)] = u64::from(*amount) + random.below(2);
        }
        let brought = debits.iter().map(|(_, amount)| amount).sum();
        let there = random.below(3) as u32;
        self.sheet.starts[usize::from(payee)] = there.into();
        let needed = there + brought + u32::from(random.chance(10));
        let operations = self.operations(random);
        let first = contract(&debits, &[(payee, brought)], &operations);
        Some([first, self.spending(random, payee, needed)])
    }

    /// A contract that mostly does not pass, and a transaction of the same
    /// account that needs what it had reserved.
    fn debit(&mut self, random: &mut Random, from: usize) -> Option<[Transaction; 2]> {
        let payer = self.account(random, from)?;
        let amount = 1 + random.below(5) as u32;
        self.sheet.starts[usize::from(payer)] = amount.into();
        let mut operations = self.operations(random);
        if self.sheet.head.g > 0 {
            let register = random.below(self.sheet.head.g.into()) as u8;
            operations.push((random.pick(&[0, 1, 1, 4]), register, 1 + random.below(3) as u32));
        }
        let first = contract(&[(payer, amount)], &[(self.anyone(random), amount)], &operations);
        Some([first, self.spending(random, payer, amount)])
    }

    /// A payment, or a contract, with one debit.
    fn spending(&self, random: &mut Random, payer: u16, amount: u32) -> Transaction {
        let credits = [(self.anyone(random), amount)];
        if random.chance(60) {
            return payment(&[(payer, amount)], &credits);
        }
        contract(&[(payer, amount)], &credits, &self.operations(random))
    }

    /// At most two operations that pass: a register is set or added to.
    fn operations(&self, random: &mut Random) -> Vec<(u8, u8, u32)> {
        let registers = u64::from(self.sheet.head.g);
        let count = if registers == 0 { 0 } else { random.below(3) };
        let mut operation =
            || (random.pick(&[2, 3]), random.below(registers) as u8, random.below(9) as u32);
        (0..count).map(|_| operation()).collect()
    }

    /// An account of an instance that no pair has yet.
    fn account(&mut self, random: &mut Random, instance: usize) -> Option<u16> {
        let fits = |k: &u16| self.sheet.instance_of(*k) == instance && !self.taken.contains(k);
        let fitting: Vec<u16> = (0..self.sheet.head.a).filter(fits).collect();
        let account = fitting.get(random.place(fitting.len())).copied();
        self.taken.extend(account);
        account
    }

    fn anyone(&self, random: &mut Random) -> u16 {
        random.below(self.sheet.head.a.into()) as u16
    }
}
