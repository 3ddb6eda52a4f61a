//! Sheets at the limits.

use crate::cases::{contract, payment};
use crate::engine::{Head, Operation, Sheet, Transaction};
use crate::generate::random::Random;
use crate::generate::sheets;

/// Accounts are this many, or as many as there can be.
const FEW_ACCOUNTS: u64 = 40;
/// What the last transaction but one brings, and the last one needs.
const LAST_UNIT: u32 = 1;

/// A sheet's sizes, and what its marked transactions are about.
pub struct Marked {
    head: Head,
    /// The instance in which most transactions have a part.
    pub crowded: u16,
    /// Accounts that no small payment names, each with its role:
    /// pays the one that is to be paid, in the last instance;
    payer: u16,
    /// has nothing but that, in another instance;
    payee: u16,
    /// has the last number;
    last: u16,
    /// has nothing but what the last transaction brings;
    pub heir: u16,
    /// two in the crowded instance, the others anywhere.
    others: Vec<u16>,
    /// Numbers: the payer's payment, a contract that sets the last register,
    /// a payment with four debits and credits, the last two transactions, and
    /// after all others the heir's payment.
    feed: u16,
    setter: u16,
    wide: u16,
    pub after: u16,
}

impl Marked {
    pub fn random(random: &mut Random) -> Marked {
        let head = head(random);
        let Head { m, a, t, .. } = head;
        let crowded = super::last_or_any(random, m.into()) as u16;
        let last = a - 1;
        let mut taken = vec![last];
        let mut take = |random: &mut Random, fits: &dyn Fn(u16) -> bool| {
            let free: Vec<u16> = (0..a).filter(|account| !taken.contains(account)).collect();
            let fitting: Vec<u16> = free.iter().copied().filter(|account| fits(*account)).collect();
            let account = random.pick(if fitting.is_empty() { &free } else { &fitting });
            taken.push(account);
            account
        };
        let payer = take(random, &|account| account % m == m - 1);
        let payee = take(random, &|account| account % m != m - 1);
        let heir = take(random, &|account| account % m != m - 1 && account % m != crowded);
        let mut others = vec![take(random, &|account| account % m == crowded)];
        others.push(take(random, &|account| account % m == crowded));
        others.extend((0..6).map(|_| take(random, &|_| true)));
        let third = u64::from(t / 3);
        let feed = random.below(third / 2) as u16;
        let after = (third / 2 + random.below(third / 2)) as u16;
        let setter = (third + random.below(third)) as u16;
        let wide = (2 * third + random.below(third - 2)) as u16;
        Marked { head, crowded, payer, payee, last, heir, others, feed, setter, wide, after }
    }

    pub fn is_marked(&self, number: u16) -> bool {
        let last = self.head.t - 1;
        [self.feed, self.setter, self.wide, last - 1, last].contains(&number)
    }

    /// The accounts that no small payment names.
    fn reserved(&self) -> Vec<u16> {
        [&[self.payer, self.payee, self.last, self.heir], &self.others[..]].concat()
    }

    /// The complete sheet.
    pub fn sheet(&self, random: &mut Random) -> Sheet {
        let reserved = self.reserved();
        let common = (0..self.head.a).filter(|account| !reserved.contains(account));
        let common: Vec<u16> = common.collect();
        let starts = (0..self.head.a).map(|_| random.below(12)).collect();
        let mut sheet = Sheet { head: self.head, starts, transactions: Vec::new() };
        // What the registers hold once both contracts are paid.
        let mut registers = vec![0; self.head.g.into()];
        let (brought, left) = (amount(random), amount(random));
        for number in 0..self.head.t {
            let transaction = if number == self.feed {
                payment(&[(self.payer, brought)], &[(self.payee, brought)])
            } else if number == self.after {
                payment(&[(self.heir, left)], &[(self.payer, left)])
            } else if number == self.setter {
                let amount = amount(random);
                let count = random.within(1..=8);
                let operations = operations(random, &mut registers, count);
                let sides = [(self.others[0], amount), (self.others[2], amount)];
                Transaction { operations, ..contract(&sides[..1], &sides[1..], &[]) }
            } else if number == self.wide {
                self.wide(random)
            } else if number == self.head.t - 2 {
                payment(&[(self.others[1], LAST_UNIT)], &[(self.others[0], LAST_UNIT)])
            } else if number == self.head.t - 1 {
                self.last(random, [brought, left], &mut registers)
            } else {
                self.small(random, &common)
            };
            sheet.transactions.push(transaction);
        }
        self.endow(random, &mut sheet);
        sheet
    }

    /// Each account of a marked transaction has what is taken from it, but for
    /// what it is brought; now and then one less, the last one more often.
    fn endow(&self, random: &mut Random, sheet: &mut Sheet) {
        for account in self.reserved() {
            let debits = sheet.transactions.iter().flat_map(|transaction| &transaction.debits);
            let taken = debits.filter(|debit| debit.account == account);
            let taken: u64 = taken.map(|debit| u64::from(debit.amount)).sum();
            let brought = match account {
                _ if [self.payee, self.heir].contains(&account) => taken,
                _ if account == self.others[0] => LAST_UNIT.into(),
                _ => 0,
            };
            let short = u64::from(random.chance(if account == self.last { 35 } else { 2 }));
            sheet.starts[usize::from(account)] = (taken - brought).saturating_sub(short);
        }
    }

    /// The smallest payment: 22 bytes; rarely one with two debits and credits.
    fn small(&self, random: &mut Random, common: &[u16]) -> Transaction {
        let here: Vec<u16> = common
            .iter()
            .copied()
            .filter(|account| account % self.head.m == self.crowded)
            .collect();
        let crowded = !here.is_empty() && random.chance(70);
        let first = random.pick(if crowded { &here } else { common });
        let (second, credit) = (random.pick(common), random.pick(common));
        let amount = 1 + random.below(3) as u32;
        if first == second || second == credit || !random.chance(5) {
            return payment(&[(first, amount)], &[(credit, amount)]);
        }
        payment(&[(first, amount), (second, 1)], &[(credit, amount), (second, 1)])
    }

    /// A payment with four debits and credits, the last ones of each on
    /// accounts of their own.
    fn wide(&self, random: &mut Random) -> Transaction {
        let amounts: Vec<u32> = (0..4).map(|_| amount(random)).collect();
        let debits = self.others[2..6].iter().copied().zip(amounts.clone());
        // Where the last account gets something, it may well be covered.
        let second = random.pick(&[self.last, self.payer, self.payer]);
        let to = [self.others[1], second, self.others[6], self.others[7]];
        let credits = to.into_iter().zip(amounts);
        payment(&debits.collect::<Vec<_>>(), &credits.collect::<Vec<_>>())
    }

    /// The last transaction: a contract, mostly, that spends what the payee was
    /// brought and all of the last account, and leaves something to the heir.
    fn last(
        &self,
        random: &mut Random,
        [brought, left]: [u32; 2],
        registers: &mut [u32],
    ) -> Transaction {
        let from = [self.payee, self.others[0], self.others[6], self.last];
        let amounts = [brought, left, amount(random), amount(random)];
        let to = [self.payer, self.heir, self.others[4], self.others[3]];
        let debits: Vec<_> = from.into_iter().zip(amounts).collect();
        let mut credits: Vec<_> = to.into_iter().zip(amounts).collect();
        if random.chance(50) {
            credits[3].0 = self.last;
        }
        if random.chance(15) {
            return payment(&debits, &credits);
        }
        let count = random.pick(&[8, 8, 8, 1, 2, 7]);
        let operations = operations(random, registers, count);
        Transaction { operations, ..contract(&debits, &credits, &[]) }
    }
}

/// Each size at its limit as often as not.
fn head(random: &mut Random) -> Head {
    let any = 1 + random.below(16) as u16;
    let m = random.pick(&[16, 16, 16, 16, 1, 2, any]);
    let few = FEW_ACCOUNTS + random.below(25);
    let a = if random.chance(50) { 1_024 } else { few as u16 };
    let any = 1 + random.below(64) as u16;
    let g = random.pick(&[64, 64, 64, any]);
    let few = 48 + random.below(80);
    let t = if random.chance(50) { 1_024 } else { few as u16 };
    Head { m, a, g, t }
}

fn amount(random: &mut Random) -> u32 {
    let (few, any) = (1 + random.below(9) as u32, 1 + random.below(1 << 32) as u32);
    random.pick(&[few, few, few, any.max(1), u32::MAX])
}

/// Operations that pass, mostly on the last register. The last one changes
/// it, or now and then does not pass.
fn operations(random: &mut Random, registers: &mut [u32], count: u64) -> Vec<Operation> {
    let last = registers.len() - 1;
    let mut operations = Vec::new();
    for place in 1..=count {
        let register =
            if place == count || random.chance(40) { last } else { random.place(last + 1) };
        let now = registers[register];
        let code = match place == count {
            false => random.pick(&[0, 1, 2, 3, 4]),
            true if now == 0 => random.pick(&[2, 3]),
            true if now == u32::MAX => random.pick(&[2, 4]),
            true => random.pick(&[2, 3, 4]),
        };
        let passes = place < count || random.chance(85);
        let value = match code {
            _ if !passes || place < count => sheets::value(random, code, now, passes),
            2 => now ^ (1 + random.below(1_000_000) as u32),
            3 => 1 + random.below(u64::from(u32::MAX - now).min(1_000)) as u32,
            _ => 1 + random.below(u64::from(now).min(1_000)) as u32,
        };
        registers[register] = match code {
            2 => value,
            3 => now.saturating_add(value),
            4 => now.saturating_sub(value),
            _ => now,
        };
        operations.push(Operation { code, register: register as u8, value });
    }
    operations
}
