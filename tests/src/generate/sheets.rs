//! Sheets: heads, balances, payments and contracts.

use super::random::Random;
use super::Size;
use crate::engine::format::{CONTRACT, PAYMENT};
use crate::engine::{Head, Operation, Posting, Sheet, Transaction};

/// The transactions of a run that `readrun` takes may fill this much of it.
const SHEET_BYTES: usize = 40_000;

/// The habits of one sheet.
struct Taste {
    balances: Balances,
    amounts: Amounts,
    /// Most debits and credits are on the accounts below this one.
    hot_accounts: u64,
    /// Contracts among the transactions, in percent.
    contracts: u64,
    /// Transactions that spend what the one before credits, in percent.
    chained: u64,
    /// Transactions that credit an account they debit, in percent.
    to_itself: u64,
    /// At most so many debits and credits.
    most_postings: u64,
    most_operations: u64,
}

#[derive(Clone, Copy)]
enum Balances {
    Nothing,
    Scarce,
    Some,
    Greatest,
    Mixed,
}

#[derive(Clone, Copy)]
enum Amounts {
    One,
    Small,
    /// The start of the account, one less or one more.
    Start,
    Greatest,
    Mixed,
}

impl Taste {
    fn random(random: &mut Random, head: &Head) -> Taste {
        use Amounts as A;
        use Balances as B;
        let balances =
            [B::Nothing, B::Scarce, B::Scarce, B::Scarce, B::Some, B::Mixed, B::Mixed, B::Greatest];
        let amounts = [A::One, A::Small, A::Small, A::Start, A::Start, A::Mixed, A::Greatest];
        Taste {
            balances: random.pick(&balances),
            amounts: random.pick(&amounts),
            hot_accounts: random.within(1..=u64::from(head.a)),
            contracts: random.pick(&[0, 10, 40, 40, 70, 100]),
            chained: random.pick(&[0, 0, 30, 90]),
            to_itself: random.pick(&[0, 10, 50]),
            most_postings: random.pick(&[1, 2, 3, 4, 4]),
            most_operations: random.pick(&[0, 1, 3, 8]),
        }
    }
}

/// A complete sheet of a size.
pub fn sheet(random: &mut Random, size: Size) -> Sheet {
    let head = head(random, size);
    with_head(random, size, head)
}

/// The same with a head that is given; t may come out lower, where the bytes
/// do not suffice.
pub fn with_head(random: &mut Random, size: Size, mut head: Head) -> Sheet {
    let taste = Taste::random(random, &head);
    let starts = (0..head.a).map(|_| start(random, taste.balances)).collect();
    let mut sheet = Sheet { head, starts, transactions: Vec::new() };
    let mut bytes = 0;
    // What the registers would hold if all contracts were paid in turn.
    let mut registers = vec![0; head.g.into()];
    while !sheet.is_complete() && (bytes < SHEET_BYTES || size == Size::Largest) {
        let transaction = transaction(random, &sheet, &taste, &mut registers);
        bytes += crate::engine::write::transaction(&transaction).len();
        sheet.transactions.push(transaction);
    }
    head.t = sheet.transactions.len() as u16;
    sheet.head = head;
    sheet
}

pub fn head(random: &mut Random, size: Size) -> Head {
    let (m, a, g, t) = match size {
        Size::Tiny => (1..=3, 1..=5, 0..=2, 0..=6),
        Size::Small => (1..=5, 1..=16, 0..=4, 0..=40),
        Size::Medium => (1..=16, 1..=128, 0..=16, 0..=200),
        Size::Large => (1..=16, 1..=1_024, 0..=64, 0..=1_024),
        Size::Largest => (16..=16, 1_024..=1_024, 64..=64, 1_024..=1_024),
    };
    Head {
        m: random.within(m) as u16,
        a: random.within(a) as u16,
        g: random.within(g) as u16,
        t: random.within(t) as u16,
    }
}

fn start(random: &mut Random, balances: Balances) -> u64 {
    const MOST: u64 = 1 << 40;
    match balances {
        Balances::Nothing => u64::from(random.chance(5)),
        Balances::Scarce => random.below(10),
        Balances::Some => random.below(1_000),
        Balances::Greatest => MOST - random.below(3),
        Balances::Mixed => {
            let (few, many) = (random.below(10), random.below(1 << 33));
            random.pick(&[0, 1, few, many, u64::from(u32::MAX), MOST])
        }
    }
}

/// A sound transaction for the sheet so far.
fn transaction(
    random: &mut Random,
    sheet: &Sheet,
    taste: &Taste,
    registers: &mut [u32],
) -> Transaction {
    let sort = if random.chance(taste.contracts) { CONTRACT } else { PAYMENT };
    let debits = debits(random, sheet, taste);
    let credits = credits(random, sheet, taste, &debits);
    let operations = match sort {
        CONTRACT => operations(random, taste, registers),
        _ => Vec::new(),
    };
    Transaction { sort, debits, credits, operations }
}

fn debits(random: &mut Random, sheet: &Sheet, taste: &Taste) -> Vec<Posting> {
    let mut debits: Vec<Posting> = Vec::new();
    if random.chance(taste.chained) {
        // What the last transaction brought goes on, or one more than that.
        let brought = sheet.transactions.last().and_then(|last| last.credits.first());
        if let Some(Posting { account, amount }) = brought {
            let more = u32::from(random.chance(10));
            debits.push(Posting { account: *account, amount: amount.saturating_add(more) });
        }
    }
    let wanted = random.within(1..=taste.most_postings) as usize;
    for account in accounts(random, sheet, taste, wanted) {
        if debits.len() < wanted && debits.iter().all(|debit| debit.account != account) {
            let start = sheet.starts[usize::from(account)];
            debits.push(Posting { account, amount: amount(random, taste.amounts, start) });
        }
    }
    debits
}

/// Credits that add up to the debits.
fn credits(random: &mut Random, sheet: &Sheet, taste: &Taste, debits: &[Posting]) -> Vec<Posting> {
    const MOST: u64 = u32::MAX as u64;
    let mut total: u64 = debits.iter().map(|debit| u64::from(debit.amount)).sum();
    let least = total.div_ceil(MOST) as usize;
    let wanted = (random.within(1..=taste.most_postings).min(total) as usize).max(least);
    let mut chosen = accounts(random, sheet, taste, wanted);
    if random.chance(taste.to_itself) {
        chosen.insert(0, debits[0].account);
    }
    // Enough accounts for the total are there: those of the debits will do.
    chosen.extend(debits.iter().map(|debit| debit.account));
    let mut distinct: Vec<u16> = Vec::new();
    for account in chosen {
        if distinct.len() < wanted && !distinct.contains(&account) {
            distinct.push(account);
        }
    }
    let mut credits = Vec::new();
    for (place, account) in distinct.iter().enumerate() {
        let others = (distinct.len() - place - 1) as u64;
        let least = total.saturating_sub(others * MOST).max(1);
        let greatest = MOST.min(total - others);
        let amount = random.within(least..=greatest);
        total -= amount;
        credits.push(Posting { account: *account, amount: amount as u32 });
    }
    credits
}

/// Some accounts of the sheet, mostly hot ones, perhaps one twice.
fn accounts(random: &mut Random, sheet: &Sheet, taste: &Taste, count: usize) -> Vec<u16> {
    let all = u64::from(sheet.head.a);
    let mut account = || {
        let bound = if random.chance(90) { taste.hot_accounts } else { all };
        random.below(bound) as u16
    };
    (0..count + 2).map(|_| account()).collect()
}

fn amount(random: &mut Random, amounts: Amounts, start: u64) -> u32 {
    let near = (start + 1).saturating_sub(random.below(3)).clamp(1, u64::from(u32::MAX)) as u32;
    match amounts {
        Amounts::One => 1,
        Amounts::Small => 1 + random.below(6) as u32,
        Amounts::Start => near,
        Amounts::Greatest => u32::MAX - random.below(2) as u32,
        Amounts::Mixed => {
            let (small, any) = (1 + random.below(6) as u32, random.bits() as u32 | 1);
            random.pick(&[1, near, small, u32::MAX, any])
        }
    }
}

/// Operations that mostly just pass, and sometimes just do not. `registers`
/// is what they are thought to find, and is brought up to date.
fn operations(random: &mut Random, taste: &Taste, registers: &mut [u32]) -> Vec<Operation> {
    let mut operations = Vec::new();
    if registers.is_empty() {
        return operations;
    }
    let few = (1 + random.place(64)).min(registers.len());
    let careless = random.chance(25);
    let begins_anew = random.chance(50);
    for _ in 0..random.within(0..=taste.most_operations) {
        let register = random.place(few);
        let touched = operations.iter().any(|o: &Operation| usize::from(o.register) == register);
        let code = if begins_anew && !touched { 2 } else { random.pick(&[0, 1, 2, 3, 3, 3, 4, 4]) };
        let passes = !(careless && random.chance(30));
        let value = value(random, code, registers[register], passes);
        registers[register] = match code {
            2 => value,
            3 => registers[register].saturating_add(value),
            4 => registers[register].saturating_sub(value),
            _ => registers[register],
        };
        operations.push(Operation { code, register: register as u8, value });
    }
    operations
}

/// A value with which an operation on a register that holds `now` passes, or
/// does not, often by one.
pub fn value(random: &mut Random, code: u8, now: u32, passes: bool) -> u32 {
    let any = random.bits() as u32;
    match (code, passes) {
        (0, true) => now,
        (1, true) => random.pick(&[0, now, now.saturating_sub(1)]),
        (3, true) => random.pick(&[0, 1, 3, u32::MAX - now]).min(u32::MAX - now),
        (4, true) => random.pick(&[0, 1, 3, now]).min(now),
        (3, false) => (u32::MAX - now).saturating_add(1),
        (0 | 1 | 4, false) => now.saturating_add(1),
        _ => random.pick(&[0, 1, 5, u32::MAX, u32::MAX - 1, any]),
    }
}
