//! Transactions for the writers: sound ones, every fault by itself, and several
//! faults at once, so that the order of refusals shows.

use crosscheck::engine::format::{CONTRACT, PAYMENT};
use crosscheck::engine::write::checked::Lists;
use crosscheck::engine::Head;
use crosscheck::generate::random::Random;

use super::Values;

/// At most so many debits, and so many credits.
const POSTINGS: usize = 4;
const OPERATIONS: usize = 8;

/// Sound transactions, and so many with several faults.
const SOUND: usize = 4;
const SEVERAL: usize = 16;

type Fault = fn(&mut Lists, &Head, &mut Random);

/// A fault each. One may be none, in a list that is empty say.
const FAULTS: [Fault; 29] = [
    // 4: a count, or one of the seven lists.
    |lists, _, random| next_to(&mut lists.debit_count, random),
    |lists, _, random| next_to(&mut lists.credit_count, random),
    |lists, _, random| next_to(&mut lists.operation_count, random),
    |lists, _, random| other_length(&mut lists.payers, random),
    |lists, _, random| other_length(&mut lists.debits, random),
    |lists, _, random| other_length(&mut lists.payees, random),
    |lists, _, random| other_length(&mut lists.credits, random),
    |lists, _, random| other_length(&mut lists.codes, random),
    |lists, _, random| other_length(&mut lists.registers, random),
    |lists, _, random| other_length(&mut lists.values, random),
    // 5: a count out of range, the lists as long as it says.
    |lists, _, random| debits(lists, random.pick(&[0, 5, 5, 9, 255])),
    |lists, _, random| credits(lists, random.pick(&[0, 5, 5, 9, 255])),
    |lists, _, random| operations(lists, random.pick(&[9, 9, 16, 255])),
    |lists, _, _| {
        operations(lists, 1);
        lists.sort = PAYMENT;
    },
    // 5: a field.
    |lists, _, random| lists.sort = random.pick(&[2, 3, 128, 255]),
    |lists, head, random| put(&mut lists.payers, beyond(head.a, random), random),
    |lists, head, random| put(&mut lists.payees, beyond(head.a, random), random),
    |lists, _, random| put(&mut lists.debits, 0, random),
    |lists, _, random| put(&mut lists.credits, 0, random),
    |lists, _, random| put(&mut lists.codes, random.pick(&[5, 128, 255]), random),
    |lists, head, random| put(&mut lists.registers, head.g as u8, random),
    |lists, _, random| put(&mut lists.registers, 255, random),
    // 6.
    |lists, _, random| twice(&mut lists.payers, random),
    |lists, _, random| twice(&mut lists.payees, random),
    // 7.
    |lists, _, random| another_amount(&mut lists.debits, random),
    |lists, _, random| another_amount(&mut lists.credits, random),
    |lists, _, random| put(&mut lists.debits, u32::MAX, random),
    |lists, _, random| put(&mut lists.credits, u32::MAX, random),
    |lists, _, _| apart_by_2_to_the_32(lists),
];

fn next_to(count: &mut u8, random: &mut Random) {
    *count = random.pick(&[count.wrapping_add(1), count.wrapping_sub(1), 255]);
}

/// One more, one fewer, none, or so many more that a byte does not show it.
fn other_length<T: Copy + Default>(list: &mut Vec<T>, random: &mut Random) {
    let length = list.len();
    let length = random.pick(&[length + 1, length + 1, length.max(1) - 1, 0, length + 256]);
    list.resize(length, T::default());
}

fn debits(lists: &mut Lists, count: u8) {
    lists.debit_count = count;
    lists.payers.resize(count.into(), 0);
    lists.debits.resize(count.into(), 1);
}

fn credits(lists: &mut Lists, count: u8) {
    lists.credit_count = count;
    lists.payees.resize(count.into(), 0);
    lists.credits.resize(count.into(), 1);
}

fn operations(lists: &mut Lists, count: u8) {
    lists.sort = CONTRACT;
    lists.operation_count = count;
    lists.codes.resize(count.into(), 2);
    lists.registers.resize(count.into(), 0);
    lists.values.resize(count.into(), 0);
}

/// An account that is not on the sheet.
fn beyond(accounts: u16, random: &mut Random) -> u16 {
    random.pick(&[accounts, accounts, accounts + 1, accounts + 256, 65_535])
}

/// Puts something at the last place of a list or at any, if there is one.
fn put<T>(list: &mut [T], number: T, random: &mut Random) {
    let length = list.len();
    let place = if random.chance(50) { length.max(1) - 1 } else { random.place(length) };
    if let Some(found) = list.get_mut(place) {
        *found = number;
    }
}

/// Gives one place the account of another.
fn twice(accounts: &mut [u16], random: &mut Random) {
    if accounts.len() > 1 {
        let from = random.place(accounts.len());
        let to = (from + 1 + random.place(accounts.len() - 1)) % accounts.len();
        accounts[to] = accounts[from];
    }
}

/// One more or one less at some place.
fn another_amount(amounts: &mut [u32], random: &mut Random) {
    let place = random.place(amounts.len());
    if let Some(amount) = amounts.get_mut(place) {
        *amount = random.pick(&[amount.wrapping_add(1), amount.wrapping_sub(1)]);
    }
}

/// Sums that are the same modulo 2^32.
fn apart_by_2_to_the_32(lists: &mut Lists) {
    debits(lists, 1);
    credits(lists, 2);
    lists.payees = vec![0, 1];
    let amount = lists.debits[0].min(u32::MAX - 1);
    lists.debits[0] = amount;
    lists.credits = vec![u32::MAX, amount + 1];
}

/// Sound transactions, those with each fault, and some with several.
pub fn transactions(random: &mut Random, head: &Head) -> Vec<Values> {
    let mut all: Vec<Lists> = (0..SOUND).map(|_| sound(random, head)).collect();
    all.extend(FAULTS.map(|fault| faulty(random, head, &[fault])));
    all.extend((0..SEVERAL).map(|_| {
        let faults = [(); 3].map(|()| random.pick(&FAULTS));
        let several = random.pick(&[2, 2, 3]);
        faulty(random, head, &faults[..several])
    }));
    all.into_iter().map(Values::Transaction).collect()
}

fn faulty(random: &mut Random, head: &Head, faults: &[Fault]) -> Lists {
    let mut lists = sound(random, head);
    faults.iter().for_each(|fault| fault(&mut lists, head, random));
    lists
}

/// A transaction that is sound on a sheet of given sizes.
fn sound(random: &mut Random, head: &Head) -> Lists {
    let most = POSTINGS.min(head.a.into()) as u64;
    let [debits, credits] = [(); 2].map(|()| random.within(1..=most) as usize);
    let total = total(random, debits.min(credits) as u64, debits.max(credits) as u64);
    let contract = random.chance(70);
    let most = if contract && head.g > 0 { OPERATIONS } else { 0 };
    let operations = random.within(0..=most as u64) as usize;
    let registers = u64::from(head.g).max(1);
    Lists {
        sort: if contract { CONTRACT } else { PAYMENT },
        debit_count: debits as u8,
        credit_count: credits as u8,
        operation_count: operations as u8,
        payers: accounts(random, head.a, debits),
        debits: amounts(random, total, debits),
        payees: accounts(random, head.a, credits),
        credits: amounts(random, total, credits),
        codes: (0..operations).map(|_| random.within(0..=4) as u8).collect(),
        registers: (0..operations).map(|_| random.within(0..=registers - 1) as u8).collect(),
        values: (0..operations).map(|_| random.within(0..=u32::MAX.into()) as u32).collect(),
    }
}

/// A sum of `fewest` amounts and of `most`: a small one, any, or the greatest.
fn total(random: &mut Random, fewest: u64, most: u64) -> u64 {
    let greatest = fewest * u64::from(u32::MAX);
    match random.below(3) {
        0 => random.within(most..=most + 20),
        1 => random.within(most..=greatest),
        _ => greatest - random.below(2),
    }
}

/// Amounts, each at least 1, that come to a sum.
fn amounts(random: &mut Random, mut total: u64, count: usize) -> Vec<u32> {
    let mut amounts = Vec::new();
    for others in (0..count as u64).rev() {
        let least = total.saturating_sub(others * u64::from(u32::MAX)).max(1);
        let most = (total - others).min(u32::MAX.into());
        let amount = random.within(least..=most);
        amounts.push(amount as u32);
        total -= amount;
    }
    amounts
}

/// Accounts, no two the same.
fn accounts(random: &mut Random, a: u16, count: usize) -> Vec<u16> {
    let mut accounts = Vec::new();
    while accounts.len() < count {
        let account = random.within(0..=u64::from(a) - 1) as u16;
        if !accounts.contains(&account) {
            accounts.push(account);
        }
    }
    accounts
}
