//! Values that a wrong writer takes though they are to be refused, or refuses
//! though they are to be written, and which refusals apply to values.

use std::collections::BTreeSet;
use std::fmt;

use crosscheck::engine::write::checked::Lists;
use crosscheck::engine::Head;
use crosscheck_library::writers::{BlockValues, Values};

/// The greatest balance, and the sum that an amount of four bytes comes to.
const MOST: u64 = 1 << 40;
const FOUR_BYTES: u64 = 1 << 32;

/// A refusal that is not given, or given, when something holds of the values.
#[derive(Clone, Copy)]
pub struct Judged {
    name: &'static str,
    pub number: u16,
    pub when: fn(&Values, &Head) -> bool,
}

impl fmt::Debug for Judged {
    fn fmt(&self, out: &mut fmt::Formatter<'_>) -> fmt::Result {
        write!(out, "{}, {}", self.name, self.number)
    }
}

const fn judged(name: &'static str, number: u16, when: fn(&Values, &Head) -> bool) -> Judged {
    Judged { name, number, when }
}

/// Taken though refused with the number.
pub const LAX: [Judged; 34] = [
    judged("no instance", 5, |values, _| header(values, |head| head.m == 0)),
    judged("17 instances", 5, |values, _| header(values, |head| head.m == 17)),
    judged("no account", 5, |values, _| header(values, |head| head.a == 0)),
    judged("1,025 accounts", 5, |values, _| header(values, |head| head.a == 1_025)),
    judged("65 registers", 5, |values, _| header(values, |head| head.g == 65)),
    judged("1,025 transactions", 5, |values, _| header(values, |head| head.t == 1_025)),
    judged("a balance too many", 4, |values, head| {
        balances(values, |list| list.len() == after(head.a))
    }),
    judged("a balance too few", 4, |values, head| {
        balances(values, |list| list.len() + 1 == head.a.into())
    }),
    judged("a balance above 2^40", 5, |values, _| {
        balances(values, |list| list.contains(&(MOST + 1)))
    }),
    judged("kind 2", 5, |values, _| lists(values, |lists| lists.sort == 2)),
    judged("no debit", 5, |values, _| lists(values, |lists| lists.debit_count == 0)),
    judged("five debits", 5, |values, _| lists(values, |lists| lists.debit_count == 5)),
    judged("no credit", 5, |values, _| lists(values, |lists| lists.credit_count == 0)),
    judged("five credits", 5, |values, _| lists(values, |lists| lists.credit_count == 5)),
    judged("nine operations", 5, |values, _| lists(values, |lists| lists.operation_count == 9)),
    judged("operations in a payment", 5, |values, _| {
        lists(values, |lists| lists.sort == 0 && lists.operation_count > 0)
    }),
    judged("debit of no account", 5, |values, head| {
        lists(values, |lists| lists.payers.contains(&head.a))
    }),
    judged("credit of no account", 5, |values, head| {
        lists(values, |lists| lists.payees.contains(&head.a))
    }),
    judged("debit of nothing", 5, |values, _| lists(values, |lists| lists.debits.contains(&0))),
    judged("credit of nothing", 5, |values, _| lists(values, |lists| lists.credits.contains(&0))),
    judged("code 5", 5, |values, _| lists(values, |lists| lists.codes.contains(&5))),
    judged("no such register", 5, |values, head| {
        lists(values, |lists| lists.registers.iter().any(|register| u16::from(*register) == head.g))
    }),
    judged("the last two debits of one account", 6, |values, _| {
        lists(values, |lists| last_two(&lists.payers))
    }),
    judged("the last two credits of one account", 6, |values, _| {
        lists(values, |lists| last_two(&lists.payees))
    }),
    judged("sums the same modulo 2^32", 7, |values, _| {
        lists(values, |lists| sum(&lists.debits) % FOUR_BYTES == sum(&lists.credits) % FOUR_BYTES)
    }),
    judged("sums one apart", 7, |values, _| {
        lists(values, |lists| sum(&lists.debits).abs_diff(sum(&lists.credits)) == 1)
    }),
    judged("256 more values than counted", 4, |values, _| {
        lists(values, |lists| lists.values.len() == usize::from(lists.operation_count) + 256)
    }),
    judged("65,536 more balances than accounts", 4, |values, head| {
        balances(values, |list| list.len() == usize::from(head.a) + 65_536)
    }),
    judged("65,536 more citations than counted", 4, |values, _| {
        block(values, |block| block.citations.len() == usize::from(block.count) + 65_536)
    }),
    judged("33 citations", 5, |values, _| block(values, |block| block.count == 33)),
    judged("a citation too many", 4, |values, _| {
        block(values, |block| block.citations.len() == after(block.count))
    }),
    judged("a citation too few", 4, |values, _| {
        block(values, |block| block.citations.len() + 1 == block.count.into())
    }),
    judged("the first unused entry", 5, |values, head| {
        block(values, |block| entry(block, head.m.into()))
    }),
    judged("entry 15, unused", 5, |values, _| block(values, |block| entry(block, 15))),
];

/// Refused with the number though sound.
pub const STRICT: [Judged; 16] = [
    judged("16 instances", 5, |values, _| header(values, |head| head.m == 16)),
    judged("1,024 accounts", 5, |values, _| header(values, |head| head.a == 1_024)),
    judged("64 registers", 5, |values, _| header(values, |head| head.g == 64)),
    judged("1,024 transactions", 5, |values, _| header(values, |head| head.t == 1_024)),
    judged("a balance of 2^40", 5, |values, _| balances(values, |list| list.contains(&MOST))),
    judged("four debits", 5, |values, _| lists(values, |lists| lists.debit_count == 4)),
    judged("four credits", 5, |values, _| lists(values, |lists| lists.credit_count == 4)),
    judged("eight operations", 5, |values, _| lists(values, |lists| lists.operation_count == 8)),
    judged("the last account", 5, |values, head| {
        lists(values, |lists| lists.payers.iter().any(|payer| after(*payer) == head.a.into()))
    }),
    judged("the last register", 5, |values, head| {
        lists(values, |lists| lists.registers.iter().any(|one| u16::from(*one) + 1 == head.g))
    }),
    judged("code 4", 5, |values, _| lists(values, |lists| lists.codes.contains(&4))),
    judged("a payer who is a payee", 6, |values, _| {
        lists(values, |lists| lists.payers.iter().any(|payer| lists.payees.contains(payer)))
    }),
    judged("a sum above four bytes", 7, |values, _| {
        lists(values, |lists| sum(&lists.debits) >= FOUR_BYTES)
    }),
    judged("32 citations", 5, |values, _| block(values, |block| block.count == 32)),
    judged("fewer than sixteen entries", 4, |values, _| {
        block(values, |block| block.cut.len() < 16)
    }),
    judged("an entry behind sixteen", 5, |values, _| {
        block(values, |block| block.cut.iter().skip(16).any(|entry| *entry != 0))
    }),
];

fn header(values: &Values, when: impl Fn(&Head) -> bool) -> bool {
    matches!(values, Values::Header(head) if when(head))
}

fn balances(values: &Values, when: impl Fn(&[u64]) -> bool) -> bool {
    matches!(values, Values::Balances(list) if when(list))
}

fn lists(values: &Values, when: impl Fn(&Lists) -> bool) -> bool {
    matches!(values, Values::Transaction(lists) if when(lists))
}

fn block(values: &Values, when: impl Fn(&BlockValues) -> bool) -> bool {
    matches!(values, Values::Block(block) if when(block))
}

/// The number after one of two bytes.
fn after(number: u16) -> usize {
    usize::from(number) + 1
}

fn sum(amounts: &[u32]) -> u64 {
    amounts.iter().map(|amount| u64::from(*amount)).sum()
}

fn last_two(accounts: &[u16]) -> bool {
    matches!(accounts, [.., first, second] if first == second)
}

fn twice(accounts: &[u16]) -> bool {
    accounts.iter().collect::<BTreeSet<_>>().len() < accounts.len()
}

fn entry(block: &BlockValues, place: usize) -> bool {
    block.cut.get(place).is_some_and(|entry| *entry != 0)
}

/// Whether a refusal applies to values, whatever comes before it. Of 5 the
/// plainest cases; `short` is the buffer.
pub fn applies(number: u16, values: &Values, head: &Head, short: bool) -> bool {
    match (number, values) {
        (4, Values::Balances(list)) => list.len() != usize::from(head.a),
        (4, Values::Transaction(lists)) => lists.transaction().is_none(),
        (4, Values::Block(block)) => block.citations.len() != usize::from(block.count),
        (5, Values::Header(head)) => head.m > 16 || head.a > 1_024,
        (5, Values::Balances(list)) => list.iter().any(|balance| *balance > MOST),
        (5, Values::Transaction(lists)) => lists.sort > 1 || lists.debits.contains(&0),
        (5, Values::Block(block)) => block.count > 32,
        (6, Values::Transaction(lists)) => twice(&lists.payers) || twice(&lists.payees),
        (7, Values::Transaction(lists)) => sum(&lists.debits) != sum(&lists.credits),
        (16, _) => short,
        _ => false,
    }
}
