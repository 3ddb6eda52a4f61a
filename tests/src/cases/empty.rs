//! Request 04, "An instance that has delivered nothing", in the full view:
//! such an instance "counts as having last rank 0".
//!
//! If e is the lowest instance without a block, the bar is (1, e). Below it are
//! the blocks of rank 1 of the instances before e, and nothing else.

use super::{block, case, contract, run, sheet, Case};
use crate::engine::Block;

/// A block without citations: instance, sequence number, rank.
type Ranked = (u16, u16, u32);

/// A run without transactions. Its blocks are all accepted and have seen
/// nothing; `log` is the global log at the end, as (instance, number).
fn logged(name: &str, m: u16, blocks: &[Ranked], log: &[(u16, u16)]) -> Case {
    let written = |&(instance, number, rank): &Ranked| {
        let mut cut = [0; 16];
        cut[usize::from(instance)] = number - 1;
        block(instance, number, rank, &cut, &[])
    };
    let offers: Vec<Block> = blocks.iter().map(written).collect();
    let ok: String = blocks.iter().map(|(i, n, _)| format!("ok {i} {n}\n")).collect();
    let log: String = log.iter().map(|(i, n)| format!("log {i} {n}\n")).collect();
    let text = format!("run {m} 1 0 0\n{ok}{log}account 0 0 0\nshare 1000\n");
    case(name, run(&sheet(m, 0, &[0], &[]), &offers), &text)
}

/// Logs, and contracts that run or wait.
pub fn empty() -> Vec<Case> {
    let mut cases = Vec::new();
    cases.extend(no_block_at_all());
    cases.extend(lowest_and_several());
    cases.extend(middle_of_three());
    cases.extend(last_of_sixteen());
    cases.extend(late_first_block());
    cases.extend(ranks_beside());
    cases.extend(waiting_contract());
    cases.extend(contracts_in_between());
    cases.push(operations());
    cases.push(turned_away());
    cases
}

/// "A view with no blocks at all still has an empty log."
fn no_block_at_all() -> Vec<Case> {
    vec![
        logged("no block at all, one instance", 1, &[], &[]),
        logged("no block at all, two instances", 2, &[], &[]),
        logged("no block at all, sixteen instances", 16, &[], &[]),
    ]
}

/// The lowest empty instance gives the bar: with 0 empty it is (1, 0), and no
/// block is below it.
fn lowest_and_several() -> Vec<Case> {
    vec![
        logged("instance 0 of three empty: bar (1, 0)", 3, &[(1, 1, 1), (2, 1, 1), (1, 2, 2)], &[]),
        logged("instances 0 and 2 of four empty: bar (1, 0)", 4, &[(1, 1, 1), (3, 1, 1)], &[]),
        logged(
            "instances 1 and 3 of four empty: bar (1, 1)",
            4,
            &[(2, 1, 1), (0, 1, 1), (0, 2, 2)],
            &[(0, 1)],
        ),
        logged(
            "instances 2 and 3 of four empty: bar (1, 2)",
            4,
            &[(1, 1, 1), (0, 1, 1), (1, 2, 2)],
            &[(0, 1), (1, 1)],
        ),
    ]
}

/// The bar is (1, 1): (1, 0) is the last pair below it, (1, 2) and (2, 0) are
/// the next ones that are not.
fn middle_of_three() -> Vec<Case> {
    let name = |ranks: &str| format!("instance 1 of three empty, {ranks}: bar (1, 1)");
    vec![
        logged(&name("ranks 1 and 1"), 3, &[(2, 1, 1), (0, 1, 1)], &[(0, 1)]),
        logged(&name("ranks 2 and 1"), 3, &[(0, 1, 2), (2, 1, 1)], &[]),
        logged(&name("ranks 1 and 2"), 3, &[(0, 1, 1), (2, 1, 2)], &[(0, 1)]),
        logged(&name("ranks 2 and 2"), 3, &[(0, 1, 2), (2, 1, 2)], &[]),
        logged(
            &name("ranks 1, 2 and 1, 2"),
            3,
            &[(0, 1, 1), (2, 1, 1), (2, 2, 2), (0, 2, 2)],
            &[(0, 1)],
        ),
    ]
}

/// Sixteen instances. With 15 empty the bar is (1, 15): every block of rank 1
/// is in the log. One of rank 2 is not, and the others do not wait for it.
fn last_of_sixteen() -> Vec<Case> {
    let falling: Vec<Ranked> = (0..15).rev().map(|i| (i, 1, 1)).collect();
    let second: Vec<Ranked> = (0..15).map(|i| (i, 2, 2)).collect();
    let both = [&falling[..], &second].concat();
    let all: Vec<(u16, u16)> = (0..15).map(|i| (i, 1)).collect();
    let but_7: Vec<(u16, u16)> = all.iter().copied().filter(|(i, _)| *i != 7).collect();
    let mut late_7 = falling.clone();
    late_7[7] = (7, 1, 2);
    let name = |which: &str| format!("sixteen instances, {which}");
    vec![
        logged(&name("the last empty: bar (1, 15)"), 16, &both, &all),
        logged(&name("the last empty, rank 2 in instance 7"), 16, &late_7, &but_7),
        logged(&name("all but the first empty: bar (1, 1)"), 16, &[(0, 1, 1)], &[(0, 1)]),
        logged(&name("all but the last empty: bar (1, 0)"), 16, &[(15, 1, 1)], &[]),
    ]
}

/// A first block that comes late takes its place among the others. Before, the
/// bar is (1, 1); after, it is (2, 1) with rank 1 there, and (3, 0) with rank 2
/// or 9. Each log begins with the shorter one.
fn late_first_block() -> Vec<Case> {
    let before = [(0, 1, 1), (2, 1, 1), (0, 2, 2), (2, 2, 3)];
    let after = |rank| [&before[..], &[(1, 1, rank)]].concat();
    let rank_1 = [(0, 1), (1, 1), (2, 1), (0, 2)];
    let rank_2 = [(0, 1), (2, 1), (0, 2), (1, 1)];
    vec![
        logged("before a late first block: bar (1, 1)", 3, &before, &rank_1[..1]),
        logged("after one of rank 1: bar (2, 1)", 3, &after(1), &rank_1),
        logged("after one of rank 2: bar (3, 0)", 3, &after(2), &rank_2),
        logged("after one of rank 9: bar (3, 0)", 3, &after(9), &rank_2[..3]),
    ]
}

/// Ranks 1, 2 and 2^32 − 1 beside an empty instance, and when it has begun
/// with the highest rank, where the bar is (2^32, 0).
fn ranks_beside() -> Vec<Case> {
    let most = u32::MAX;
    let ranks = |i| [(i, 1, 1), (i, 2, 2), (i, 3, most)];
    let begun = [&ranks(0)[..], &[(1, 1, most)]].concat();
    vec![
        logged("rank 2 beside an empty instance 1", 2, &[(0, 1, 2)], &[]),
        logged("rank 2^32 - 1 beside an empty instance 1", 2, &[(0, 1, most)], &[]),
        logged("ranks 1, 2, 2^32 - 1 beside an empty instance 1", 2, &ranks(0), &[(0, 1)]),
        logged("ranks 1, 2, 2^32 - 1 beside an empty instance 0", 2, &ranks(1), &[]),
        logged("it begins with 2^32 - 1", 2, &begun, &[(0, 1), (0, 2), (0, 3), (1, 1)]),
    ]
}

/// Instance 1 is empty. A contract with its one part in instance 0 runs if the
/// block has rank 1, and waits if it has rank 2. One with a part in instance 1
/// waits for that part.
fn waiting_contract() -> Vec<Case> {
    let one = sheet(2, 0, &[3, 0], &[contract(&[(0, 3)], &[(1, 3)], &[])]);
    let two = sheet(2, 0, &[3, 1], &[contract(&[(0, 3), (1, 1)], &[(1, 4)], &[])]);
    let cited = |rank| [block(0, 1, rank, &[0, 0], &[0])];
    vec![
        case(
            "a contract of rank 1 runs beside an empty instance",
            run(&one, &cited(1)),
            "run 2 2 0 1\nok 0 1\nlog 0 1\ntx 0 paid\naccount 0 0 0\naccount 1 3 0\nshare 1000\n",
        ),
        case(
            "a contract of rank 2 waits for it",
            run(&one, &cited(2)),
            "run 2 2 0 1\nok 0 1\ntx 0 open\naccount 0 0 3\naccount 1 0 0\nshare 0\n",
        ),
        case(
            "a contract with a part in the empty instance waits",
            run(&two, &cited(1)),
            "run 2 2 0 1\nok 0 1\nlog 0 1\ntx 0 open\naccount 0 0 3\naccount 1 1 0\nshare 0\n",
        ),
    ]
}

/// Three contracts that pass in the order of the instances only. While
/// instance 1 is empty, that of instance 2 waits; the late first block of
/// instance 1 then has its contract run between the two.
fn contracts_in_between() -> Vec<Case> {
    let own = |account, operations: &[(u8, u8, u32)]| {
        contract(&[(account, 1)], &[(account, 1)], operations)
    };
    let transactions = [
        own(0, &[(0, 0, 0), (2, 0, 1)]),
        own(1, &[(0, 0, 1), (2, 0, 2)]),
        own(2, &[(0, 0, 2), (2, 0, 3)]),
    ];
    let sheet = sheet(3, 1, &[1, 1, 1], &transactions);
    let first = |instance| block(instance, 1, 1, &[0, 0, 0], &[instance]);
    vec![
        case(
            "a contract above an empty instance waits",
            run(&sheet, &[first(2), first(0)]),
            "run 3 3 1 3\nok 2 1\nok 0 1\nlog 0 1\ntx 0 paid\ntx 1 open\ntx 2 open\n\
             account 0 1 0\naccount 1 1 0\naccount 2 0 1\nregister 0 1\nshare 333\n",
        ),
        case(
            "and runs after that of the late first block",
            run(&sheet, &[first(2), first(0), first(1)]),
            "run 3 3 1 3\nok 2 1\nok 0 1\nok 1 1\nlog 0 1\nlog 1 1\nlog 2 1\ntx 0 paid\n\
             tx 1 paid\ntx 2 paid\naccount 0 1 0\naccount 1 1 0\naccount 2 1 0\nregister 0 3\n\
             share 1000\n",
        ),
    ]
}

/// Instance 2 is empty: bar (1, 2). In log order contract 0 sets register 0 to
/// 5, contract 1 finds it and adds 2, contract 2 takes 1 from register 1, which
/// does not pass. Contract 3, in a block of rank 2, has not run.
fn operations() -> Case {
    let transactions = [
        contract(&[(0, 1)], &[(1, 1)], &[(2, 0, 5)]),
        contract(&[(1, 1)], &[(0, 1)], &[(0, 0, 5), (3, 0, 2)]),
        contract(&[(1, 2)], &[(2, 2)], &[(2, 0, 9), (4, 1, 1)]),
        contract(&[(0, 1)], &[(2, 1)], &[(2, 1, 8)]),
    ];
    let blocks = [
        block(1, 1, 1, &[0, 0, 0], &[1, 2]),
        block(0, 1, 1, &[0, 0, 0], &[0]),
        block(0, 2, 2, &[1, 1, 0], &[3]),
    ];
    case(
        "operations of contracts that run beside an empty instance",
        run(&sheet(3, 2, &[2, 3, 0], &transactions), &blocks),
        "run 3 3 2 4\nok 1 1\nok 0 1\nok 0 2\nlog 0 1\nlog 1 1\ntx 0 paid\ntx 1 paid\n\
         tx 2 returned\ntx 3 open\naccount 0 1 1\naccount 1 3 0\naccount 2 0 0\nregister 0 7\n\
         register 1 0\nshare 750\n",
    )
}

/// First blocks that are turned away leave their instance empty.
fn turned_away() -> Case {
    let blocks = [
        block(1, 1, 0, &[0, 0], &[]),
        block(1, 2, 1, &[0, 1], &[]),
        block(0, 1, 1, &[0, 0], &[]),
        block(1, 1, 1, &[2, 0], &[]),
    ];
    case(
        "an instance whose first blocks are turned away is empty",
        run(&sheet(2, 0, &[0], &[]), &blocks),
        "run 2 1 0 0\nrefused 10 0\nrefused 9 1\nok 0 1\nrefused 12 0\nlog 0 1\naccount 0 0 0\n\
         share 1000\n",
    )
}
