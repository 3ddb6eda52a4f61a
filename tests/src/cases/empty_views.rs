//! Request 04 in the views of citations: "Logs, printed or in a cut's view,
//! follow it from here".
//!
//! In the view of a first block its own instance has no block, so the bar
//! there is at most (1, that instance). Whether a contract has run there tells
//! whether its credit can be spent.

use super::{block, case, contract, payment, run, sheet, Case};
use crate::engine::Block;

/// Contracts that run, or do not, in a view that lacks an instance.
pub fn views() -> Vec<Case> {
    let mut cases = vec![
        first_block_spends(),
        first_block_waits(),
        first_block_of_instance_0(),
        both_sides(),
        two_parts(1),
        two_parts(2),
        not_in_the_cut(),
        own_block_in_the_log(),
        own_block_is_not(),
    ];
    cases.extend([debit_comes_back(1), debit_comes_back(2)]);
    cases.extend([sixteen(1), sixteen(2)]);
    cases
}

/// The view of the first block of instance 1 has bar (1, 1): contract 0, in a
/// block of rank 1, has run there and payment 1 spends what it brought. In the
/// view of the second block nothing is left for payment 2.
fn first_block_spends() -> Case {
    let back = payment(&[(1, 1)], &[(0, 1)]);
    let transactions = [contract(&[(0, 1)], &[(1, 1)], &[]), back.clone(), back];
    let blocks = [
        block(0, 1, 1, &[0, 0], &[0]),
        block(0, 2, 2, &[1, 0], &[]),
        block(1, 1, 3, &[2, 0], &[1]),
        block(1, 2, 4, &[2, 1], &[2]),
    ];
    case(
        "a contract of rank 1 runs in the view of a first block",
        run(&sheet(2, 0, &[1, 0], &transactions), &blocks),
        "run 2 2 0 3\nok 0 1\nok 0 2\nok 1 1\nok 1 2\nlog 0 1\nlog 0 2\ntx 0 paid\ntx 1 paid\n\
         tx 2 returned\naccount 0 1 0\naccount 1 0 0\nshare 1000\n",
    )
}

/// "so the view of a first block holds no block of its own instance": the bar
/// is (1, 1) there and contract 0, in a block of rank 2, is open. In the view
/// of the second block the bar is (3, 0) and the contract is paid. (Before
/// request 04 this was shown with the contract in the block of rank 1.)
fn first_block_waits() -> Case {
    let back = payment(&[(1, 1)], &[(0, 1)]);
    let transactions = [contract(&[(0, 1)], &[(1, 1)], &[]), back.clone(), back];
    let blocks = [
        block(0, 1, 1, &[0, 0], &[]),
        block(0, 2, 2, &[1, 0], &[0]),
        block(1, 1, 3, &[2, 0], &[1]),
        block(1, 2, 4, &[2, 1], &[2]),
    ];
    case(
        "a contract of rank 2 does not",
        run(&sheet(2, 0, &[1, 0], &transactions), &blocks),
        "run 2 2 0 3\nok 0 1\nok 0 2\nok 1 1\nok 1 2\nlog 0 1\nlog 0 2\ntx 0 paid\n\
         tx 1 returned\ntx 2 paid\naccount 0 1 0\naccount 1 0 0\nshare 1000\n",
    )
}

/// In the view of the first block of instance 0 the bar is (1, 0): no block is
/// below it, and contract 0 is open although its block has rank 1. In the view
/// of the second one the bar is (2, 1).
fn first_block_of_instance_0() -> Case {
    let back = payment(&[(0, 1)], &[(1, 1)]);
    let transactions = [contract(&[(1, 1)], &[(0, 1)], &[]), back.clone(), back];
    let blocks = [
        block(1, 1, 1, &[0, 0], &[0]),
        block(0, 1, 2, &[0, 1], &[1]),
        block(0, 2, 3, &[1, 1], &[2]),
    ];
    case(
        "no contract runs in the view of the first block of instance 0",
        run(&sheet(2, 0, &[0, 1], &transactions), &blocks),
        "run 2 2 0 3\nok 1 1\nok 0 1\nok 0 2\nlog 1 1\nlog 0 1\ntx 0 paid\ntx 1 returned\n\
         tx 2 paid\naccount 0 0 0\naccount 1 1 0\nshare 1000\n",
    )
}

/// The first block of the middle instance of three sees a contract of rank 1
/// on either side, (1, 0) and (1, 2). The bar is (1, 1) there: it can spend
/// what the first one brought, not what the other will.
fn both_sides() -> Case {
    let transactions = [
        contract(&[(0, 1)], &[(1, 1)], &[]),
        contract(&[(2, 1)], &[(1, 1)], &[]),
        payment(&[(1, 1)], &[(0, 1)]),
        payment(&[(1, 1)], &[(2, 1)]),
    ];
    let blocks = [
        block(0, 1, 1, &[0, 0, 0], &[0]),
        block(2, 1, 1, &[0, 0, 0], &[1]),
        block(1, 1, 2, &[1, 0, 1], &[2, 3]),
    ];
    case(
        "of two contracts of rank 1 the one of the lower instance runs",
        run(&sheet(3, 0, &[1, 0, 1], &transactions), &blocks),
        "run 3 3 0 4\nok 0 1\nok 2 1\nok 1 1\nlog 0 1\nlog 2 1\ntx 0 paid\ntx 1 paid\n\
         tx 2 paid\ntx 3 returned\naccount 0 1 0\naccount 1 1 0\naccount 2 0 0\nshare 1000\n",
    )
}

/// A contract with parts in instances 0 and 1, the second in a block of rank 1
/// or 2; the first block of instance 2 has seen both, and its bar is (1, 2).
fn two_parts(rank: u32) -> Case {
    let transactions = [contract(&[(0, 1), (1, 1)], &[(2, 2)], &[]), payment(&[(2, 2)], &[(0, 2)])];
    let blocks = [
        block(1, 1, rank, &[0, 0, 0], &[0]),
        block(0, 1, 1, &[0, 0, 0], &[0]),
        block(2, 1, 3, &[1, 1, 0], &[1]),
    ];
    let text = match rank {
        1 => {
            "log 0 1\nlog 1 1\ntx 0 paid\ntx 1 paid\naccount 0 2 0\naccount 1 0 0\n\
             account 2 0 0\nshare 1000\n"
        }
        // Here and in the full view the second part is not in the log.
        _ => {
            "log 0 1\ntx 0 open\ntx 1 returned\naccount 0 0 1\naccount 1 0 1\naccount 2 0 0\n\
             share 500\n"
        }
    };
    case(
        &format!("two parts in the view of a first block, ranks 1 and {rank}"),
        run(&sheet(3, 0, &[1, 1, 0], &transactions), &blocks),
        &format!("run 3 3 0 2\nok 1 1\nok 0 1\nok 2 1\n{text}"),
    )
}

/// Instance 2 has a block, but not in the cuts of instance 1. The views have
/// the bars (1, 1) and (1, 2): in the second one both contracts have run, the
/// one cited by the own first block too.
fn not_in_the_cut() -> Case {
    let transactions = [
        contract(&[(0, 1)], &[(1, 1)], &[]),
        contract(&[(1, 1)], &[(4, 1)], &[]),
        payment(&[(4, 1)], &[(2, 1)]),
    ];
    let blocks = [
        block(0, 1, 1, &[0, 0, 0], &[0]),
        block(2, 1, 5, &[0, 0, 0], &[]),
        block(1, 1, 1, &[1, 0, 0], &[1]),
        block(1, 2, 2, &[1, 1, 0], &[2]),
    ];
    case(
        "an instance whose blocks are not in the cut is empty in the view",
        run(&sheet(3, 0, &[1, 0, 0, 0, 0], &transactions), &blocks),
        "run 3 5 0 3\nok 0 1\nok 2 1\nok 1 1\nok 1 2\nlog 0 1\nlog 1 1\ntx 0 paid\ntx 1 paid\n\
         tx 2 paid\naccount 0 0 0\naccount 1 0 0\naccount 2 1 0\naccount 3 0 0\naccount 4 0 0\n\
         share 1000\n",
    )
}

/// Instance 1 never starts. Block 2 of instance 0 spends what a contract of
/// its own first block, of rank 1, brought.
fn own_block_in_the_log() -> Case {
    let transactions = [contract(&[(0, 1)], &[(2, 1)], &[]), payment(&[(2, 1)], &[(1, 1)])];
    let blocks = [block(0, 1, 1, &[0, 0], &[0]), block(0, 2, 2, &[1, 0], &[1])];
    case(
        "a second block spends what its first block's contract brought",
        run(&sheet(2, 0, &[1, 0, 0], &transactions), &blocks),
        "run 2 3 0 2\nok 0 1\nok 0 2\nlog 0 1\ntx 0 paid\ntx 1 paid\naccount 0 0 0\n\
         account 1 1 0\naccount 2 0 0\nshare 1000\n",
    )
}

/// The same citations in one block. Its rank is 1, but "its own unfinished
/// block counts neither for the bar nor for the log": the view holds no block
/// at all and its log is empty.
fn own_block_is_not() -> Case {
    let transactions = [contract(&[(0, 1)], &[(2, 1)], &[]), payment(&[(2, 1)], &[(1, 1)])];
    case(
        "an unfinished first block of rank 1 is not in the log of its view",
        run(&sheet(2, 0, &[1, 0, 0], &transactions), &[block(0, 1, 1, &[0, 0], &[0, 1])]),
        "run 2 3 0 2\nok 0 1\nlog 0 1\ntx 0 paid\ntx 1 returned\naccount 0 0 0\naccount 1 0 0\n\
         account 2 1 0\nshare 1000\n",
    )
}

/// Contract 0 takes 1 from a register that holds 0. With rank 1 it has run in
/// the view of the second block and is returned there, so that payment 1 finds
/// its debit back; with rank 2 it is open and has it reserved.
fn debit_comes_back(rank: u32) -> Case {
    let transactions =
        [contract(&[(0, 2)], &[(1, 2)], &[(4, 0, 1)]), payment(&[(0, 2)], &[(1, 2)])];
    let blocks = [block(0, 1, rank, &[0, 0], &[0]), block(0, 2, rank + 1, &[1, 0], &[1])];
    let text = match rank {
        1 => {
            "log 0 1\ntx 0 returned\ntx 1 paid\naccount 0 0 0\naccount 1 2 0\nregister 0 0\n\
             share 1000\n"
        }
        _ => {
            "tx 0 open\ntx 1 returned\naccount 0 0 2\naccount 1 0 0\nregister 0 0\n\
             share 500\n"
        }
    };
    case(
        &format!("a contract that does not pass, beside an empty instance, rank {rank}"),
        run(&sheet(2, 1, &[2, 0], &transactions), &blocks),
        &format!("run 2 2 1 2\nok 0 1\nok 0 2\n{text}"),
    )
}

/// Instances 0 to 14 each bring 1 to account 15 by a contract of rank 1; the
/// first block of instance 15 spends 15. If the block of instance 14 has rank
/// 2 one of them is missing.
fn sixteen(rank: u32) -> Case {
    let mut transactions: Vec<_> = (0..15).map(|i| contract(&[(i, 1)], &[(15, 1)], &[])).collect();
    transactions.push(payment(&[(15, 15)], &[(0, 15)]));
    let mut blocks: Vec<Block> = (0..15).map(|i| block(i, 1, 1, &[], &[i])).collect();
    blocks[14].rank = rank;
    blocks.push(block(15, 1, 3, &[1; 15], &[15]));
    let mut starts = [1; 16];
    starts[15] = 0;
    let lines = |numbers: std::ops::Range<u16>, line: fn(u16) -> String| -> String {
        numbers.map(line).collect()
    };
    let ok = lines(0..16, |i| format!("ok {i} 1\n"));
    let log = lines(0..14, |i| format!("log {i} 1\n"));
    let paid = lines(0..14, |i| format!("tx {i} paid\n"));
    let spent = lines(1..14, |i| format!("account {i} 0 0\n"));
    let text = match rank {
        1 => format!(
            "{log}log 14 1\n{paid}tx 14 paid\ntx 15 paid\naccount 0 15 0\n{spent}\
             account 14 0 0\naccount 15 0 0\nshare 1000\n"
        ),
        _ => format!(
            "{log}{paid}tx 14 open\ntx 15 returned\naccount 0 0 0\n{spent}\
             account 14 0 1\naccount 15 14 0\nshare 938\n"
        ),
    };
    case(
        &format!("the first block of instance 15, rank {rank} in instance 14"),
        run(&sheet(16, 0, &starts, &transactions), &blocks),
        &format!("run 16 16 0 16\n{ok}{text}"),
    )
}
