//! Request 05, "Share to the nearest, half to even": "round to nearest, a tie
//! to the even figure; the `share` line now does so".
//!
//! Every figure is worked out by hand. Beside it stands the share before it is
//! rounded, exact or to some places.

use super::{block, case, contract, payment, run, sheet, Case};
use crate::engine::ledger::MOST_CITATIONS;
use crate::engine::{Block, Sheet, Transaction};

/// Settled transactions, all of them, the thousandths, the figure printed.
type Counts = (u16, u16, &'static str, u32);

/// "One settled of 16 is 62.5 thousandths and prints 62; three of 16 is 187.5
/// and prints 188. None of 16 prints 0, all print 1000, and t 0 still prints
/// 1000."
const OF_THE_REQUEST: [Counts; 5] = [
    (1, 16, "62.5", 62),
    (3, 16, "187.5", 188),
    (0, 16, "0", 0),
    (16, 16, "1000", 1000),
    (0, 0, "1000 with t 0", 1000),
];

/// None settled, one, all but one and all; those of 16 above and below.
const ENDS: [Counts; 25] = [
    (0, 1, "0", 0),
    (1, 1, "1000", 1000),
    (0, 2, "0", 0),
    (1, 2, "500", 500),
    (2, 2, "1000", 1000),
    (0, 3, "0", 0),
    (1, 3, "333.33", 333),
    (2, 3, "666.67", 667),
    (3, 3, "1000", 1000),
    (0, 7, "0", 0),
    (1, 7, "142.86", 143),
    (6, 7, "857.14", 857),
    (7, 7, "1000", 1000),
    (0, 32, "0", 0),
    (1, 32, "31.25", 31),
    (31, 32, "968.75", 969),
    (32, 32, "1000", 1000),
    (0, 48, "0", 0),
    (1, 48, "20.83", 21),
    (47, 48, "979.17", 979),
    (48, 48, "1000", 1000),
    (0, 1_024, "0", 0),
    (1, 1_024, "0.98", 1),
    (1_023, 1_024, "999.02", 999),
    (1_024, 1_024, "1000", 1000),
];

/// Ties, the lower figure even.
const TIES_DOWN: [Counts; 8] = [
    (5, 16, "312.5", 312),
    (9, 16, "562.5", 562),
    (13, 16, "812.5", 812),
    (2, 32, "62.5", 62),
    (3, 48, "62.5", 62),
    (1, 80, "12.5", 12),
    (1, 400, "2.5", 2),
    (64, 1_024, "62.5", 62),
];

/// Ties, the lower figure odd.
const TIES_UP: [Counts; 8] = [
    (7, 16, "437.5", 438),
    (11, 16, "687.5", 688),
    (15, 16, "937.5", 938),
    (6, 32, "187.5", 188),
    (9, 48, "187.5", 188),
    (3, 80, "37.5", 38),
    (399, 400, "997.5", 998),
    (192, 1_024, "187.5", 188),
];

/// Below a tie and above it: by a fourteenth of a thousandth or less, or with
/// one transaction fewer or more. No other figure is as near, so that it does
/// not count which is even.
const BESIDE_TIES: [Counts; 12] = [
    (4, 7, "571.43", 571),
    (3, 7, "428.57", 429),
    (29, 31, "935.48", 935),
    (2, 31, "64.52", 65),
    (556, 1_023, "543.4995", 543),
    (467, 1_023, "456.5005", 457),
    (2, 16, "125", 125),
    (3, 32, "93.75", 94),
    (2, 48, "41.67", 42),
    (4, 48, "83.33", 83),
    (8, 48, "166.67", 167),
    (10, 48, "208.33", 208),
];

/// Every run of request 05.
pub fn share() -> Vec<Case> {
    let counts = [&OF_THE_REQUEST[..], &ENDS, &TIES_DOWN, &TIES_UP, &BESIDE_TIES].concat();
    let mut cases: Vec<Case> = counts.into_iter().map(counted).collect();
    cases.extend(one_of_16());
    cases.push(waiting());
    cases.push(three_of_16());
    cases.extend(in_every_way());
    cases.push(turned_away());
    cases
}

/// So many transactions, from a number on, that are open.
fn open(numbers: std::ops::Range<u16>) -> String {
    numbers.map(|number| format!("tx {number} open\n")).collect()
}

/// Pays itself from account 0, which has 1: 1 if its number is even, 2 if it
/// is odd. It is paid, or returned, as soon as it is cited.
fn to_itself(number: u16) -> Transaction {
    let amount = 1 + u32::from(number % 2);
    payment(&[(0, amount)], &[(0, amount)])
}

/// One instance; the last of the transactions are cited, as many as are to be
/// settled, and as many in a block as may be.
fn counted((settled, all, thousandths, share): Counts) -> Case {
    let transactions: Vec<Transaction> = (0..all).map(to_itself).collect();
    let first = all - settled;
    let cited: Vec<u16> = (first..all).collect();
    let blocks: Vec<Block> = (1..)
        .zip(cited.chunks(MOST_CITATIONS))
        .map(|(number, cited)| block(0, number, number.into(), &[number - 1], cited))
        .collect();
    let lines = |word: &str| -> String {
        blocks.iter().map(|block| format!("{word} 0 {}\n", block.number)).collect()
    };
    let ending = |number: &u16| if number.is_multiple_of(2) { "paid" } else { "returned" };
    let ended: String = cited.iter().map(|n| format!("tx {n} {}\n", ending(n))).collect();
    let text = format!(
        "run 1 1 0 {all}\n{}{}{}{ended}account 0 1 0\nshare {share}\n",
        lines("ok"),
        lines("log"),
        open(0..first)
    );
    let name = format!("{settled} of {all} settled: {thousandths}");
    case(&name, run(&sheet(1, 0, &[1], &transactions), &blocks), &text)
}

/// Transaction 0 is settled, in each of four ways; the others are not cited.
fn one_of_16() -> Vec<Case> {
    let one = |how: &str, first: Transaction, text: &str| {
        let mut transactions = vec![payment(&[(1, 1)], &[(0, 1)]); 16];
        transactions[0] = first;
        let (ending, accounts) = text.split_at(text.find("account").unwrap_or(0));
        case(
            &format!("1 of 16 settled, {how}"),
            run(&sheet(1, 1, &[1, 0], &transactions), &[block(0, 1, 1, &[0], &[0])]),
            &format!(
                "run 1 2 1 16\nok 0 1\nlog 0 1\n{ending}{}{accounts}register 0 0\nshare 62\n",
                open(1..16)
            ),
        )
    };
    let paid = "tx 0 paid\naccount 0 0 0\naccount 1 1 0\n";
    let returned = "tx 0 returned\naccount 0 1 0\naccount 1 0 0\n";
    let minus_one = contract(&[(0, 1)], &[(1, 1)], &[(4, 0, 1)]);
    vec![
        one("a payment paid", payment(&[(0, 1)], &[(1, 1)]), paid),
        one("a payment returned", payment(&[(0, 2)], &[(1, 2)]), returned),
        one("a contract paid", contract(&[(0, 1)], &[(1, 1)], &[]), paid),
        one("a contract returned", minus_one, returned),
    ]
}

/// Instance 1 is empty, so the bar is (1, 1): a contract in a block of rank 2
/// is open.
fn waiting() -> Case {
    let mut transactions = vec![payment(&[(1, 1)], &[(0, 1)]); 16];
    transactions[0] = contract(&[(0, 1)], &[(1, 1)], &[]);
    case(
        "0 of 16 settled, a contract waits",
        run(&sheet(2, 0, &[1, 0], &transactions), &[block(0, 1, 2, &[0, 0], &[0])]),
        &format!("run 2 2 0 16\nok 0 1\n{}account 0 0 1\naccount 1 0 0\nshare 0\n", open(0..16)),
    )
}

/// A payment paid, one returned, a contract paid.
fn three_of_16() -> Case {
    let mut transactions = vec![payment(&[(1, 1)], &[(0, 1)]); 16];
    transactions[0] = payment(&[(0, 1)], &[(1, 1)]);
    transactions[1] = payment(&[(0, 9)], &[(1, 9)]);
    transactions[2] = contract(&[(0, 1)], &[(1, 1)], &[]);
    case(
        "3 of 16 settled, each in its way",
        run(&sheet(1, 0, &[2, 0], &transactions), &[block(0, 1, 1, &[0], &[0, 1, 2])]),
        &format!(
            "run 1 2 0 16\nok 0 1\nlog 0 1\ntx 0 paid\ntx 1 returned\ntx 2 paid\n{}\
             account 0 0 0\naccount 1 2 0\nshare 188\n",
            open(3..16)
        ),
    )
}

/// Two instances, 16 transactions. Payments 0 and 1 are paid and returned,
/// contract 2 is paid, 3 does not pass, 4 has a failed part. Payment 5 has two
/// parts, contract 6 one in instance 1. The others are not cited.
fn every_way() -> Sheet {
    let mut transactions = vec![payment(&[(2, 1)], &[(3, 1)]); 16];
    transactions[0] = payment(&[(0, 3)], &[(2, 3)]);
    transactions[1] = payment(&[(0, 11)], &[(2, 11)]);
    transactions[2] = contract(&[(0, 2)], &[(2, 2)], &[(2, 0, 5)]);
    transactions[3] = contract(&[(0, 1)], &[(2, 1)], &[(1, 0, 9)]);
    transactions[4] = contract(&[(0, 50)], &[(2, 50)], &[(2, 0, 8)]);
    transactions[5] = payment(&[(0, 1), (1, 1)], &[(3, 2)]);
    transactions[6] = contract(&[(1, 4)], &[(3, 4)], &[]);
    sheet(2, 1, &[10, 10, 0, 0], &transactions)
}

/// After two blocks five are settled: payment 5 lacks a part, and contract 6 is
/// above the bar (2, 0). The next block puts it into the log, since the bar is
/// then (3, 1), and the last one cites the other part.
fn in_every_way() -> Vec<Case> {
    let blocks = [
        block(0, 1, 1, &[0, 0], &[0, 1, 2, 3, 4, 5]),
        block(1, 1, 2, &[0, 0], &[6]),
        block(0, 2, 3, &[1, 1], &[]),
        block(1, 2, 3, &[2, 1], &[5]),
    ];
    let after = |count: usize, settled: u16, start: &str, end: &str| {
        let five = "tx 0 paid\ntx 1 returned\ntx 2 paid\ntx 3 returned\ntx 4 returned\n";
        let name = format!("{settled} of 16 settled, payments and contracts");
        let (own, accounts) = end.split_at(end.find("account").unwrap_or(0));
        let text = format!("run 2 4 1 16\n{start}{five}{own}{}{accounts}", open(7..16));
        case(&name, run(&every_way(), &blocks[..count]), &text)
    };
    vec![
        after(
            2,
            5,
            "ok 0 1\nok 1 1\nlog 0 1\n",
            "tx 5 open\ntx 6 open\naccount 0 4 1\naccount 1 6 4\naccount 2 5 0\n\
             account 3 0 0\nregister 0 5\nshare 312\n",
        ),
        after(
            3,
            6,
            "ok 0 1\nok 1 1\nok 0 2\nlog 0 1\nlog 1 1\nlog 0 2\n",
            "tx 5 open\ntx 6 paid\naccount 0 4 1\naccount 1 6 0\naccount 2 5 0\n\
             account 3 4 0\nregister 0 5\nshare 375\n",
        ),
        after(
            4,
            7,
            "ok 0 1\nok 1 1\nok 0 2\nok 1 2\nlog 0 1\nlog 1 1\nlog 0 2\nlog 1 2\n",
            "tx 5 paid\ntx 6 paid\naccount 0 4 0\naccount 1 5 0\naccount 2 5 0\n\
             account 3 6 0\nregister 0 5\nshare 438\n",
        ),
    ]
}

/// What a block that is turned away cites is not settled by it.
fn turned_away() -> Case {
    let transactions: Vec<Transaction> = (0..16).map(to_itself).collect();
    let blocks = [block(0, 1, 1, &[0], &[14]), block(0, 2, 1, &[1], &[0, 1])];
    case(
        "1 of 16 settled, a block turned away",
        run(&sheet(1, 0, &[1], &transactions), &blocks),
        &format!(
            "run 1 1 0 16\nok 0 1\nrefused 10 1\nlog 0 1\n{}tx 14 paid\ntx 15 open\n\
             account 0 1 0\nshare 62\n",
            open(0..14)
        ),
    )
}
