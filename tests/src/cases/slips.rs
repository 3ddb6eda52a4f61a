//! Refusals 1 to 7, with the offsets of their slips.

use super::{block, case, contract, payment, run, sheet, sheet_bytes};
use super::{worked_blocks, worked_sheet, Case};
use crate::engine::format::PAYMENT;
use crate::engine::text::LONGEST_RUN;
use crate::engine::{write, Head, Transaction};

/// A run's bytes and, behind them, bytes of any kind.
fn followed(bytes: &[u8], tail: &[u8]) -> Vec<u8> {
    [bytes, tail].concat()
}

/// Refusals 1 to 7 before the sheet is complete: no `run` line.
pub fn of_the_sheet() -> Vec<Case> {
    let head = |m, a, g, t| write::head(&Head { m, a, g, t });
    let good_head = head(2, 3, 1, 2);
    let begun = followed(&good_head, &write::starts(&[10, 5, 0]));
    let with = |transaction: &Transaction| followed(&begun, &write::transaction(transaction));
    let mut cases = Vec::new();
    let mut add = |name: &str, run: Vec<u8>, text: &str| cases.push(case(name, run, text));

    // The head: offset 0.
    for (m, a, g, t) in [
        (0, 1, 0, 0),
        (17, 1, 0, 0),
        (65_535, 1, 0, 0),
        (1, 0, 0, 0),
        (1, 1_025, 0, 0),
        (1, 1, 65, 0),
        (1, 1, 0, 1_025),
        (0, 0, 65, 1_025),
    ] {
        add(&format!("head {m} {a} {g} {t}"), head(m, a, g, t), "refused 5 0\n");
    }
    add("head of 7 bytes", write::slip(1, &[1, 0, 1, 0, 0, 0, 0]), "refused 4 0\n");
    add("head of 9 bytes", write::slip(1, &[1, 0, 1, 0, 0, 0, 0, 0, 0]), "refused 4 0\n");
    add("starts first", write::starts(&[1]), "refused 3 0\n");
    add("kind 0", write::slip(0, &[]), "refused 3 0\n");
    add("kind 5", write::slip(5, &[0; 8]), "refused 3 0\n");
    add("kind 257", write::slip(257, &[1, 0, 1, 0, 0, 0, 0, 0]), "refused 3 0\n");
    add("head only", good_head.clone(), "refused 1 14\n");

    // The starts: offset 14.
    add("a second head", followed(&good_head, &good_head), "refused 3 14\n");
    add("two starts for three", followed(&good_head, &write::starts(&[1, 2])), "refused 4 14\n");
    add("four starts for three", followed(&good_head, &write::starts(&[1; 4])), "refused 4 14\n");
    let above = write::starts(&[0, 0, (1 << 40) + 1]);
    add("a start above 2^40", followed(&good_head, &above), "refused 5 14\n");
    let highest = write::starts(&[0, u64::MAX, 0]);
    add("a start of 2^64 - 1", followed(&good_head, &highest), "refused 5 14\n");
    add("head and starts only", begun.clone(), "refused 1 44\n");

    // The first transaction: offset 44.
    add("a second starts slip", followed(&begun, &write::starts(&[10, 5, 0])), "refused 3 44\n");
    let early = write::block(&block(0, 1, 1, &[0, 0], &[]), 2);
    add("a block too early", followed(&begun, &early), "refused 3 44\n");
    add(
        "a transaction of 3 bytes",
        followed(&begun, &write::slip(3, &[0, 1, 1])),
        "refused 4 44\n",
    );
    add("no list at all", followed(&begun, &write::slip(3, &[0, 1, 1, 0])), "refused 4 44\n");
    let none = write::slip(3, &[0, 0, 0, 0]);
    add("no debit and no credit", followed(&begun, &none), "refused 5 44\n");
    let many = write::slip(3, &[0, 255, 255, 255]);
    add("255 of each, none there", followed(&begun, &many), "refused 4 44\n");
    let there = [&[0, 255, 255, 255][..], &[0; 6 * 765]].concat();
    add("255 of each, all there", followed(&begun, &write::slip(3, &there)), "refused 5 44\n");

    let sort_2 = Transaction { sort: 2, ..payment(&[(0, 1)], &[(1, 1)]) };
    let op = |operations: &[(u8, u8, u32)]| contract(&[(0, 1)], &[(1, 1)], operations);
    let paying_op = Transaction { sort: PAYMENT, ..op(&[(2, 0, 1)]) };
    let five = [(0, 1), (1, 1), (2, 1), (0, 1), (1, 1)];
    for (name, transaction) in [
        ("type 2", sort_2),
        ("an operation in a payment", paying_op),
        ("five debits", payment(&five, &[(0, 5)])),
        ("five credits", payment(&[(0, 5)], &five)),
        ("no debit", payment(&[], &[(0, 1)])),
        ("no credit", payment(&[(0, 1)], &[])),
        ("nine operations", op(&[(2, 0, 1); 9])),
        ("debit account not on the sheet", payment(&[(3, 1)], &[(0, 1)])),
        ("credit account not on the sheet", payment(&[(0, 1)], &[(65_535, 1)])),
        ("debit of 0", payment(&[(0, 0)], &[(1, 1)])),
        ("credit of 0", payment(&[(0, 1)], &[(1, 1), (2, 0)])),
        ("code 5", op(&[(5, 0, 1)])),
        ("code 255", op(&[(255, 0, 1)])),
        ("register not on the sheet", op(&[(2, 0, 1), (2, 1, 1)])),
        ("5 before 6", contract(&[(0, 1), (0, 1)], &[(1, 2)], &[(2, 1, 0)])),
        ("5 before 7", payment(&[(0, 1)], &[(1, 2), (3, 1)])),
    ] {
        add(name, with(&transaction), "refused 5 44\n");
    }
    for (name, transaction) in [
        ("an account twice in the debits", payment(&[(0, 1), (0, 1)], &[(1, 2)])),
        ("an account twice in the credits", payment(&[(0, 3)], &[(1, 1), (2, 1), (1, 1)])),
        ("6 before 7", payment(&[(0, 1), (0, 1)], &[(1, 9)])),
    ] {
        add(name, with(&transaction), "refused 6 44\n");
    }
    let most = u32::MAX;
    for (name, transaction) in [
        ("sums differ", payment(&[(0, 1)], &[(1, 2)])),
        ("sums equal modulo 2^32", payment(&[(0, most), (1, 2)], &[(2, 1)])),
    ] {
        add(name, with(&transaction), "refused 7 44\n");
    }

    // The second transaction: offset 72 after the first of the worked run.
    let first = with(&payment(&[(0, 4), (1, 5)], &[(2, 9)]));
    add("one transaction of two", first.clone(), "refused 1 72\n");
    let damaged = write::transaction(&payment(&[(0, 1)], &[(1, 2)]));
    add("the last transaction is turned away", followed(&first, &damaged), "refused 7 72\n");
    cases
}

/// Refusals 1 to 5 after the sheet: the `run` line stands, the tail does not.
pub fn among_the_blocks() -> Vec<Case> {
    let worked = worked_sheet();
    let sheet_only = sheet_bytes(&worked);
    let whole = run(&worked, &worked_blocks());
    let one_block = run(&worked, &worked_blocks()[..1]);
    let ok = "run 2 3 1 2\nok 1 1\nok 0 1\n";
    let after = |tail: &[u8]| followed(&whole, tail);
    let mut cases = Vec::new();
    let mut add = |name: &str, run: Vec<u8>, text: String| cases.push(case(name, run, &text));

    for bytes in 1..=3 {
        let name = format!("{bytes} bytes behind the last slip");
        add(&name, after(&vec![0; bytes]), format!("{ok}refused 1 146\n"));
    }
    for length in [0_u32, 1, 8_195, 65_536, u32::MAX] {
        let name = format!("L {length}");
        add(&name, after(&length.to_le_bytes()), format!("{ok}refused 2 146\n"));
    }
    for length in [2_u32, 8_194] {
        let name = format!("L {length} and no body");
        add(&name, after(&length.to_le_bytes()), format!("{ok}refused 1 146\n"));
    }
    let full = write::slip(9, &[0; 8_192]);
    add("unknown kind, L 8194", after(&full), format!("{ok}refused 3 146\n"));
    for kind in [0, 1, 2, 3, 5, 260, 1_024, 65_535] {
        let name = format!("kind {kind} among the blocks");
        add(&name, after(&write::slip(kind, &[])), format!("{ok}refused 3 146\n"));
    }
    // A block body of the worked sheet has 14 bytes and 2 for each citation.
    for (name, body) in [
        ("an empty block", vec![]),
        ("a block of 9 bytes", vec![0; 9]),
        ("a block without its cut", vec![0; 10]),
        ("a block with one cut entry", vec![0; 12]),
        ("a block with a byte too many", vec![0; 15]),
        ("count 0 and one number", vec![0; 16]),
        ("count 1 and no number", [&[0; 8][..], &[1, 0, 0, 0, 0, 0]].concat()),
        ("count 33 and 32 numbers", [&[0; 8][..], &[33], &[0; 69]].concat()),
        ("count 65535", [&[0; 8][..], &[255, 255], &[0; 68]].concat()),
    ] {
        add(name, after(&write::slip(4, &body)), format!("{ok}refused 4 146\n"));
    }
    let long_block = block(7, 9, 0, &[5, 5], &[9; 33]);
    let written = write::block(&long_block, 2);
    add("5 comes before 8", after(&written), format!("{ok}refused 5 146\n"));
    let middle = [&one_block[..], &written, &write::block(&worked_blocks()[1], 2)].concat();
    add("5 ends the reading", middle, "run 2 3 1 2\nok 1 1\nrefused 5 122\n".to_string());
    let blocks_none =
        "run 2 3 1 2\ntx 0 open\ntx 1 open\naccount 0 10 0\naccount 1 5 0\naccount 2 0 0\n\
                       register 0 0\nshare 0\n";
    add("a sheet and no block", sheet_only, blocks_none.to_string());
    cases.extend(lengths());
    cases
}

/// Runs of 65,536 and 65,537 bytes. 65,536 − 28 bytes of refused blocks: 798
/// of the longest (82 bytes) and one of 72 with 27 citations.
fn lengths() -> Vec<Case> {
    let nobody = |citations: usize| write::block(&block(1, 1, 1, &[0], &vec![0; citations]), 1);
    let mut full = sheet_bytes(&sheet(1, 0, &[0], &[]));
    full.extend(nobody(32).repeat(798));
    full.extend(nobody(27));
    debug_assert_eq!(full.len(), LONGEST_RUN);
    let refused = "refused 8 0\n".repeat(799);
    let text = format!("run 1 1 0 0\n{refused}account 0 0 0\nshare 1000\n");
    vec![
        case("65537 bytes", followed(&full, &[0]), "long\n"),
        case("65537 bytes of nothing", vec![0; LONGEST_RUN + 1], "long\n"),
        case("65536 bytes of nothing", vec![0; LONGEST_RUN], "refused 2 0\n"),
        case("65536 bytes", full, &text),
    ]
}
