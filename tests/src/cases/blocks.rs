//! Refusals 8 to 15 and 17, with their places.

use super::{block, case, payment, run, sheet, worked_blocks, worked_sheet};
use super::{Case, WORKED_TEXT};
use crate::engine::Block;

/// Refusals 8 to 15 and 17 with their places. Every offer follows the worked
/// run, whose reading stays as it is.
pub fn blocks() -> Vec<Case> {
    let offers: [(&str, Block, &str); 28] = [
        ("8: instance m", block(2, 1, 9, &[1, 1], &[]), "8 0"),
        ("8: instance 65535", block(65_535, 0, 0, &[9, 9], &[9]), "8 0"),
        ("9: the same block again", worked_blocks()[1].clone(), "9 2"),
        ("9: number 0", block(0, 0, 9, &[1, 1], &[]), "9 2"),
        ("9: one too far", block(0, 3, 9, &[2, 1], &[]), "9 2"),
        ("9: number 65535", block(1, 65_535, 0, &[1, 1], &[]), "9 2"),
        ("9 before 10", block(0, 3, 0, &[9, 9], &[9]), "9 2"),
        ("10: rank 0", block(0, 2, 0, &[1, 1], &[]), "10 2"),
        ("10: the last rank again", block(0, 2, 2, &[1, 1], &[]), "10 2"),
        ("10: below the last rank", block(0, 2, 1, &[1, 1], &[]), "10 2"),
        ("10 before 11", block(1, 2, 1, &[9, 9], &[9]), "10 1"),
        ("11: own entry above", block(0, 2, 9, &[2, 1], &[]), "11 0"),
        ("11: own entry below", block(0, 2, 9, &[0, 1], &[]), "11 0"),
        ("11: an entry falls", block(0, 2, 9, &[1, 0], &[]), "11 1"),
        ("11: the first entry counts", block(0, 2, 9, &[0, 0], &[]), "11 0"),
        ("11: own entry second", block(1, 2, 9, &[0, 0], &[]), "11 1"),
        ("11 before 12", block(1, 2, 9, &[9, 0], &[]), "11 1"),
        ("12: an entry too high", block(0, 2, 9, &[1, 2], &[]), "12 1"),
        ("12: entry 0 too high", block(1, 2, 9, &[65_535, 1], &[]), "12 0"),
        ("12 before 13", block(0, 2, 9, &[1, 2], &[9]), "12 1"),
        ("13: transaction t", block(0, 2, 9, &[1, 1], &[2]), "13 0"),
        ("13: transaction 65535", block(0, 2, 9, &[1, 1], &[65_535, 0]), "13 0"),
        ("14: a credit is no part", block(1, 2, 9, &[1, 1], &[1]), "14 0"),
        ("14 at 0 before 13 at 1", block(1, 2, 9, &[1, 1], &[1, 2]), "14 0"),
        ("15: cited before", block(1, 2, 9, &[1, 1], &[0]), "15 0"),
        ("15 at 0 before 13 at 1", block(0, 2, 9, &[1, 1], &[1, 9]), "15 0"),
        ("15: cited before, by the other too", block(0, 2, 9, &[1, 1], &[0, 1]), "15 0"),
        ("several at once", block(0, 2, 0, &[9, 9], &[9, 9]), "10 2"),
    ];
    let mut cases: Vec<Case> = offers
        .into_iter()
        .map(|(name, offer, refusal)| {
            let blocks = [worked_blocks(), vec![offer]].concat();
            let (start, tail) = WORKED_TEXT.split_at("run 2 3 1 2\nok 1 1\nok 0 1\n".len());
            case(
                name,
                run(&worked_sheet(), &blocks),
                &format!(
                    "{start}refused {refusal}\n\
            {tail}"
                ),
            )
        })
        .collect();
    cases.push(first_block_refusals());
    cases.push(first_entry());
    cases.push(twice_in_one_block());
    cases.push(full_instance());
    cases
}

/// What a first block meets: rank 0 with last rank 0, an own entry that is
/// not 0, an entry above what is accepted; a first block has none before it.
fn first_block_refusals() -> Case {
    let blocks = [
        block(0, 2, 1, &[0, 0], &[]),
        block(0, 1, 0, &[0, 0], &[]),
        block(1, 1, 1, &[0, 1], &[]),
        block(0, 1, 1, &[0, 1], &[0, 0]),
        block(1, 1, 1, &[1, 0], &[]),
        block(1, 1, 1, &[0, 0], &[0]),
        block(0, 1, 5, &[0, 1], &[]),
    ];
    case(
        "first blocks turned away leave nothing",
        run(&sheet(2, 0, &[1, 1], &[payment(&[(1, 1)], &[(0, 1)])]), &blocks),
        "run 2 2 0 1\nrefused 9 1\nrefused 10 0\nrefused 11 1\nrefused 12 1\nrefused 12 0\n\
         ok 1 1\nok 0 1\n\
         log 1 1\ntx 0 paid\naccount 0 2 0\naccount 1 0 0\nshare 1000\n",
    )
}

/// Of two entries with 11 the first counts, whichever clause it breaks.
fn first_entry() -> Case {
    let blocks = [
        block(0, 1, 1, &[0, 0], &[]),
        block(1, 1, 1, &[1, 0], &[]),
        block(1, 2, 2, &[0, 0], &[]),
        block(1, 2, 2, &[0, 2], &[]),
        block(1, 2, 2, &[1, 2], &[]),
        // An entry is held against the block before, not against the first.
        block(0, 2, 2, &[1, 1], &[]),
        block(0, 3, 3, &[2, 0], &[]),
    ];
    case(
        "11: an entry that falls comes before the own entry",
        run(&sheet(2, 0, &[0], &[]), &blocks),
        "run 2 1 0 0\nok 0 1\nok 1 1\nrefused 11 0\nrefused 11 0\nrefused 11 1\nok 0 2\n\
         refused 11 1\n\
         log 0 1\nlog 1 1\nlog 0 2\naccount 0 0 0\nshare 1000\n",
    )
}

/// Earlier places of the own block count for 15; those of a block that was
/// turned away do not.
fn twice_in_one_block() -> Case {
    let transactions = vec![payment(&[(0, 1)], &[(0, 1)]); 3];
    let blocks = [
        block(0, 1, 1, &[0], &[2, 1, 2]),
        block(0, 1, 1, &[0], &[0, 1, 3]),
        block(0, 1, 1, &[0], &[2, 1]),
        block(0, 2, 2, &[1], &[0, 1, 3]),
    ];
    case(
        "15 within a block",
        run(&sheet(1, 0, &[1], &transactions), &blocks),
        "run 1 1 0 3\nrefused 15 2\nrefused 13 2\nok 0 1\nrefused 15 1\nlog 0 1\ntx 0 open\n\
         tx 1 paid\n\
         tx 2 paid\naccount 0 1 0\nshare 667\n",
    )
}

/// A full instance answers 17 to every number; 8 comes first.
fn full_instance() -> Case {
    let mut blocks: Vec<Block> =
        (1..=128).map(|n| block(1, n, n.into(), &[0, n - 1], &[])).collect();
    for number in [129, 128, 130, 0, 65_535] {
        blocks.push(block(1, number, 0, &[9, 9], &[9]));
    }
    blocks.push(block(2, 129, 200, &[0, 128], &[]));
    blocks.push(block(0, 1, 1, &[0, 128], &[]));
    blocks.push(block(0, 2, 2, &[1, 129], &[]));
    let ok: String = (1..=128).map(|n| format!("ok 1 {n}\n")).collect();
    // Last blocks: rank 1 in instance 0, rank 128 in instance 1. Bar (2, 0).
    let text = format!(
        "run 2 1 0 0\n{ok}{}refused 8 0\nok 0 1\nrefused 12 1\nlog 0 1\nlog 1 1\n\
         account 0 0 0\nshare 1000\n",
        "refused 17 0\n".repeat(5)
    );
    case("a full instance", run(&sheet(2, 0, &[0], &[]), &blocks), &text)
}
