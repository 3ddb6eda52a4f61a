//! The edges that the paper lists, and the worked run ended at every byte.

use super::{block, case, contract, payment, run, sheet, worked_blocks, worked_sheet};
use super::{Case, WORKED_TEXT};
use crate::engine::Block;

/// "Edges", in the order of the paper, one of them replaced by request 04.
pub fn edges() -> Vec<Case> {
    let worked = worked_sheet();
    let unseen = [block(1, 1, 1, &[0, 0], &[0]), block(0, 1, 2, &[0, 0], &[0, 1])];
    let none = |m| sheet(m, 0, &[0], &[]);
    let five = [payment(&[(0, 5)], &[(1, 5)])];
    let subtract = [contract(&[(0, 1)], &[(1, 1)], &[(4, 0, 1)])];
    let set = contract(&[(0, 1)], &[(1, 1)], &[(2, 0, u32::MAX)]);
    let add = contract(&[(0, 1)], &[(1, 1)], &[(3, 0, 1)]);
    let one = [block(0, 1, 1, &[0], &[0])];
    vec![
        case("the worked run", run(&worked, &worked_blocks()), WORKED_TEXT),
        case(
            "the worked run with cut 0 0",
            run(&worked, &unseen),
            "run 2 3 1 2\nok 1 1\nok 0 1\nlog 1 1\nlog 0 1\ntx 0 paid\ntx 1 returned\n\
             account 0 6 0\naccount 1 0 0\naccount 2 9 0\nregister 0 0\nshare 1000\n",
        ),
        case(
            "ranks 1, 3 and 2: bar (3, 1)",
            run(
                &none(2),
                &[
                    block(0, 1, 1, &[0, 0], &[]),
                    block(0, 2, 3, &[1, 0], &[]),
                    block(1, 1, 2, &[0, 0], &[]),
                ],
            ),
            "run 2 1 0 0\nok 0 1\nok 0 2\nok 1 1\nlog 0 1\nlog 1 1\nlog 0 2\naccount 0 0 0\n\
             share 1000\n",
        ),
        case(
            "ranks 1 and 2: bar (2, 0)",
            run(&none(2), &[block(0, 1, 1, &[0, 0], &[]), block(1, 1, 2, &[0, 0], &[])]),
            "run 2 1 0 0\nok 0 1\nok 1 1\nlog 0 1\naccount 0 0 0\nshare 1000\n",
        ),
        case(
            "one instance: all in the log",
            run(&none(1), &[block(0, 1, 4, &[0], &[]), block(0, 2, 9, &[1], &[])]),
            "run 1 1 0 0\nok 0 1\nok 0 2\nlog 0 1\nlog 0 2\naccount 0 0 0\nshare 1000\n",
        ),
        // Request 04 "replaces … the edge 'no block in one of two'".
        case(
            "no block in instance 1 of two: bar (1, 1)",
            run(&none(2), &[block(0, 1, 1, &[0, 0], &[])]),
            "run 2 1 0 0\nok 0 1\nlog 0 1\naccount 0 0 0\nshare 1000\n",
        ),
        case(
            "no block in instance 0 of two: bar (1, 0)",
            run(&none(2), &[block(1, 1, 1, &[0, 0], &[])]),
            "run 2 1 0 0\nok 1 1\naccount 0 0 0\nshare 1000\n",
        ),
        case(
            "free 5 pays a debit of 5",
            run(&sheet(1, 0, &[5, 0], &five), &one),
            "run 1 2 0 1\nok 0 1\nlog 0 1\ntx 0 paid\naccount 0 0 0\naccount 1 5 0\nshare 1000\n",
        ),
        case(
            "free 4 fails it",
            run(&sheet(1, 0, &[4, 0], &five), &one),
            "run 1 2 0 1\nok 0 1\nlog 0 1\ntx 0 returned\naccount 0 4 0\naccount 1 0 0\n\
             share 1000\n",
        ),
        case(
            "subtract 1 from 0",
            run(&sheet(1, 1, &[1, 0], &subtract), &one),
            "run 1 2 1 1\nok 0 1\nlog 0 1\ntx 0 returned\naccount 0 1 0\naccount 1 0 0\n\
             register 0 0\nshare 1000\n",
        ),
        case(
            "add 1 to 2^32 - 1",
            run(&sheet(1, 1, &[2, 0], &[set, add]), &[block(0, 1, 1, &[0], &[0, 1])]),
            "run 1 2 1 2\nok 0 1\nlog 0 1\ntx 0 paid\ntx 1 returned\naccount 0 1 0\n\
             account 1 1 0\n\
             register 0 4294967295\nshare 1000\n",
        ),
        block_129(),
        citations(32),
        citations(33),
        case("empty input", Vec::new(), "refused 1 0\n"),
    ]
}

/// "Block 128 accepted, 129 gives 17".
fn block_129() -> Case {
    let blocks: Vec<Block> = (1..=129).map(|n| block(0, n, n.into(), &[n - 1], &[])).collect();
    let lines = |word: &str| (1..=128).map(|n| format!("{word} 0 {n}\n")).collect::<String>();
    let text = format!(
        "run 1 1 0 0\n{}refused 17 0\n{}account 0 0 0\nshare 1000\n",
        lines("ok"),
        lines("log")
    );
    case("block 129", run(&sheet(1, 0, &[0], &[]), &blocks), &text)
}

/// "32 citations accepted, 33 give 5": payments of an account to itself.
fn citations(count: u16) -> Case {
    let all: Vec<u16> = (0..count).collect();
    let transactions = vec![payment(&[(0, 1)], &[(0, 1)]); count.into()];
    let sheet = sheet(1, 0, &[1], &transactions);
    // Head and starts take 14 bytes each, a transaction 22.
    let text = if count <= 32 {
        let paid: String = all.iter().map(|n| format!("tx {n} paid\n")).collect();
        format!("run 1 1 0 {count}\nok 0 1\nlog 0 1\n{paid}account 0 1 0\nshare 1000\n")
    } else {
        format!("run 1 1 0 {count}\nrefused 5 {}\n", 28 + 22 * count)
    };
    case(&format!("{count} citations"), run(&sheet, &[block(0, 1, 1, &[0], &all)]), &text)
}

/// The worked run, ended at every byte. Its slips begin at 0, 14, 44, 72,
/// 100 and 122, and it has 146 bytes.
pub fn truncations() -> Vec<Case> {
    let whole = run(&worked_sheet(), &worked_blocks());
    (0..whole.len()).map(|end| truncation(&whole, end)).collect()
}

fn truncation(whole: &[u8], end: usize) -> Case {
    let mut text = String::new();
    if end >= 100 {
        text.push_str("run 2 3 1 2\n");
    }
    if end >= 122 {
        text.push_str("ok 1 1\n");
    }
    text.push_str(match end {
        0..14 => "refused 1 0\n",
        14..44 => "refused 1 14\n",
        44..72 => "refused 1 44\n",
        72..100 => "refused 1 72\n",
        100 => {
            "tx 0 open\ntx 1 open\naccount 0 10 0\naccount 1 5 0\naccount 2 0 0\n\
             register 0 0\nshare 0\n"
        }
        101..122 => "refused 1 100\n",
        122 => {
            "tx 0 open\ntx 1 open\naccount 0 10 0\naccount 1 0 5\naccount 2 0 0\n\
             register 0 0\nshare 0\n"
        }
        _ => "refused 1 122\n",
    });
    case(&format!("the worked run, {end} bytes of it"), whole[..end].to_vec(), &text)
}
