//! A ledger: the worked run of document 01, and the two ways of offering a block.

#[allow(dead_code)]
mod frames;
#[allow(dead_code)]
mod values;

use frames::{balances, header, transaction, worked_run, worked_sheet};
use rugxeni::{frame, Frame, Ledger, Offer, Settlement, Sizes};
use values::{account, as_frame, readings, values, Readings};

#[test]
fn the_worked_run() {
    let run = worked_run();
    let (mut ledger, mut at) = Ledger::load(&run).expect("a sound sheet");
    assert_eq!(at, 100);
    let sizes = Sizes {
        instances: 2,
        accounts: 3,
        registers: 1,
        transactions: 2,
    };
    assert_eq!(ledger.sizes(), Some(sizes));
    assert_eq!(ledger.heights(), [0, 0]);
    let untouched = Readings {
        log: vec![],
        settlements: vec![Settlement::Open; 2],
        accounts: vec![account(10, 0), account(5, 0), account(0, 0)],
        registers: vec![0],
        share: 0,
    };
    assert_eq!(readings(&mut ledger), Ok(untouched));
    let mut heights = Vec::new();
    while let Ok(Some(Frame { kind: 4, end })) = frame(&run, at) {
        assert_eq!(ledger.offer_frame(&run, at), Offer::Accepted);
        heights.push(ledger.heights().to_vec());
        at = end;
    }
    assert_eq!(at, run.len());
    assert_eq!(heights, [[0, 1], [1, 1]]);
    let whole = Readings {
        log: vec![(1, 1), (0, 1)],
        settlements: vec![Settlement::Paid; 2],
        accounts: vec![account(6, 0), account(6, 0), account(3, 0)],
        registers: vec![7],
        share: 1000,
    };
    assert_eq!(readings(&mut ledger), Ok(whole));
}

/// The second block has not seen the first: transaction 1 is judged without what transaction 0 brings.
#[test]
fn the_worked_run_with_cut_0_0() {
    let (mut ledger, _) = Ledger::load(&worked_sheet()).expect("a sound sheet");
    let first = values(1, 1, 1, &[0, 0], &[0]);
    assert_eq!(ledger.offer_block(&first), Offer::Accepted);
    assert_eq!(ledger.settlements(), Ok(vec![Settlement::Open; 2]));
    let held = vec![account(10, 0), account(0, 5), account(0, 0)];
    assert_eq!(ledger.accounts(), Ok(held));
    let second = values(0, 1, 2, &[0, 0], &[0, 1]);
    assert_eq!(ledger.offer_block(&second), Offer::Accepted);
    let whole = Readings {
        log: vec![(1, 1), (0, 1)],
        settlements: vec![Settlement::Paid, Settlement::Returned],
        accounts: vec![account(6, 0), account(0, 0), account(9, 0)],
        registers: vec![0],
        share: 1000,
    };
    assert_eq!(readings(&mut ledger), Ok(whole));
}

/// Three instances, payments and contracts, refused offers between: each block as a frame to one ledger and as values to
/// another.
#[test]
fn frames_and_values_are_one_offer() {
    let sheet = [
        header([3, 6, 2, 4]),
        balances(&[9, 4, 3, 0, 2, 1]),
        transaction(0, &[(0, 5), (1, 4)], &[(3, 9)], &[]),
        transaction(
            1,
            &[(3, 9), (2, 1)],
            &[(4, 10)],
            &[(3, 0, 2), (1, 0, 2), (2, 1, 8)],
        ),
        transaction(0, &[(5, 2)], &[(0, 2)], &[]),
        transaction(1, &[(4, 2)], &[(5, 2)], &[(4, 1, 9)]),
    ]
    .concat();
    let offers = [
        values(1, 1, 2, &[0, 0, 0], &[0]),
        values(1, 1, 3, &[0, 1, 0], &[]),
        values(0, 1, 2, &[0, 1, 0], &[0, 1]),
        values(2, 1, 3, &[1, 1, 0], &[2, 1, 0]),
        values(2, 1, 3, &[1, 1, 0], &[2, 1]),
        values(3, 1, 3, &[1, 1, 0], &[]),
        values(1, 2, 4, &[1, 1, 1], &[3]),
        values(0, 2, 4, &[1, 2, 2], &[]),
        values(0, 2, 4, &[1, 2, 1], &[]),
        values(2, 2, 4, &[1, 1, 1], &[2]),
        values(2, 2, 9, &[2, 1, 1], &[]),
    ];
    let (mut by_frame, _) = Ledger::load(&sheet).expect("a sound sheet");
    let (mut by_value, _) = Ledger::load(&sheet).expect("a sound sheet");
    let mut accepted = 0;
    for block in &offers {
        let answer = by_frame.offer_frame(&as_frame(block, 3), 0);
        assert_eq!(by_value.offer_block(block), answer);
        assert_eq!(readings(&mut by_frame), readings(&mut by_value));
        accepted += usize::from(answer == Offer::Accepted);
    }
    assert_eq!(accepted, 6);
    let whole = Readings {
        log: vec![(0, 1), (1, 1), (2, 1), (0, 2), (1, 2)],
        settlements: vec![
            Settlement::Paid,
            Settlement::Paid,
            Settlement::Returned,
            Settlement::Returned,
        ],
        accounts: [4, 0, 2, 0, 12, 1].map(|free| account(free, 0)).to_vec(),
        registers: vec![2, 8],
        share: 1000,
    };
    assert_eq!(readings(&mut by_frame), Ok(whole));
}

/// The same instance logs in another order, with refused offers between.
#[test]
fn the_order_of_delivery_leaves_no_trace() {
    let sheet = [header([2, 2, 0, 0]), balances(&[1, 2])].concat();
    let blocks = [
        values(0, 1, 1, &[0, 0], &[]),
        values(0, 2, 3, &[1, 0], &[]),
        values(1, 1, 2, &[0, 0], &[]),
    ];
    let mut seen = Vec::new();
    for order in [[0, 1, 2], [0, 2, 1], [2, 0, 1]] {
        let (mut ledger, _) = Ledger::load(&sheet).expect("a sound sheet");
        for place in order {
            assert_eq!(ledger.offer_block(&blocks[place]), Offer::Accepted);
            // The same once more is not due any more.
            assert!(
                matches!(ledger.offer_block(&blocks[place]), Offer::Refused(r) if r.number == 9)
            );
        }
        seen.push(readings(&mut ledger));
    }
    assert_eq!(
        seen[0].as_ref().map(|r| r.log.clone()),
        Ok(vec![(0, 1), (1, 1), (0, 2)])
    );
    assert!(seen.iter().all(|readings| *readings == seen[0]));
}

#[test]
fn a_clone_is_a_ledger_of_its_own() {
    let run = worked_run();
    let (mut ledger, _) = Ledger::load(&run).expect("a sound sheet");
    let fresh = readings(&mut ledger);
    let mut copy = ledger.clone();
    assert_eq!(copy.offer_frame(&run, 100), Offer::Accepted);
    assert_eq!(readings(&mut ledger), fresh);
    assert_ne!(readings(&mut copy), fresh);
}

#[test]
fn buffers_of_the_largest_sheet() {
    let payment = transaction(0, &[(0, 1)], &[(1, 1)], &[]);
    let sheet = [
        header([16, 1024, 64, 1024]),
        balances(&[0; 1024]),
        payment.repeat(1024),
    ]
    .concat();
    let (ledger, at) = Ledger::load(&sheet).expect("a sound sheet");
    assert_eq!(at, sheet.len());
    assert_eq!(ledger.lent_bytes(), 394_240);
}
