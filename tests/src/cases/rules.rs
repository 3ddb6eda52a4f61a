//! The rules of the ledger, where they are easily mistaken.

use super::{block, case, contract, payment, run, sheet, Case};

/// "Readings that seem right", and other places where a rule is easily
/// mistaken.
pub fn rules() -> Vec<Case> {
    let both = [(0, 1), (1, 5)];
    let contract_fails = sheet(2, 0, &[0, 5], &[contract(&both, &[(0, 6)], &[])]);
    let payment_fails = sheet(2, 0, &[0, 5], &[payment(&both, &[(0, 6)])]);
    let payment_open = sheet(2, 0, &[0, 5], &[payment(&both, &[(1, 6)])]);
    let contract_good = sheet(2, 0, &[1, 5], &[contract(&both, &[(0, 6)], &[])]);
    let self_payment = |amount| sheet(1, 0, &[5], &[payment(&[(0, amount)], &[(0, amount)])]);
    let two = [block(0, 1, 1, &[0, 0], &[0]), block(1, 1, 2, &[0, 0], &[0])];
    let three = [two.as_slice(), &[block(0, 2, 2, &[1, 0], &[])]].concat();
    vec![
        case(
            "a contract with a failed part waits for its place in the log",
            run(&contract_fails, &two),
            "run 2 2 0 1\nok 0 1\nok 1 1\nlog 0 1\ntx 0 open\naccount 0 0 0\naccount 1 0 5\n\
             share 0\n",
        ),
        case(
            "and is returned when it runs",
            run(&contract_fails, &three),
            "run 2 2 0 1\nok 0 1\nok 1 1\nok 0 2\nlog 0 1\nlog 0 2\nlog 1 1\ntx 0 returned\n\
             account 0 0 0\naccount 1 5 0\nshare 1000\n",
        ),
        case(
            "a payment with a failed part is returned at once",
            run(&payment_fails, &two[..1]),
            "run 2 2 0 1\nok 0 1\nlog 0 1\ntx 0 returned\naccount 0 0 0\naccount 1 5 0\n\
             share 1000\n",
        ),
        case(
            "a payment with a part not yet cited is open",
            run(&payment_open, &[block(1, 1, 1, &[0, 0], &[0])]),
            "run 2 2 0 1\nok 1 1\ntx 0 open\naccount 0 0 0\naccount 1 0 5\nshare 0\n",
        ),
        case(
            "a contract whose parts are good is not credited before it runs",
            run(&contract_good, &two),
            "run 2 2 0 1\nok 0 1\nok 1 1\nlog 0 1\ntx 0 open\naccount 0 0 1\naccount 1 0 5\n\
             share 0\n",
        ),
        case(
            "and is when it does",
            run(&contract_good, &three),
            "run 2 2 0 1\nok 0 1\nok 1 1\nok 0 2\nlog 0 1\nlog 0 2\nlog 1 1\ntx 0 paid\n\
             account 0 6 0\naccount 1 0 0\nshare 1000\n",
        ),
        case(
            "an account pays itself what it has",
            run(&self_payment(5), &[block(0, 1, 1, &[0], &[0])]),
            "run 1 1 0 1\nok 0 1\nlog 0 1\ntx 0 paid\naccount 0 5 0\nshare 1000\n",
        ),
        case(
            "but not one more",
            run(&self_payment(6), &[block(0, 1, 1, &[0], &[0])]),
            "run 1 1 0 1\nok 0 1\nlog 0 1\ntx 0 returned\naccount 0 5 0\nshare 1000\n",
        ),
        all_or_nothing(),
        contract_credit_in_view(),
        own_block_contract(),
        order_of_contracts(),
        exact_cut(),
        open_view(),
        contract_in_a_view(),
        contract_outside_a_view(),
        citation_order(),
        large_amounts(),
        highest_rank(),
        share_is_the_nearest(),
    ]
}

/// A last operation that does not pass undoes the earlier ones; a sum above
/// 2^32 − 1 does not pass even if a later difference would bring it back.
fn all_or_nothing() -> Case {
    let with = |operations: &[(u8, u8, u32)]| contract(&[(0, 1)], &[(0, 1)], operations);
    let transactions = [
        with(&[(2, 0, 5), (3, 1, 2), (0, 0, 6)]),
        with(&[(2, 0, u32::MAX), (3, 0, 1), (4, 0, 1)]),
        with(&[(2, 0, 5), (0, 0, 5), (1, 0, 5), (4, 0, 5), (0, 0, 0), (3, 0, 9), (1, 0, 9)]),
        with(&[(1, 0, 10)]),
    ];
    case(
        "operations pass all together or change nothing",
        run(&sheet(1, 2, &[4], &transactions), &[block(0, 1, 1, &[0], &[0, 1, 2, 3])]),
        "run 1 1 2 4\nok 0 1\nlog 0 1\ntx 0 returned\ntx 1 returned\ntx 2 paid\ntx 3 returned\n\
         account 0 4 0\nregister 0 9\nregister 1 0\nshare 1000\n",
    )
}

/// One instance. Contract 0 moves 3 from account 0 to 1; payment 1 spends
/// them. Inside block 1 the contract has not run; in block 2's view it has.
fn contract_credit_in_view() -> Case {
    let transactions = [
        contract(&[(0, 3)], &[(1, 3)], &[]),
        payment(&[(1, 3)], &[(2, 3)]),
        payment(&[(1, 2)], &[(2, 2)]),
    ];
    case(
        "a contract's credit can be spent after its block, not in it",
        run(
            &sheet(1, 0, &[3, 0, 0], &transactions),
            &[block(0, 1, 1, &[0], &[0, 1]), block(0, 2, 2, &[1], &[2])],
        ),
        "run 1 3 0 3\nok 0 1\nok 0 2\nlog 0 1\nlog 0 2\ntx 0 paid\ntx 1 returned\ntx 2 paid\n\
         account 0 0 0\naccount 1 1 0\naccount 2 2 0\nshare 1000\n",
    )
}

/// A payment completed earlier in the same block can be spent there; what a
/// contract cited earlier there has reserved is reserved.
fn own_block_contract() -> Case {
    let transactions = [
        payment(&[(0, 2)], &[(1, 2)]),
        contract(&[(1, 1)], &[(0, 1)], &[]),
        payment(&[(1, 2)], &[(0, 2)]),
        payment(&[(1, 1)], &[(0, 1)]),
    ];
    case(
        "earlier citations of the own block count",
        run(&sheet(1, 0, &[2, 0], &transactions), &[block(0, 1, 1, &[0], &[0, 1, 2, 3])]),
        "run 1 2 0 4\nok 0 1\nlog 0 1\ntx 0 paid\ntx 1 paid\ntx 2 returned\ntx 3 paid\n\
         account 0 2 0\naccount 1 0 0\nshare 1000\n",
    )
}

/// Contracts run in log order, not in the order in which the blocks came. The
/// last blocks have rank 3, so the bar is (4, 0).
fn order_of_contracts() -> Case {
    let transactions = [
        contract(&[(0, 1)], &[(0, 1)], &[(2, 0, 1)]),
        contract(&[(1, 1)], &[(1, 1)], &[(0, 0, 1), (2, 0, 2)]),
    ];
    let blocks = [
        block(1, 1, 2, &[0, 0], &[1]),
        block(1, 2, 3, &[0, 1], &[]),
        block(0, 1, 1, &[0, 0], &[0]),
        block(0, 2, 3, &[1, 0], &[]),
    ];
    case(
        "contracts run in log order",
        run(&sheet(2, 1, &[1, 1], &transactions), &blocks),
        "run 2 2 1 2\nok 1 1\nok 1 2\nok 0 1\nok 0 2\nlog 0 1\nlog 1 1\nlog 0 2\nlog 1 2\n\
         tx 0 paid\ntx 1 paid\naccount 0 1 0\naccount 1 1 0\nregister 0 2\nshare 1000\n",
    )
}

/// Account 0 gets 1 from each of two blocks of instance 1 and needs both.
fn exact_cut() -> Case {
    let transactions = [
        payment(&[(1, 1)], &[(0, 1)]),
        payment(&[(1, 1)], &[(0, 1)]),
        payment(&[(0, 2)], &[(1, 2)]),
        payment(&[(0, 2)], &[(1, 2)]),
    ];
    let blocks = [
        block(1, 1, 1, &[0, 0], &[0]),
        block(1, 2, 2, &[0, 1], &[1]),
        block(0, 1, 3, &[0, 1], &[2]),
        block(0, 2, 4, &[1, 2], &[3]),
    ];
    case(
        "a view ends with the cut, not before and not behind",
        run(&sheet(2, 0, &[0, 2], &transactions), &blocks),
        "run 2 2 0 4\nok 1 1\nok 1 2\nok 0 1\nok 0 2\nlog 1 1\nlog 1 2\nlog 0 1\ntx 0 paid\n\
         tx 1 paid\n\
         tx 2 returned\ntx 3 paid\naccount 0 0 0\naccount 1 2 0\nshare 1000\n",
    )
}

/// Instance 2 sees the block of instance 1, which rests on one of instance 0,
/// but not that one. Its outcome stands all the same, although the free
/// amount of account 1 is 5 below zero in that view.
fn open_view() -> Case {
    let transactions = [
        payment(&[(0, 5)], &[(1, 5)]),
        payment(&[(1, 5)], &[(2, 5)]),
        payment(&[(2, 5)], &[(0, 5)]),
    ];
    let blocks = [
        block(0, 1, 1, &[0, 0, 0], &[0]),
        block(1, 1, 1, &[1, 0, 0], &[1]),
        block(2, 1, 1, &[0, 1, 0], &[2]),
    ];
    case(
        "an outcome stands in a view without what it rests on",
        run(&sheet(3, 0, &[5, 0, 0], &transactions), &blocks),
        "run 3 3 0 3\nok 0 1\nok 1 1\nok 2 1\nlog 0 1\nlog 1 1\nlog 2 1\ntx 0 paid\n\
         tx 1 paid\ntx 2 paid\n\
         account 0 5 0\naccount 1 0 0\naccount 2 0 0\nshare 1000\n",
    )
}

/// Contract 0 has a part in each of two instances. In the view of block 2 of
/// instance 0 the bar is (2, 0) and the contract is open; in that of block 3
/// the bar is (3, 1) and it is paid.
fn contract_in_a_view() -> Case {
    let transactions = [
        contract(&[(0, 1), (1, 1)], &[(0, 2)], &[]),
        payment(&[(0, 2)], &[(1, 2)]),
        payment(&[(0, 2)], &[(1, 2)]),
    ];
    let blocks = [
        block(0, 1, 1, &[0, 0], &[0]),
        block(1, 1, 2, &[0, 0], &[0]),
        block(0, 2, 3, &[1, 1], &[1]),
        block(0, 3, 4, &[2, 1], &[2]),
    ];
    case(
        "a contract runs in the log of a view",
        run(&sheet(2, 0, &[1, 1], &transactions), &blocks),
        "run 2 2 0 3\nok 0 1\nok 1 1\nok 0 2\nok 0 3\nlog 0 1\nlog 1 1\nlog 0 2\ntx 0 paid\n\
         tx 1 returned\n\
         tx 2 paid\naccount 0 0 0\naccount 1 2 0\nshare 1000\n",
    )
}

/// A contract that has long run elsewhere is not paid in a view without its
/// block.
fn contract_outside_a_view() -> Case {
    let back = payment(&[(1, 1)], &[(0, 1)]);
    let transactions = [contract(&[(0, 1)], &[(1, 1)], &[]), back.clone(), back];
    let blocks = [
        block(0, 1, 1, &[0, 0], &[0]),
        block(1, 1, 1, &[0, 0], &[]),
        block(1, 2, 5, &[0, 1], &[1]),
        block(1, 3, 6, &[1, 2], &[2]),
    ];
    case(
        "a contract outside a view",
        run(&sheet(2, 0, &[1, 0], &transactions), &blocks),
        "run 2 2 0 3\nok 0 1\nok 1 1\nok 1 2\nok 1 3\nlog 0 1\nlog 1 1\ntx 0 paid\n\
         tx 1 returned\n\
         tx 2 paid\naccount 0 1 0\naccount 1 0 0\nshare 1000\n",
    )
}

/// Within a block contracts run in citation order, not in number order.
fn citation_order() -> Case {
    let with = |operations: &[(u8, u8, u32)]| contract(&[(0, 1)], &[(0, 1)], operations);
    let transactions = [with(&[(0, 0, 5), (2, 0, 7)]), with(&[(0, 0, 0), (2, 0, 5)])];
    case(
        "contracts of a block run in citation order",
        run(&sheet(1, 1, &[2], &transactions), &[block(0, 1, 1, &[0], &[1, 0])]),
        "run 1 1 1 2\nok 0 1\nlog 0 1\ntx 0 paid\ntx 1 paid\naccount 0 2 0\nregister 0 7\n\
         share 1000\n",
    )
}

/// 2^32 pays 2^32 − 1 and then 1, and no more; the other account then holds
/// more than a debit can take.
fn large_amounts() -> Case {
    let one = payment(&[(0, 1)], &[(1, 1)]);
    let transactions = [payment(&[(0, u32::MAX)], &[(1, u32::MAX)]), one.clone(), one];
    case(
        "amounts above 2^32",
        run(&sheet(1, 0, &[1 << 32, 1 << 40], &transactions), &[block(0, 1, 1, &[0], &[0, 1, 2])]),
        "run 1 2 0 3\nok 0 1\nlog 0 1\ntx 0 paid\ntx 1 paid\ntx 2 returned\naccount 0 0 0\n\
         account 1 1103806595072 0\nshare 1000\n",
    )
}

/// The bar of a block of the highest rank is (2^32, 0): both are below it.
fn highest_rank() -> Case {
    let blocks = [block(0, 1, u32::MAX, &[0, 0], &[]), block(1, 1, u32::MAX, &[0, 0], &[])];
    case(
        "the highest rank",
        run(&sheet(2, 0, &[1 << 40], &[]), &blocks),
        "run 2 1 0 0\nok 0 1\nok 1 1\nlog 0 1\nlog 1 1\naccount 0 1099511627776 0\nshare 1000\n",
    )
}

/// 2 of 3 settled, 666.67: 667. (Before request 05 the share was rounded down.)
fn share_is_the_nearest() -> Case {
    let transactions = vec![payment(&[(0, 1)], &[(0, 1)]); 3];
    case(
        "share is rounded to the nearest",
        run(&sheet(1, 0, &[1], &transactions), &[block(0, 1, 1, &[0], &[2, 0])]),
        "run 1 1 0 3\nok 0 1\nlog 0 1\ntx 0 paid\ntx 1 open\ntx 2 paid\naccount 0 1 0\n\
         share 667\n",
    )
}
