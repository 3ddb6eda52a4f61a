//! The slip writer, row by row: what it answers is worked out by hand from the
//! paper, "The writer of a slip knows the sheet so far; it gives 3 (kind not
//! due), 4 (a list of another length than its count), 5 (also for an unused cut
//! entry that is not 0), 6 or 7, in that order with place 0, and only then 16."

use crosscheck::cases::{contract, payment};
use crosscheck::engine::write::checked::{self, Lists, Written};
use crosscheck::engine::{Block, Draft, Head, Refusal, Sheet};

/// The sizes of the worked run.
const HEAD: Head = Head { m: 2, a: 3, g: 1, t: 2 };
const GREATEST: Head = Head { m: 16, a: 1_024, g: 64, t: 1_024 };

fn headed() -> Draft {
    Draft::Headed(HEAD)
}

/// A sheet of given sizes with so many transactions.
fn begun(head: Head, transactions: usize) -> Draft {
    let transaction = payment(&[(0, 1)], &[(0, 1)]);
    let starts = vec![0; head.a.into()];
    Draft::Begun(Sheet { head, starts, transactions: vec![transaction; transactions] })
}

fn refused(number: u8) -> Written {
    Err(Refusal { number, place: 0 })
}

/// A contract that is sound on the worked run's sheet, and touches no limit.
fn sound() -> Lists {
    Lists::of(&contract(&[(0, 4), (1, 5)], &[(2, 9)], &[(2, 0, 7)]))
}

/// The number that the lists get on the worked run's sheet, 0 for none.
fn number(lists: &Lists) -> u8 {
    checked::transaction(&begun(HEAD, 1), lists).map_or_else(|refusal| refusal.number, |_| 0)
}

/// The same for the sound lists with a change.
fn changed(change: impl Fn(&mut Lists)) -> u8 {
    let mut lists = sound();
    change(&mut lists);
    number(&lists)
}

fn block(cut: &[u16], citations: usize) -> Block {
    let mut sixteen = [0; 16];
    sixteen[..cut.len()].copy_from_slice(cut);
    Block { instance: 1, number: 1, rank: 1, cut: sixteen, citations: vec![0; citations] }
}

/// The bytes of `docs/FORMAT.md`, which is the paper's worked run.
#[test]
fn the_worked_run_is_written_so() {
    let head = [10, 0, 0, 0, 1, 0, 2, 0, 3, 0, 1, 0, 2, 0];
    assert_eq!(checked::head(&Draft::Empty, &HEAD), Ok(head.to_vec()));
    let starts = [[26, 0, 0, 0, 2, 0, 10, 0].as_slice(), &[0; 6], &[5, 0], &[0; 14]].concat();
    assert_eq!(checked::starts(&headed(), &[10, 5, 0]), Ok(starts));
    let first = Lists::of(&payment(&[(0, 4), (1, 5)], &[(2, 9)]));
    let slip =
        [24, 0, 0, 0, 3, 0, 0, 2, 1, 0, 0, 0, 4, 0, 0, 0, 1, 0, 5, 0, 0, 0, 2, 0, 9, 0, 0, 0];
    assert_eq!(checked::transaction(&begun(HEAD, 0), &first), Ok(slip.to_vec()));
    let second = Lists::of(&contract(&[(2, 6)], &[(1, 6)], &[(2, 0, 7)]));
    let slip =
        [24, 0, 0, 0, 3, 0, 1, 1, 1, 1, 2, 0, 6, 0, 0, 0, 1, 0, 6, 0, 0, 0, 2, 0, 7, 0, 0, 0];
    assert_eq!(checked::transaction(&begun(HEAD, 1), &second), Ok(slip.to_vec()));
    let slip = [18, 0, 0, 0, 4, 0, 1, 0, 1, 0, 1, 0, 0, 0, 1, 0, 0, 0, 0, 0, 0, 0];
    assert_eq!(checked::block(&begun(HEAD, 2), &block(&[], 1), 1), Ok(slip.to_vec()));
}

/// At every stage all kinds but one give 3, whatever else is wrong with them.
#[test]
fn what_is_not_due_gives_3() {
    let bad_head = Head { m: 0, a: 0, g: 65, t: 1_025 };
    let bad_lists = Lists { sort: 9, debit_count: 7, ..Lists::default() };
    let bad_block = block(&[0, 0, 1], 33);
    let none = Head { t: 0, ..HEAD };
    let stages: [(Draft, usize); 7] = [
        (Draft::Empty, 0),
        (headed(), 1),
        (begun(HEAD, 0), 2),
        (begun(HEAD, 1), 2),
        (begun(HEAD, 2), 3),
        (begun(none, 0), 3),
        (Draft::Headed(none), 1),
    ];
    for (draft, due) in stages {
        let sound = [
            checked::head(&draft, &HEAD),
            checked::starts(&draft, &[0, 0, 0]),
            checked::transaction(&draft, &sound()),
            checked::block(&draft, &block(&[], 0), 0),
        ];
        let bad = [
            checked::head(&draft, &bad_head),
            checked::starts(&draft, &[u64::MAX]),
            checked::transaction(&draft, &bad_lists),
            checked::block(&draft, &bad_block, 34),
        ];
        for kind in 0..4 {
            let (sound, bad) = (&sound[kind], &bad[kind]);
            assert_eq!(sound.is_ok(), kind == due, "kind {} on {draft:?}", kind + 1);
            assert_eq!(*bad == refused(3), kind != due, "bad kind {} on {draft:?}", kind + 1);
            assert!(kind == due || *sound == refused(3), "kind {} on {draft:?}", kind + 1);
        }
    }
}

#[test]
fn sizes_of_a_head() {
    let number = |m, a, g, t| {
        let written = checked::head(&Draft::Empty, &Head { m, a, g, t });
        written.map_or_else(|refusal| refusal.number, |_| 0)
    };
    assert_eq!([number(1, 1, 0, 0), number(16, 1_024, 64, 1_024)], [0, 0]);
    assert_eq!([number(0, 1, 0, 0), number(17, 1, 0, 0), number(257, 1, 0, 0)], [5, 5, 5]);
    assert_eq!([number(1, 0, 0, 0), number(1, 1_025, 0, 0)], [5, 5]);
    assert_eq!([number(1, 1, 65, 0), number(1, 1, 0, 1_025), number(1, 1, 0, 65_535)], [5, 5, 5]);
}

#[test]
fn lengths_and_amounts_of_starts() {
    let starts = |list: &[u64]| checked::starts(&headed(), list);
    let most = 1 << 40;
    assert!(starts(&[0, most, most]).is_ok());
    assert_eq!(starts(&[0, most, most + 1]), refused(5));
    assert_eq!(starts(&[u64::MAX, 0, 0]), refused(5));
    // 4 comes before 5.
    for list in [&[][..], &[0, 0], &[most + 1, 0], &[0, 0, 0, 0], &[0, 0, 0, most + 1]] {
        assert_eq!(starts(list), refused(4), "{list:?}");
    }
    let longest = checked::starts(&Draft::Headed(GREATEST), &[most; 1_024]);
    assert_eq!(longest.map(|slip| slip.len()), Ok(8_198));
}

/// 4: each of the seven lists one shorter and one longer, each count one off.
#[test]
fn lists_of_another_length_than_their_counts() {
    assert_eq!(number(&sound()), 0);
    let changes: [fn(&mut Lists); 21] = [
        |lists| lists.payers.truncate(1),
        |lists| lists.debits.truncate(1),
        |lists| lists.payees.clear(),
        |lists| lists.credits.clear(),
        |lists| lists.codes.clear(),
        |lists| lists.registers.clear(),
        |lists| lists.values.clear(),
        |lists| lists.payers.push(2),
        |lists| lists.debits.push(1),
        |lists| lists.payees.push(0),
        |lists| lists.credits.push(1),
        |lists| lists.codes.push(2),
        |lists| lists.registers.push(0),
        |lists| lists.values.push(1),
        |lists| lists.debit_count += 1,
        |lists| lists.debit_count -= 1,
        |lists| lists.credit_count += 1,
        |lists| lists.credit_count -= 1,
        |lists| lists.operation_count += 1,
        |lists| lists.operation_count -= 1,
        // 256 more are not none more.
        |lists| lists.values.resize(257, 0),
    ];
    for (place, change) in changes.iter().enumerate() {
        assert_eq!(changed(change), 4, "change {place}");
        // 5, 6 and 7 come later.
        let more = |lists: &mut Lists| {
            change(lists);
            lists.sort = 2;
            lists.payers.fill(9);
            lists.debits.fill(1);
        };
        assert_eq!(changed(more), 4, "change {place} with others");
    }
}

/// 5: types, counts with lists of that length, accounts, amounts, operations.
#[test]
fn fields_of_a_transaction() {
    let five = [(0, 1), (1, 1), (2, 1), (3, 1), (4, 1)];
    let on = |lists: Lists| {
        let written = checked::transaction(&begun(GREATEST, 0), &lists);
        written.map_or_else(|refusal| refusal.number, |slip| slip.len() as u8)
    };
    let operations = [(4, 63, u32::MAX); 9];
    assert_eq!(on(Lists::of(&contract(&five[..4], &five[..4], &operations[..8]))), 106);
    assert_eq!(on(Lists::of(&contract(&[(1_023, 1)], &[(1_023, 1)], &[]))), 22);
    assert_eq!(on(Lists::of(&contract(&five[..4], &five[..4], &operations))), 5);
    assert_eq!(on(Lists::of(&payment(&five, &five[..4]))), 5);
    assert_eq!(on(Lists::of(&payment(&five[..4], &five))), 5);
    assert_eq!(on(Lists::of(&payment(&[], &[]))), 5);
    assert_eq!(on(Lists::of(&payment(&[], &five[..1]))), 5);
    assert_eq!(on(Lists::of(&payment(&five[..1], &[]))), 5);
    let changes: [fn(&mut Lists); 10] = [
        |lists| lists.sort = 2,
        |lists| lists.sort = 255,
        // An operation in a payment.
        |lists| lists.sort = 0,
        |lists| lists.payers[1] = 3,
        |lists| lists.payees[0] = 3,
        |lists| lists.debits[1] = 0,
        |lists| lists.credits[0] = 0,
        |lists| lists.codes[0] = 5,
        |lists| lists.registers[0] = 1,
        // 6 and 7 come later.
        |lists| (lists.payers, lists.debits) = (vec![1, 1], vec![0, 1]),
    ];
    for (place, change) in changes.iter().enumerate() {
        assert_eq!(changed(change), 5, "change {place}");
    }
    assert_eq!(changed(|lists| lists.codes[0] = 4), 0);
}

/// 6, and 7 only after it; sums are not taken modulo anything.
#[test]
fn accounts_named_twice_and_sums() {
    let most = u32::MAX;
    let on = |debits: &[(u16, u32)], credits: &[(u16, u32)]| {
        number(&Lists::of(&payment(debits, credits)))
    };
    assert_eq!(on(&[(0, 1), (0, 1)], &[(1, 2)]), 6);
    assert_eq!(on(&[(0, 2)], &[(1, 1), (1, 1)]), 6);
    assert_eq!(on(&[(0, 1), (1, 1), (0, 1)], &[(1, 3)]), 6);
    assert_eq!(on(&[(0, 1), (0, 1)], &[(1, 9)]), 6);
    // An account among the debits and among the credits.
    assert_eq!(on(&[(0, 2)], &[(0, 1), (1, 1)]), 0);
    assert_eq!(on(&[(0, 2)], &[(1, 1)]), 7);
    assert_eq!(on(&[(0, 1)], &[(1, 2)]), 7);
    assert_eq!(on(&[(0, most), (1, most), (2, most)], &[(0, most), (1, most), (2, most)]), 0);
    // 5 and 2^32 + 5.
    assert_eq!(on(&[(0, 5)], &[(1, most), (2, 6)]), 7);
}

#[test]
fn counts_and_cuts_of_a_block() {
    let on = |cut: &[u16], citations, count| {
        let written = checked::block(&begun(HEAD, 2), &block(cut, citations), count);
        written.map_or_else(|refusal| refusal.number, |slip| slip.len() as u8)
    };
    assert_eq!([on(&[], 0, 0), on(&[9, 65_535], 32, 32)], [20, 84]);
    assert_eq!([on(&[], 33, 33), on(&[0, 0, 1], 0, 0)], [5, 5]);
    assert_eq!(on(&[0, 0, 0, 0, 0, 0, 0, 0, 0, 0, 0, 0, 0, 0, 0, 1], 0, 0), 5);
    // 4 comes before 5.
    assert_eq!([on(&[], 1, 0), on(&[], 1, 2), on(&[0, 0, 1], 0, 1)], [4, 4, 4]);
    assert_eq!([on(&[], 33, 32), on(&[], 32, 33), on(&[], 65_536, 0)], [4, 4, 4]);
    // With sixteen instances no entry is unused.
    let full = Head { m: 16, t: 0, ..HEAD };
    let written = checked::block(&begun(full, 0), &block(&[1; 16], 32), 32);
    assert_eq!(written.map(|slip| slip.len()), Ok(112));
    // Instance, number, rank and citations are not judged here.
    let any = Block { instance: 16, number: 0, rank: 0, cut: [7; 16], citations: vec![2] };
    assert_eq!(checked::block(&begun(full, 0), &any, 1).map(|slip| slip.len()), Ok(50));
}

/// 16 with the slip's length, after all else.
#[test]
fn a_short_buffer_comes_last() {
    let head = checked::head(&Draft::Empty, &HEAD);
    assert_eq!(checked::lent(head.clone(), 14), head);
    assert_eq!(checked::lent(head.clone(), 15), head);
    for length in [0, 1, 13] {
        let short = Err(Refusal { number: 16, place: 14 });
        assert_eq!(checked::lent(head.clone(), length), short);
        assert_eq!(checked::lent(refused(7), length), refused(7));
    }
}
