//! The four writers with `out` of every length, lists of every length, and numbers of every stage.

use super::frames::{balances, block, header, transaction, worked_run, worked_sheet};
use super::*;

/// What a writer is given beside the numbers.
#[derive(Clone, Copy, Debug)]
enum Frame<'a> {
    Header([u16; 4]),
    Balances(&'a [u64]),
    Transaction(TransactionLists<'a>),
    Block((u16, u16, u32), u16, &'a [u16], &'a [u16]),
}

const PAYMENT: TransactionLists = TransactionLists {
    kind: 0,
    counts: [2, 1, 0],
    payers: &[0, 1],
    debits: &[4, 5],
    payees: &[2],
    credits: &[9],
    codes: &[],
    registers: &[],
    values: &[],
};

const CONTRACT: TransactionLists = TransactionLists {
    kind: 1,
    counts: [1, 1, 1],
    payers: &[2],
    debits: &[6],
    payees: &[1],
    credits: &[6],
    codes: &[2],
    registers: &[0],
    values: &[7],
};

/// The worked run's frames.
const WORKED: [Frame; 6] = [
    Frame::Header([2, 3, 1, 2]),
    Frame::Balances(&[10, 5, 0]),
    Frame::Transaction(PAYMENT),
    Frame::Transaction(CONTRACT),
    Frame::Block((1, 1, 1), 1, &[0, 0], &[0]),
    Frame::Block((0, 1, 2), 2, &[0, 1], &[0, 1]),
];

fn write(numbers: &[u16], frame: Frame, out: &mut [u8], told: &mut [u64]) -> u16 {
    match frame {
        Frame::Header(sizes) => write_header(numbers, sizes, out, told),
        Frame::Balances(list) => write_balances(numbers, list, out, told),
        Frame::Transaction(lists) => write_transaction(numbers, &lists, out, told),
        Frame::Block(ids, count, cut, citations) => {
            write_block(numbers, ids, count, cut, citations, out, told)
        }
    }
}

/// A ledger's numbers after so many frames of the worked sheet.
fn numbers(loaded: usize) -> Vec<u16> {
    let mut lent = Lent::new(0);
    for at in &[0, 14, 44, 72][..loaded] {
        assert_eq!(lent.load(&worked_sheet(), *at), 0);
    }
    lent.numbers
}

/// The call is refused with this number and place, and nothing is written.
fn refuses(numbers: &[u16], frame: Frame, room: usize, number: u16, place: u64) {
    let mut out = vec![77; room];
    let mut told = [77; 2];
    let code = write(numbers, frame, &mut out, &mut told);
    assert_eq!((code, told), (number, [place, 0]), "{frame:?}");
    assert_eq!(out, vec![77; room], "{frame:?} wrote something");
}

#[test]
fn the_worked_run_frame_by_frame() {
    let run = worked_run();
    let ends = [0, 14, 44, 72, 100, 122, 146];
    for (place, frame) in WORKED.into_iter().enumerate() {
        let numbers = numbers(place.min(4));
        let expected = &run[ends[place]..ends[place + 1]];
        for more in [0, 1, 9] {
            let mut out = vec![77; expected.len() + more];
            let mut told = [77; 2];
            assert_eq!(write(&numbers, frame, &mut out, &mut told), 0);
            assert_eq!(told, [expected.len() as u64, 0]);
            assert_eq!(out, [expected, &vec![77; more]].concat());
        }
        for room in [0, 1, expected.len() - 1] {
            refuses(&numbers, frame, room, 16, expected.len() as u64);
        }
        for length in [0, 1, 4] {
            let mut out = vec![77; expected.len()];
            let mut told = vec![77; length];
            assert_eq!(write(&numbers, frame, &mut out, &mut told), 0);
            assert_eq!(told, [expected.len() as u64, 0, 77, 77][..length]);
        }
    }
}

#[test]
fn fewer_than_22_numbers_give_16_with_22() {
    for (place, frame) in WORKED.into_iter().enumerate() {
        let numbers = numbers(place.min(4));
        for length in [0, 21] {
            refuses(&numbers[..length], frame, 0, 16, 22);
            refuses(&numbers[..length], frame, 100, 16, 22);
        }
    }
}

#[test]
fn what_is_not_due_gives_3_ahead_of_all_else() {
    // Of the frames above, with lists that would give 4 and no room at all.
    let wrong = [
        Frame::Header([0, 0, 65, 9]),
        Frame::Balances(&[]),
        Frame::Transaction(TransactionLists::default()),
        Frame::Block((0, 0, 0), 1, &[], &[]),
    ];
    for loaded in 0..=4 {
        let due = [0, 1, 2, 2, 3][loaded];
        for (kind, frame) in wrong.into_iter().enumerate() {
            if kind != due {
                refuses(&numbers(loaded), frame, 0, 3, 0);
            }
        }
    }
}

#[test]
fn a_list_of_another_length_than_its_count_gives_4() {
    for list in [&[][..], &[1, 2], &[1, 2, 3, 4], &[0; 9_000]] {
        refuses(&numbers(1), Frame::Balances(list), 0, 4, 0);
    }
    let short = |change: fn(&mut TransactionLists)| {
        let mut lists = CONTRACT;
        change(&mut lists);
        refuses(&numbers(2), Frame::Transaction(lists), 0, 4, 0);
    };
    short(|lists| lists.counts[0] = 2);
    short(|lists| lists.counts[1] = 0);
    short(|lists| lists.counts[2] = 255);
    short(|lists| lists.payers = &[]);
    short(|lists| lists.debits = &[6, 6]);
    short(|lists| lists.payees = &[]);
    short(|lists| lists.credits = &[6; 257]);
    short(|lists| lists.codes = &[]);
    short(|lists| lists.registers = &[0; 2]);
    short(|lists| lists.values = &[]);
    for (count, citations) in [(0, &[0][..]), (1, &[]), (33, &[0; 32]), (65_535, &[])] {
        let block = Frame::Block((0, 1, 1), count, &[0, 0], citations);
        refuses(&numbers(4), block, 0, 4, 0);
    }
}

#[test]
fn values_that_no_frame_holds_give_5_to_7() {
    for sizes in [[0, 1, 0, 0], [17, 1, 0, 0], [1, 1_025, 0, 0], [1, 1, 65, 0]] {
        refuses(&numbers(0), Frame::Header(sizes), 0, 5, 0);
    }
    refuses(
        &numbers(1),
        Frame::Balances(&[0, (1 << 40) + 1, 0]),
        0,
        5,
        0,
    );
    let refused = |number: u16, change: fn(&mut TransactionLists)| {
        let mut lists = CONTRACT;
        change(&mut lists);
        refuses(&numbers(2), Frame::Transaction(lists), 0, number, 0);
    };
    refused(5, |lists| lists.kind = 0);
    refused(5, |lists| lists.kind = 2);
    refused(5, |lists| lists.payers = &[3]);
    refused(5, |lists| lists.debits = &[0]);
    refused(5, |lists| lists.payees = &[65_535]);
    refused(5, |lists| lists.codes = &[5]);
    refused(5, |lists| lists.registers = &[1]);
    refused(6, |lists| {
        lists.counts[0] = 2;
        (lists.payers, lists.debits) = (&[2, 2], &[3, 3]);
    });
    refused(7, |lists| lists.credits = &[7]);
    let many = Frame::Block((0, 1, 1), 33, &[0, 0], &[0; 33]);
    refuses(&numbers(4), many, 0, 5, 0);
    let unused = Frame::Block((0, 1, 1), 0, &[0, 0, 1], &[]);
    refuses(&numbers(4), unused, 0, 5, 0);
}

/// The cut's first sixteen entries count; whether a ledger accepts the block is not the writer's to judge.
#[test]
fn blocks_that_a_ledger_would_refuse_are_written() {
    let long = [&[5, 6][..], &[0; 14], &[9]].concat();
    let cuts: [(&[u16], [u16; 2]); 4] = [
        (&[], [0, 0]),
        (&[5], [5, 0]),
        (&[5, 6], [5, 6]),
        (&long, [5, 6]),
    ];
    for (cut, used) in cuts {
        let expected = block(9, 0, 0, &used, &[7]);
        let mut out = vec![77; expected.len()];
        let frame = Frame::Block((9, 0, 0), 1, cut, &[7]);
        assert_eq!(write(&numbers(4), frame, &mut out, &mut [0; 2]), 0);
        assert_eq!(out, expected);
    }
}

#[test]
fn the_longest_frame() {
    let numbers_of = |frame: &[u8]| {
        let mut numbers = vec![0; 22];
        assert_eq!(load(&mut numbers, frame, 0, &mut [], &mut []), 0);
        numbers
    };
    let most = [1 << 40; 1_024];
    let expected = balances(&most);
    assert_eq!(expected.len(), LONGEST_FRAME);
    let numbers = numbers_of(&header([16, 1_024, 64, 1_024]));
    let mut out = vec![77; LONGEST_FRAME];
    assert_eq!(write_balances(&numbers, &most, &mut out, &mut []), 0);
    assert_eq!(out, expected);
    // No other kind comes near it.
    let longest = transaction(1, &[(0, 1); 4], &[(0, 1); 4], &[(0, 0, 0); 8]);
    assert!(longest.len() < LONGEST_FRAME);
}
