//! What the calls fill, and what they leave alone.

use super::frames::{balances, header, worked_run};
use super::*;

#[test]
fn loading_fills_the_sheet_and_nothing_beyond() {
    let lent = Lent::loaded(3);
    assert_eq!(lent.numbers[..6], [2, 3, 1, 2, 2, 2]);
    assert!(lent.numbers[6..].iter().all(|height| *height == 0));
    assert_eq!(lent.kept.sheet[..24], balances(&[10, 5, 0])[6..]);
    assert_eq!(lent.kept.sheet[224..], [77; 3]);
}

#[test]
fn nothing_is_loaded_once_the_sheet_is_complete() {
    let mut lent = Lent::loaded(0);
    lent.truncate(Sheet, 0);
    for (run, at) in [(worked_run(), 0), (header([1, 1, 0, 0]), 0), (vec![], 9)] {
        let mut expected = lent.clone();
        expected.told = vec![0, 0];
        assert_eq!(lent.load(&run, at), 255);
        assert_eq!(lent, expected);
    }
}

#[test]
fn readings_leave_the_places_beyond_as_they_were() {
    for more in [0, 1, 5] {
        let beyond = vec![77u8; more];
        let mut lent = Lent::worked(more);
        for call in READINGS {
            assert_eq!(lent.call(call), 0);
            let told = match call {
                Call::Share => 1000,
                Call::Log => 2,
                _ => 0,
            };
            assert_eq!(lent.told, [0, told]);
        }
        let (free, rest) = lent.free.split_at(3);
        assert_eq!((free, rest), (&[6, 6, 3][..], &vec![77; more][..]));
        let (held, rest) = lent.held.split_at(3);
        assert_eq!((held, rest), (&[0, 0, 0][..], &vec![77; more][..]));
        let (values, rest) = lent.values.split_at(1);
        assert_eq!((values, rest), (&[7][..], &vec![77; more][..]));
        let (statuses, rest) = lent.statuses.split_at(2);
        assert_eq!((statuses, rest), (&[1, 1][..], &beyond[..]));
        let (instances, rest) = lent.instances.split_at(2);
        assert_eq!((instances, rest), (&[1, 0][..], &vec![77; more][..]));
        let (sequences, rest) = lent.sequences.split_at(2);
        assert_eq!((sequences, rest), (&[1, 1][..], &vec![77; more][..]));
        // Working buffers are written up to their least lengths.
        assert_eq!(lent.working.counts[4..], vec![77; more]);
        assert_eq!(lent.working.table[2..], beyond);
        assert_eq!(lent.working.order[256..], vec![77; more]);
    }
}

#[test]
fn readings_leave_the_ledger_as_it_was() {
    let mut lent = Lent::worked(2);
    let before = (lent.numbers.clone(), lent.kept.clone());
    for call in READINGS {
        assert_eq!(lent.call(call), 0);
    }
    assert_eq!((lent.numbers, lent.kept), before);
}

#[test]
fn an_accepted_block_is_written_to_its_own_places() {
    let mut lent = Lent::loaded(2);
    let mut expected = lent.clone();
    expected.numbers[6 + 1] = 1;
    expected.kept.ranks[128] = 1;
    expected.kept.cuts[2048..][..16].fill(0);
    expected.kept.cites[4096..][..32].fill(65535);
    expected.kept.cites[4096] = 0;
    // A place without a citation is judged good.
    expected.kept.good[4096..][..32].fill(1);
    assert_eq!(lent.offer_block((1, 1, 1), &[0, 0], &[0]), 0);
    assert_eq!(lent.numbers, expected.numbers);
    assert_eq!(lent.kept, expected.kept);
    assert_eq!(lent.working.counts[4..], [77; 2]);
    assert_eq!(lent.working.table[2..], [77; 2]);
    assert_eq!(lent.working.order[256..], [77; 2]);
}

#[test]
fn refused_offers_write_nothing() {
    type Values<'a> = ((u16, u16, u32), &'a [u16], &'a [u16]);
    let offers: [(u16, u64, Values); 10] = [
        (5, 0, ((0, 2, 9), &[1, 1, 1], &[])),
        (5, 0, ((0, 2, 9), &[1, 1], &[0; 33])),
        (8, 0, ((2, 1, 9), &[1, 1], &[])),
        (9, 2, ((0, 3, 9), &[1, 1], &[])),
        (10, 2, ((0, 2, 2), &[1, 1], &[])),
        (11, 0, ((0, 2, 9), &[0, 1], &[])),
        (12, 1, ((0, 2, 9), &[1, 2], &[])),
        (13, 0, ((0, 2, 9), &[1, 1], &[2])),
        (14, 0, ((1, 2, 9), &[1, 1], &[1])),
        (15, 0, ((1, 2, 9), &[1, 1], &[0])),
    ];
    for (number, place, (ids, cut, citations)) in offers {
        let mut lent = Lent::worked(1);
        let mut expected = lent.clone();
        expected.told = vec![place, 0];
        assert_eq!(lent.offer_block(ids, cut, citations), number);
        assert_eq!(lent, expected, "{number}");
    }
}

/// A stage is one byte, so that 300 is no ledger's: only what is taken writes the numbers.
#[test]
fn numbers_stay_where_nothing_is_taken() {
    let run = worked_run();
    let mut lent = Lent::worked(0);
    lent.numbers[4] = 300;
    let mut expected = lent.clone();
    expected.told = vec![2, 0];
    assert_eq!(lent.offer_block((0, 3, 9), &[1, 1], &[]), 9);
    assert_eq!(lent, expected);
    assert_eq!(lent.offer_frame(&run, 100), 9);
    assert_eq!(lent, expected);
    expected.told = vec![0, 0];
    assert_eq!(lent.offer_frame(&run, run.len()), 255);
    assert_eq!(lent, expected);
    assert_eq!(lent.load(&run, 0), 255);
    assert_eq!(lent, expected);
    // A transaction is due again.
    lent.numbers[5] = 1;
    expected.numbers[5] = 1;
    assert_eq!(lent.load(&[], 0), 1);
    assert_eq!(lent, expected);
}

#[test]
fn a_cut_is_taken_by_its_first_sixteen_entries() {
    // Fewer count as 0, more are not looked at.
    for cut in [
        &[0][..],
        &[],
        &[0; 16],
        &[[0; 16].as_slice(), &[9, 9]].concat(),
    ] {
        let mut lent = Lent::loaded(0);
        assert_eq!(lent.offer_block((1, 1, 1), cut, &[0]), 0);
    }
    let mut lent = Lent::loaded(0);
    let mut cut = [0; 16];
    cut[15] = 1;
    assert_eq!(lent.offer_block((1, 1, 1), &cut, &[0]), 5);
}

#[test]
fn what_the_buffers_held_before_means_nothing() {
    let mut one = Lent::worked(0);
    let mut other = Lent::new(0);
    other.kept.ranks.fill(u32::MAX);
    other.kept.cuts.fill(u16::MAX);
    other.kept.cites.fill(1);
    other.kept.good.fill(0);
    other.working.counts.fill(u32::MAX);
    other.working.table.fill(2);
    other.working.order.fill(u16::MAX);
    let run = worked_run();
    for at in [0, 14, 44, 72] {
        assert_eq!(other.load(&run, at), 0);
    }
    assert_eq!(other.offer_frame(&run, 100), 0);
    assert_eq!(other.offer_frame(&run, 122), 0);
    for call in READINGS {
        assert_eq!(one.call(call), other.call(call));
        assert_eq!(one.told, other.told);
    }
    assert_eq!((one.free, one.held), (other.free, other.held));
    assert_eq!((one.values, one.statuses), (other.values, other.statuses));
    assert_eq!(
        (one.instances, one.sequences),
        (other.instances, other.sequences)
    );
}
