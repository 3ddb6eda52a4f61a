//! Refusal 16, and what comes before it: buffers that are too short, that suffice, and that are longer.

use super::frames::{worked_run, worked_sheet};
use super::*;

#[test]
fn the_least_lengths_suffice() {
    for call in OFFERS.into_iter().chain(READINGS) {
        let mut lent = Lent::worked(0);
        for buffer in [
            Sheet, Ranks, Cuts, Cites, Good, Counts, Table, Order, Free, Held, Values, Statuses,
            Instances, Sequences,
        ] {
            let least = needs(call)
                .iter()
                .find(|need| need.0 == buffer)
                .map(|need| need.1);
            // What the call does not lend may have no place at all.
            lent.truncate(buffer, least.unwrap_or(0));
        }
        assert_eq!(lent.call(call), 0, "{call:?}");
    }
}

#[test]
fn a_short_buffer_gives_16_and_its_least_length() {
    for call in OFFERS.into_iter().chain(READINGS) {
        for (buffer, least) in needs(call) {
            for length in [0, least - 1] {
                let mut lent = Lent::worked(3);
                lent.truncate(buffer, length);
                lent.refuses(call, 16, least as u64);
            }
        }
    }
}

#[test]
fn of_several_short_buffers_the_first_counts() {
    for call in OFFERS.into_iter().chain(READINGS) {
        let needs = needs(call);
        for first in 0..needs.len() {
            let mut lent = Lent::worked(0);
            for (buffer, least) in &needs[first..] {
                lent.truncate(*buffer, least - 1);
            }
            lent.refuses(call, 16, needs[first].1 as u64);
        }
    }
}

#[test]
fn loading_asks_for_the_sheet_once_the_header_is_known() {
    let sheet = worked_sheet();
    let mut lent = Lent::new(0);
    lent.truncate(Sheet, 0);
    assert_eq!(lent.load(&sheet, 0), 0);
    for length in [0, 223] {
        lent.kept.sheet = vec![77; length];
        let mut expected = lent.clone();
        expected.told = vec![224, 0];
        assert_eq!(lent.load(&sheet, 14), 16);
        assert_eq!(lent, expected);
    }
    lent.kept.sheet = vec![77; 224];
    assert_eq!(lent.load(&sheet, 14), 0);
}

#[test]
fn fewer_than_22_numbers_give_16_with_22() {
    for length in [0, 21] {
        let mut lent = Lent::worked(0);
        lent.numbers.truncate(length);
        for call in OFFERS.into_iter().chain(READINGS) {
            lent.clone().refuses(call, 16, 22);
        }
        let mut expected = lent.clone();
        expected.told = vec![22, 0];
        assert_eq!(lent.load(&worked_run(), 0), 16);
        assert_eq!(lent, expected);
    }
}

#[test]
fn numbers_beyond_22_are_left_alone() {
    let mut lent = Lent::new(0);
    lent.numbers.extend([77; 3]);
    let run = worked_run();
    for at in [0, 14, 44, 72] {
        assert_eq!(lent.load(&run, at), 0);
    }
    assert_eq!(lent.offer_frame(&run, 100), 0);
    assert_eq!(lent.offer_block((0, 1, 2), &[0, 1], &[0, 1]), 0);
    assert_eq!(lent.numbers[22..], [77; 3]);
    for call in READINGS {
        assert_eq!(lent.call(call), 0);
    }
}

#[test]
fn what_is_told_is_written_as_far_as_there_is_room() {
    for length in [0, 1, 4] {
        let mut lent = Lent::worked(0);
        lent.told = vec![77; length];
        assert_eq!(lent.call(Call::Share), 0);
        assert_eq!(lent.told, [0, 1000, 77, 77][..length]);
        lent.numbers.truncate(21);
        assert_eq!(lent.call(Call::Share), 16);
        assert_eq!(lent.told, [22, 0, 77, 77][..length]);
    }
}

#[test]
fn no_byte_comes_before_16() {
    let run = worked_run();
    for at in [run.len(), run.len() + 1, usize::MAX] {
        let mut lent = Lent::worked(0);
        lent.truncate(Sheet, 0);
        let mut expected = lent.clone();
        expected.told = vec![0, 0];
        assert_eq!(lent.offer_frame(&run, at), 255);
        assert_eq!(lent, expected);
    }
}

#[test]
fn readings_before_the_sheet_is_complete_give_3() {
    let sheet = worked_sheet();
    let mut lent = Lent::new(0);
    for at in [0, 14, 44, 72] {
        for call in READINGS {
            lent.clone().refuses(call, 3, 0);
            // Ahead of 16.
            let mut short = lent.clone();
            for (buffer, _) in needs(call) {
                short.truncate(buffer, 0);
            }
            short.refuses(call, 3, 0);
        }
        assert_eq!(lent.load(&sheet, at), 0);
    }
    assert_eq!(lent.call(Call::Share), 0);
}

#[test]
fn offers_before_the_sheet_is_complete_give_16_then_3() {
    let sheet = worked_sheet();
    let mut lent = Lent::new(0);
    for at in [0, 14, 44, 72] {
        for call in OFFERS {
            lent.clone().refuses(call, 3, 0);
        }
        assert_eq!(lent.load(&sheet, at), 0);
        if at < 72 {
            let mut short = lent.clone();
            short.truncate(Sheet, 0);
            short.refuses(Call::OfferBlock, 16, 224);
        }
    }
}
