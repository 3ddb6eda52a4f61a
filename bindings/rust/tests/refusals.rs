//! Every refusal of a ledger, with its place.

#[allow(dead_code)]
mod frames;
#[allow(dead_code)]
mod values;

use frames::{balances, block, frame, header, transaction, worked_sheet};
use rugxeni::{Ledger, Loading, Offer};
use values::{as_frame, readings, refusal, values, worked};

/// Refusals 1 to 7 of the sheet's frames, with their offsets.
#[test]
fn sheets_turned_away() {
    let begun = [header([2, 3, 1, 2]), balances(&[10, 5, 0])].concat();
    let with = |next: &[u8]| [&begun[..], next].concat();
    let cases = [
        (vec![], refusal(1, 0)),
        (vec![0; 3], refusal(1, 0)),
        (begun.clone(), refusal(1, 44)),
        (with(&[28, 0, 0, 0, 3, 0]), refusal(1, 44)),
        (with(&[1, 0, 0, 0, 3]), refusal(2, 44)),
        (with(&8195u32.to_le_bytes()), refusal(2, 44)),
        (with(&block(0, 1, 1, &[0, 0], &[])), refusal(3, 44)),
        (header([2, 3, 1, 2]).repeat(2), refusal(3, 14)),
        (with(&frame(3, &[0, 1, 1, 0])), refusal(4, 44)),
        (header([0, 3, 1, 2]), refusal(5, 0)),
        (
            with(&transaction(0, &[(3, 1)], &[(0, 1)], &[])),
            refusal(5, 44),
        ),
        (
            with(&transaction(0, &[(0, 1), (0, 1)], &[(1, 2)], &[])),
            refusal(6, 44),
        ),
        (
            with(&transaction(0, &[(0, 1)], &[(1, 2)], &[])),
            refusal(7, 44),
        ),
    ];
    for (run, expected) in cases {
        assert_eq!(Ledger::load(&run).err(), Some(expected));
    }
}

/// Refusals 1 to 5 of an offered frame; its offset is that in the bytes handed over.
#[test]
fn frames_turned_away() {
    let whole = block(0, 2, 9, &[1, 1], &[]);
    let cases = [
        (whole[..3].to_vec(), 1),
        (whole[..whole.len() - 1].to_vec(), 1),
        (vec![1, 0, 0, 0, 4], 2),
        (header([1, 1, 0, 0]), 3),
        (frame(5, &whole[6..]), 3),
        (frame(4, &whole[6..whole.len() - 1]), 4),
        (block(0, 2, 9, &[1, 1], &[0; 33]), 5),
    ];
    let mut ledger = worked();
    let before = readings(&mut ledger);
    for (bytes, number) in cases {
        for at in [0, 5] {
            let bytes = [&vec![9; at][..], &bytes].concat();
            let expected = Offer::Refused(refusal(number, at as u64));
            assert_eq!(ledger.offer_frame(&bytes, at), expected);
        }
    }
    assert_eq!(readings(&mut ledger), before);
    // None of them ended anything.
    assert_eq!(ledger.offer_frame(&whole, 0), Offer::Accepted);
}

/// Refusals 8 to 15 and 17, as frames and as values.
#[test]
fn blocks_turned_away() {
    let cases = [
        (values(2, 1, 9, &[1, 1], &[]), refusal(8, 0)),
        (values(0, 3, 9, &[1, 1], &[]), refusal(9, 2)),
        (values(0, 2, 2, &[1, 1], &[]), refusal(10, 2)),
        (values(0, 2, 9, &[1, 0], &[]), refusal(11, 1)),
        (values(1, 2, 9, &[2, 1], &[]), refusal(12, 0)),
        (values(0, 2, 9, &[1, 1], &[2]), refusal(13, 0)),
        (values(1, 2, 9, &[1, 1], &[1]), refusal(14, 0)),
        (values(0, 2, 9, &[1, 1], &[0, 1]), refusal(15, 0)),
    ];
    let mut ledger = worked();
    let before = readings(&mut ledger);
    for (block, expected) in &cases {
        assert_eq!(ledger.offer_block(block), Offer::Refused(*expected));
        let frame = as_frame(block, 2);
        assert_eq!(ledger.offer_frame(&frame, 0), Offer::Refused(*expected));
    }
    assert_eq!(readings(&mut ledger), before);
}

#[test]
fn block_128_is_accepted_and_129_gives_17() {
    let run = [header([1, 1, 0, 0]), balances(&[5])].concat();
    let (mut ledger, _) = Ledger::load(&run).expect("a sound sheet");
    for n in 1..=128 {
        let block = values(0, n, n.into(), &[n - 1], &[]);
        assert_eq!(ledger.offer_block(&block), Offer::Accepted);
    }
    for n in [129, 128, 0] {
        let block = values(0, n, 500, &[128], &[]);
        assert_eq!(ledger.offer_block(&block), Offer::Refused(refusal(17, 0)));
    }
    assert_eq!(ledger.heights(), [128]);
    assert_eq!(ledger.log().map(|log| log.len()), Ok(128));
    assert_eq!(ledger.share(), Ok(1000));
}

#[test]
fn values_turned_away_with_5() {
    let mut ledger = worked();
    let many = values(0, 2, 9, &[1, 1], &[0; 33]);
    assert_eq!(ledger.offer_block(&many), Offer::Refused(refusal(5, 0)));
    let unused = values(0, 2, 9, &[1, 1, 1], &[]);
    assert_eq!(ledger.offer_block(&unused), Offer::Refused(refusal(5, 0)));
}

#[test]
fn no_byte_is_no_offer() {
    let mut ledger = worked();
    let before = readings(&mut ledger);
    for (bytes, at) in [
        (&[][..], 0),
        (&[1, 2, 3], 3),
        (&[1, 2, 3], 4),
        (&[], usize::MAX),
    ] {
        assert_eq!(ledger.offer_frame(bytes, at), Offer::NoByte);
    }
    assert_eq!(readings(&mut ledger), before);
}

#[test]
fn a_sheet_that_is_not_complete() {
    let sheet = worked_sheet();
    let mut ledger = Ledger::new();
    assert_eq!(ledger.sizes(), None);
    let mut at = 0;
    for next in [14, 44, 72, 100] {
        let early = refusal(3, 0);
        assert_eq!(ledger.log(), Err(early));
        assert_eq!(ledger.settlements(), Err(early));
        assert_eq!(ledger.accounts(), Err(early));
        assert_eq!(ledger.registers(), Err(early));
        assert_eq!(ledger.share(), Err(early));
        let block = values(0, 1, 1, &[0, 0], &[]);
        assert_eq!(ledger.offer_block(&block), Offer::Refused(early));
        let frame = [vec![9, 9], as_frame(&block, 2)].concat();
        assert_eq!(ledger.offer_frame(&frame, 2), Offer::Refused(refusal(3, 2)));
        assert_eq!(ledger.offer_frame(&frame, frame.len()), Offer::NoByte);
        // A frame that is turned away leaves the one that is due to be loaded.
        assert_eq!(ledger.load_frame(&frame, 2), Err(refusal(3, 2)));
        assert_eq!(ledger.load_frame(&sheet, at), Ok(Loading::Next(next)));
        at = next;
    }
    assert_eq!(ledger.load_frame(&sheet, at), Ok(Loading::Complete));
    assert_eq!(ledger.load_frame(&sheet, 0), Ok(Loading::Complete));
    assert_eq!(ledger.share(), Ok(0));
}

#[test]
fn refusals_are_told_in_words() {
    let words: Vec<String> = (1..=17).map(|n| refusal(n, 4).to_string()).collect();
    assert_eq!(
        words[8],
        "refusal 9, place 4: sequence number not the one due"
    );
    assert!(words.iter().all(|text| !text.contains("not in the table")));
}
