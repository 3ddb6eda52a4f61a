//! The calls over a run's bytes alone: the text of its reading, and where its frames end.

use super::frames::{frame as frame_of, worked_run};
use super::*;

/// What document 01 gives for its worked run.
const WORKED: &[u8] = include_bytes!("../../../../../examples/worked.reading");

/// All that `report` lends.
#[derive(Clone, Debug, PartialEq)]
struct Lent {
    kept: Kept,
    working: Working,
    out: Vec<u8>,
}

impl Lent {
    /// Every buffer has `more` places than the call asks; all begin as 77.
    fn new(more: usize) -> Lent {
        Lent {
            kept: Kept {
                sheet: vec![77; 110_592 + more],
                ranks: vec![77; 2_048 + more],
                cuts: vec![77; 32_768 + more],
                cites: vec![77; 65_536 + more],
                good: vec![77; 65_536 + more],
            },
            working: Working {
                counts: vec![77; 2_048 + more],
                table: vec![77; 1_024 + more],
                order: vec![77; 2_048 + more],
            },
            out: vec![77; 262_144 + more],
        }
    }

    fn report(&mut self, run: &[u8], told: &mut [u64]) -> u16 {
        let Lent { kept, working, out } = self;
        report(run, kept, working, out, told)
    }

    /// Shortens the buffer at a place of the call's order; gives its least length.
    fn shorten(&mut self, place: usize) -> usize {
        fn pop<T>(list: &mut Vec<T>) -> usize {
            let least = list.len();
            list.truncate(least - 1);
            least
        }
        let Lent { kept, working, out } = self;
        match place {
            0 => pop(&mut kept.sheet),
            1 => pop(&mut kept.ranks),
            2 => pop(&mut kept.cuts),
            3 => pop(&mut kept.cites),
            4 => pop(&mut kept.good),
            5 => pop(&mut working.counts),
            6 => pop(&mut working.table),
            7 => pop(&mut working.order),
            _ => pop(out),
        }
    }
}

/// How many buffers the call lends.
const BUFFERS: usize = 9;

#[test]
fn the_lengths_of_the_largest_sheet() {
    let Lent { kept, working, out } = Lent::new(0);
    let lengths = |kept: &Kept| {
        [
            kept.sheet.len(),
            kept.ranks.len(),
            kept.cuts.len(),
            kept.cites.len(),
            kept.good.len(),
        ]
    };
    assert_eq!(lengths(&Kept::new(LARGEST)), lengths(&kept));
    let lengths = |working: &Working| {
        [
            working.counts.len(),
            working.table.len(),
            working.order.len(),
        ]
    };
    assert_eq!(lengths(&Working::new(LARGEST)), lengths(&working));
    assert_eq!(LONGEST_TEXT, out.len());
    assert_eq!(kept.bytes() + working.bytes() + out.len(), 656_384);
}

#[test]
fn the_text_stands_at_the_front_of_out() {
    for more in [0, 1, 5] {
        let mut lent = Lent::new(more);
        let mut told = [77; 2];
        assert_eq!(lent.report(&worked_run(), &mut told), 0);
        assert_eq!(told, [WORKED.len() as u64, 0]);
        let (text, rest) = lent.out.split_at(WORKED.len());
        assert_eq!(text, WORKED);
        assert!(rest.iter().all(|place| *place == 77));
        // Buffers are written up to their least lengths.
        assert_eq!(lent.kept.sheet[110_592..], vec![77; more]);
        assert_eq!(lent.kept.ranks[2_048..], vec![77; more]);
        assert_eq!(lent.kept.cuts[32_768..], vec![77; more]);
        assert_eq!(lent.kept.cites[65_536..], vec![77; more]);
        assert_eq!(lent.kept.good[65_536..], vec![77; more]);
        assert_eq!(lent.working.counts[2_048..], vec![77; more]);
        assert_eq!(lent.working.table[1_024..], vec![77; more]);
        assert_eq!(lent.working.order[2_048..], vec![77; more]);
    }
}

#[test]
fn a_short_buffer_gives_16_and_nothing_is_written() {
    for first in 0..BUFFERS {
        // Of several the first counts.
        for last in [first, BUFFERS - 1] {
            let mut lent = Lent::new(0);
            let least = lent.shorten(first);
            (first + 1..=last).for_each(|place| {
                lent.shorten(place);
            });
            let before = lent.clone();
            let mut told = [77; 2];
            assert_eq!(lent.report(&worked_run(), &mut told), 16);
            assert_eq!(told, [least as u64, 0]);
            assert_eq!(lent, before);
        }
    }
}

#[test]
fn any_bytes_have_a_text() {
    let mut lent = Lent::new(0);
    for (run, text) in [
        (vec![], "refused 1 0\n"),
        (vec![0; 65_536], "refused 2 0\n"),
        (vec![0; 65_537], "long\n"),
        (frame_of(9, &[]), "refused 3 0\n"),
    ] {
        let mut told = [77; 2];
        assert_eq!(lent.report(&run, &mut told), 0);
        assert_eq!(told, [text.len() as u64, 0]);
        assert_eq!(&lent.out[..text.len()], text.as_bytes());
    }
    for length in [0, 1, 4] {
        let mut told = vec![77; length];
        assert_eq!(lent.report(&worked_run(), &mut told), 0);
        assert_eq!(told, [WORKED.len() as u64, 0, 77, 77][..length]);
    }
}

#[test]
fn frames_at_any_offset() {
    let run = worked_run();
    let cases: [(&[u8], usize, u16, [u64; 2]); 9] = [
        (&run, 0, 0, [14, 1]),
        (&run, 44, 0, [72, 3]),
        (&run, 122, 0, [146, 4]),
        (&run[..145], 122, 1, [122, 0]),
        (&run, 143, 1, [143, 0]),
        (&run, 1, 2, [1, 0]),
        (&run, 146, 255, [0, 0]),
        (&[], usize::MAX, 255, [0, 0]),
        (&[2, 0, 0, 0, 255, 255], 0, 0, [6, 65_535]),
    ];
    for (bytes, at, code, expected) in cases {
        for length in [0, 1, 2, 4] {
            let mut told = vec![77; length];
            assert_eq!(frame(bytes, at, &mut told), code);
            let whole = [expected[0], expected[1], 77, 77];
            assert_eq!(told, whole[..length]);
        }
    }
}
