//! The boundary, called with buffers of every length: what each function asks, and what it leaves alone.

#[path = "../../tests/frames/mod.rs"]
#[allow(dead_code)]
mod frames;

mod contents;
mod lengths;
mod report;
mod writers;

use super::*;
use frames::{block, worked_run, worked_sheet};

/// Everything that some call lends. All places begin as 77, so that a place which is not written is seen.
#[derive(Clone, Debug, PartialEq)]
struct Lent {
    numbers: Vec<u16>,
    kept: Kept,
    working: Working,
    free: Vec<u64>,
    held: Vec<u64>,
    values: Vec<u32>,
    statuses: Vec<u8>,
    instances: Vec<u16>,
    sequences: Vec<u16>,
    told: Vec<u64>,
}

/// The buffers by name.
#[derive(Clone, Copy, Debug, PartialEq)]
enum Buffer {
    Sheet,
    Ranks,
    Cuts,
    Cites,
    Good,
    Counts,
    Table,
    Order,
    Free,
    Held,
    Values,
    Statuses,
    Instances,
    Sequences,
}

use Buffer::*;

/// The calls on a sheet that is complete.
#[derive(Clone, Copy, Debug, PartialEq)]
enum Call {
    OfferFrame,
    OfferBlock,
    Accounts,
    Registers,
    Settlements,
    Share,
    Log,
}

const OFFERS: [Call; 2] = [Call::OfferFrame, Call::OfferBlock];
const READINGS: [Call; 5] = [
    Call::Accounts,
    Call::Registers,
    Call::Settlements,
    Call::Share,
    Call::Log,
];

/// What a call lends, in its order, with the least lengths on the worked sheet (m 2, a 3, g 1, t 2; two blocks in the
/// log).
fn needs(call: Call) -> Vec<(Buffer, usize)> {
    let settling = [
        (Sheet, 8 * 3 + 100 * 2),
        (Ranks, 128 * 2),
        (Cites, 4096 * 2),
        (Good, 4096 * 2),
        (Counts, 2 * 2),
        (Table, 2),
        (Order, 128 * 2),
    ];
    let filled: &[(Buffer, usize)] = match call {
        Call::OfferFrame | Call::OfferBlock => {
            let mut needs = settling.to_vec();
            needs.insert(2, (Cuts, 2048 * 2));
            return needs;
        }
        Call::Log => return vec![(Ranks, 128 * 2), (Instances, 2), (Sequences, 2)],
        Call::Accounts => &[(Free, 3), (Held, 3)],
        Call::Registers => &[(Values, 1)],
        Call::Settlements => &[(Statuses, 2)],
        Call::Share => &[],
    };
    [&settling, filled].concat()
}

impl Lent {
    /// Nothing loaded; every buffer has `more` places than the worked sheet asks.
    fn new(more: usize) -> Lent {
        Lent {
            numbers: vec![0; 22],
            kept: Kept {
                sheet: vec![77; 224 + more],
                ranks: vec![77; 256 + more],
                cuts: vec![77; 4096 + more],
                cites: vec![77; 8192 + more],
                good: vec![77; 8192 + more],
            },
            working: Working {
                counts: vec![77; 4 + more],
                table: vec![77; 2 + more],
                order: vec![77; 256 + more],
            },
            free: vec![77; 3 + more],
            held: vec![77; 3 + more],
            values: vec![77; 1 + more],
            statuses: vec![77; 2 + more],
            instances: vec![77; 2 + more],
            sequences: vec![77; 2 + more],
            told: vec![77; 2],
        }
    }

    /// The worked sheet is complete.
    fn loaded(more: usize) -> Lent {
        let mut lent = Lent::new(more);
        let sheet = worked_sheet();
        for (at, next) in [(0, 14), (14, 44), (44, 72), (72, 100)] {
            assert_eq!(lent.load(&sheet, at), 0);
            assert_eq!(lent.told, [next, 0]);
        }
        lent
    }

    /// Its two blocks are accepted, too.
    fn worked(more: usize) -> Lent {
        let mut lent = Lent::loaded(more);
        let run = worked_run();
        assert_eq!(lent.offer_frame(&run, 100), 0);
        assert_eq!(lent.offer_frame(&run, 122), 0);
        lent.told.fill(77);
        lent
    }

    fn load(&mut self, run: &[u8], at: usize) -> u16 {
        let Lent {
            numbers,
            kept,
            told,
            ..
        } = self;
        load(numbers, run, at, &mut kept.sheet, told)
    }

    fn offer_frame(&mut self, bytes: &[u8], at: usize) -> u16 {
        let Lent {
            numbers,
            kept,
            working,
            told,
            ..
        } = self;
        offer_frame(numbers, kept, working, bytes, at, told)
    }

    fn offer_block(&mut self, ids: (u16, u16, u32), cut: &[u16], citations: &[u16]) -> u16 {
        let Lent {
            numbers,
            kept,
            working,
            told,
            ..
        } = self;
        offer_block(numbers, kept, working, ids, cut, citations, told)
    }

    /// A call; an offer is one that a worked ledger accepts.
    fn call(&mut self, call: Call) -> u16 {
        let Lent {
            numbers,
            kept,
            working,
            told,
            ..
        } = self;
        match call {
            Call::OfferFrame => self.offer_frame(&block(0, 2, 9, &[1, 1], &[]), 0),
            Call::OfferBlock => self.offer_block((0, 2, 9), &[1, 1], &[]),
            Call::Accounts => {
                accounts(numbers, kept, working, &mut self.free, &mut self.held, told)
            }
            Call::Registers => registers(numbers, kept, working, &mut self.values, told),
            Call::Settlements => settlements(numbers, kept, working, &mut self.statuses, told),
            Call::Share => share(numbers, kept, working, told),
            Call::Log => log(
                numbers,
                &kept.ranks,
                &mut self.instances,
                &mut self.sequences,
                told,
            ),
        }
    }

    fn truncate(&mut self, buffer: Buffer, length: usize) {
        match buffer {
            Sheet => self.kept.sheet.truncate(length),
            Ranks => self.kept.ranks.truncate(length),
            Cuts => self.kept.cuts.truncate(length),
            Cites => self.kept.cites.truncate(length),
            Good => self.kept.good.truncate(length),
            Counts => self.working.counts.truncate(length),
            Table => self.working.table.truncate(length),
            Order => self.working.order.truncate(length),
            Free => self.free.truncate(length),
            Held => self.held.truncate(length),
            Values => self.values.truncate(length),
            Statuses => self.statuses.truncate(length),
            Instances => self.instances.truncate(length),
            Sequences => self.sequences.truncate(length),
        }
    }

    /// The call is refused with this number and place, and all else is as it was.
    fn refuses(mut self, call: Call, number: u16, place: u64) {
        let mut expected = self.clone();
        expected.told = vec![place, 0];
        assert_eq!(self.call(call), number, "{call:?}");
        assert_eq!(self, expected, "{call:?} wrote something");
    }
}
