//! The four writers, call by call: good and bad values, at every stage of a
//! sheet, compared with the second engine's writer.
//!
//! * What is refused, and in which order: 16 with 22 for fewer numbers than a
//!   ledger has; then 3 to 7 with place 0; only then 16 with the frame's length.
//! * What is written: the frame at the front of the buffer. What lies behind it
//!   is left alone, and on a refusal all of it.
//! * Two numbers are told, as far as there are places for them.
//!
//! The numbers that say the sheet so far are those that loading a run's frames
//! gives. [`values`] makes the values, [`transactions`] those of transactions.

pub mod transactions;
pub mod values;

use crosscheck::engine::format::slip_at;
use crosscheck::engine::write::checked::{self, Lists, Written};
use crosscheck::engine::{Block, Draft, Engine, Head, Refusal};
use crosscheck::generate::random::Random;
use rugxeni::ffi::{self, TransactionLists};

use crate::boundary::{Boundary, Call, Lent, Library};
use crate::counts::Counts;
use crate::difference::{same, Difference};
use crate::layout;

/// A ledger is so many numbers.
const NUMBERS: usize = 22;

/// About so many times among the transactions of a sheet the writers are
/// called; besides at every other stage.
const MOMENTS: u64 = 1;

/// So many blocks of a run are offered, and the writers called after each.
const BLOCKS: usize = 2;

/// Of the kinds that are not due, so many values in a hundred are tried.
const NOT_DUE: u64 = 10;

/// A block as it is handed over: the count beside its list, and any number of
/// cut entries.
#[derive(Clone, Debug, PartialEq)]
pub struct BlockValues {
    pub instance: u16,
    pub sequence: u16,
    pub rank: u32,
    pub count: u16,
    pub cut: Vec<u16>,
    pub citations: Vec<u16>,
}

impl BlockValues {
    pub fn of(block: &Block) -> BlockValues {
        BlockValues {
            instance: block.instance,
            sequence: block.number,
            rank: block.rank,
            count: block.citations.len() as u16,
            cut: block.cut.to_vec(),
            citations: block.citations.clone(),
        }
    }

    /// The block that is meant: the cut is the first sixteen entries, 0 where
    /// there are fewer.
    pub fn block(&self) -> Block {
        let mut cut = [0; 16];
        cut.iter_mut().zip(&self.cut).for_each(|(entry, given)| *entry = *given);
        let BlockValues { instance, sequence, rank, citations, .. } = self;
        let citations = citations.clone();
        Block { instance: *instance, number: *sequence, rank: *rank, cut, citations }
    }
}

/// The values of a call of a writer.
#[derive(Clone, Debug, PartialEq)]
pub enum Values {
    Header(Head),
    Balances(Vec<u64>),
    Transaction(Lists),
    Block(BlockValues),
}

impl Values {
    /// What the second engine writes of them.
    pub fn written(&self, draft: &Draft) -> Written {
        match self {
            Values::Header(head) => checked::head(draft, head),
            Values::Balances(balances) => checked::starts(draft, balances),
            Values::Transaction(lists) => checked::transaction(draft, lists),
            Values::Block(values) => checked::block(draft, &values.block(), values.count),
        }
    }
}

/// Anything that answers as the library's writers do.
pub trait Writers {
    fn write(&self, numbers: &[u16], values: &Values, out: &mut [u8], told: &mut [u64]) -> u16;
}

impl Writers for Library {
    fn write(&self, numbers: &[u16], values: &Values, out: &mut [u8], told: &mut [u64]) -> u16 {
        match values {
            Values::Header(Head { m, a, g, t }) => {
                ffi::write_header(numbers, [*m, *a, *g, *t], out, told)
            }
            Values::Balances(balances) => ffi::write_balances(numbers, balances, out, told),
            Values::Transaction(lists) => {
                ffi::write_transaction(numbers, &as_lent(lists), out, told)
            }
            Values::Block(BlockValues { instance, sequence, rank, count, cut, citations }) => {
                let ids = (*instance, *sequence, *rank);
                ffi::write_block(numbers, ids, *count, cut, citations, out, told)
            }
        }
    }
}

fn as_lent(lists: &Lists) -> TransactionLists<'_> {
    TransactionLists {
        kind: lists.sort,
        counts: [lists.debit_count, lists.credit_count, lists.operation_count],
        payers: &lists.payers,
        debits: &lists.debits,
        payees: &lists.payees,
        credits: &lists.credits,
        codes: &lists.codes,
        registers: &lists.registers,
        values: &lists.values,
    }
}

/// Compares writers with the second engine's at the stages of a run's sheet.
pub fn check(
    run: &[u8],
    random: &mut Random,
    counts: &mut Counts,
    writers: &impl Writers,
) -> Result<(), Difference> {
    let lent = layout::largest();
    let mut walk = Walk { writers, lent, engine: Engine::new(), random, counts };
    walk.moment()?;
    let at = walk.sheet(run)?;
    match walk.engine.ledger() {
        Ok(_) => walk.blocks(run, at),
        Err(_) => Ok(()),
    }
}

/// A sheet on its way.
struct Walk<'a, W> {
    writers: &'a W,
    lent: Lent,
    engine: Engine,
    random: &'a mut Random,
    counts: &'a mut Counts,
}

impl<W: Writers> Walk<'_, W> {
    /// The sheet, as far as it is sound. Gives where it ends.
    fn sheet(&mut self, run: &[u8]) -> Result<usize, Difference> {
        let mut at = 0;
        while let Ok(next) = self.engine.feed(run, at) {
            let loaded = Library.call(&Call::Load(run, at), &mut self.lent);
            same(&loaded, &0, || format!("loading at {at} for the writers"))?;
            at = next;
            if self.is_at_a_moment() {
                self.moment()?;
            }
        }
        Ok(at)
    }

    /// The first blocks: the numbers are others then, what is due is the same.
    fn blocks(&mut self, run: &[u8], mut at: usize) -> Result<(), Difference> {
        for _ in 0..BLOCKS {
            let Ok(slip) = slip_at(run, at) else {
                break;
            };
            if Library.call(&Call::OfferSlip(run, at), &mut self.lent) == 0 {
                self.moment()?;
            }
            at = slip.next;
        }
        Ok(())
    }

    /// Whether the writers are called here: after the header, after the
    /// balances, before and after the last transaction, and at times between.
    fn is_at_a_moment(&mut self) -> bool {
        let Draft::Begun(sheet) = self.engine.draft() else {
            return true;
        };
        let (taken, all) = (sheet.transactions.len(), usize::from(sheet.head.t));
        taken == 0 || taken + 1 >= all || self.random.below(all as u64) < MOMENTS
    }

    /// Which of the four kinds is due.
    fn due(&self) -> usize {
        match self.engine.draft() {
            Draft::Empty => 0,
            Draft::Headed(_) => 1,
            Draft::Begun(sheet) if !sheet.is_complete() => 2,
            Draft::Begun(_) => 3,
        }
    }

    /// Calls of all four writers.
    fn moment(&mut self) -> Result<(), Difference> {
        let head = match self.engine.draft() {
            Draft::Empty => values::sizes(self.random),
            Draft::Headed(head) => *head,
            Draft::Begun(sheet) => sheet.head,
        };
        let kinds = [
            values::headers(self.random),
            values::balances(self.random, head.a.into()),
            transactions::transactions(self.random, &head),
            values::blocks(self.random, head.m.into()),
        ];
        let due = self.due();
        kinds.iter().enumerate().try_for_each(|(kind, list)| self.kind(list, kind == due))
    }

    /// The calls of one writer. If it is not due, the first values, which are
    /// sound, and some of the others.
    fn kind(&mut self, list: &[Values], due: bool) -> Result<(), Difference> {
        for (place, values) in list.iter().enumerate() {
            if due || place == 0 || self.random.chance(NOT_DUE) {
                self.values(values)?;
            }
        }
        Ok(())
    }

    /// The calls with given values: with buffers of every length, and at times
    /// with fewer or more numbers than there have to be.
    fn values(&mut self, values: &Values) -> Result<(), Difference> {
        let written = values.written(self.engine.draft());
        let numbers = self.lent.numbers.to_vec();
        let lengths = match &written {
            Ok(frame) => {
                let longer = frame.len() + 1 + self.random.place(40);
                vec![longer, frame.len(), frame.len() - 1, self.random.place(frame.len()), 0]
            }
            Err(_) => vec![0, self.random.pick(&[1, 5, 13, 22, 106, 112, 8_198])],
        };
        for length in lengths {
            self.call(&numbers, values, &written, length)?;
            if self.random.chance(5) {
                let fewer = &numbers[..self.random.pick(&[0, 6, NUMBERS - 1])];
                self.call(fewer, values, &written, length)?;
                let more = [&numbers[..], &[u16::MAX; 2]].concat();
                self.call(&more, values, &written, length)?;
            }
        }
        Ok(())
    }

    /// One call with a buffer of a length: what it returns, tells and writes.
    fn call(
        &mut self,
        numbers: &[u16],
        values: &Values,
        written: &Written,
        length: usize,
    ) -> Result<(), Difference> {
        self.counts.writes += 1;
        let expected = match numbers.len() {
            ..NUMBERS => Err(Refusal::new(16, NUMBERS)),
            _ => checked::lent(written.clone(), length),
        };
        let mut out = vec![self.random.bits() as u8; length];
        let mut told = vec![u64::MAX; self.random.pick(&[0, 1, 2, 2, 2, 3])];
        let (mut expected_out, mut expected_told) = (out.clone(), told.clone());
        let (number, place) = match expected {
            Ok(frame) => {
                self.counts.written += 1;
                expected_out[..frame.len()].copy_from_slice(&frame);
                (0, frame.len() as u64)
            }
            Err(refusal) => (refusal.number.into(), refusal.place),
        };
        expected_told.iter_mut().zip([place, 0]).for_each(|(told, number)| *told = number);
        let got = (self.writers.write(numbers, values, &mut out, &mut told), told);
        let what = || format!("{} numbers, {length} bytes lent, writing {values:?}", numbers.len());
        same(&got, &(number, expected_told), what)?;
        same(&out, &expected_out, what)
    }
}
