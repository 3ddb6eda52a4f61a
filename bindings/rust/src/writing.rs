//! A run, written frame by frame.

use crate::ffi::{self, TransactionLists, LONGEST_FRAME};
use crate::refusal::{checked, Refusal};
use crate::{Block, Ledger, Sizes, Transaction};

/// Writes a run: its header, its balances, as many transactions as the header says, then blocks.
///
/// Each call appends one frame. One that is not due gives refusal 3, and what [`read`](crate::read) would refuse with 4 to 7
/// is refused here, all with place 0; a refused call leaves the run as it was. Whether a ledger accepts a block is not
/// looked at: such blocks are part of recorded runs.
#[derive(Clone, Debug)]
pub struct RunWriter {
    /// Has the sheet so far: the library knows by its numbers what is due.
    ledger: Ledger,
    run: Vec<u8>,
    /// The frame that is being written.
    out: Vec<u8>,
}

impl Default for RunWriter {
    fn default() -> RunWriter {
        RunWriter::new()
    }
}

impl RunWriter {
    /// A run without a byte: its header is due.
    pub fn new() -> RunWriter {
        RunWriter {
            ledger: Ledger::new(),
            run: Vec::new(),
            out: vec![0; LONGEST_FRAME],
        }
    }

    /// Appends the header. Refusals: 3; 5 where a size is out of range.
    pub fn header(&mut self, sizes: Sizes) -> Result<(), Refusal> {
        self.append_to_sheet(|numbers, out, told| {
            ffi::write_header(numbers, sizes.in_order(), out, told)
        })
    }

    /// Appends the balances with which the accounts start. Refusals: 3; 4 where there are more or fewer than accounts; 5
    /// where one is above 2^40.
    pub fn balances(&mut self, balances: &[u64]) -> Result<(), Refusal> {
        self.append_to_sheet(|numbers, out, told| ffi::write_balances(numbers, balances, out, told))
    }

    /// Appends the next transaction. Refusals: 3; 4 where a list has more than 255 elements, for which a frame has no count;
    /// 5 where a field or a count is out of range; 6; 7.
    pub fn transaction(&mut self, transaction: &Transaction) -> Result<(), Refusal> {
        let Transaction {
            kind,
            debits,
            credits,
            operations,
        } = transaction;
        let entries = |entry: &crate::Entry| (entry.account, entry.amount);
        let (payers, debits): (Vec<_>, Vec<_>) = debits.iter().map(entries).unzip();
        let (payees, credits): (Vec<_>, Vec<_>) = credits.iter().map(entries).unzip();
        let (codes, (registers, values)): (Vec<_>, (Vec<_>, Vec<_>)) = operations
            .iter()
            .map(|operation| (operation.code as u8, (operation.register, operation.value)))
            .unzip();
        let lists = TransactionLists {
            kind: *kind as u8,
            counts: [debits.len(), credits.len(), codes.len()]
                .map(|length| u8::try_from(length).unwrap_or(u8::MAX)),
            payers: &payers,
            debits: &debits,
            payees: &payees,
            credits: &credits,
            codes: &codes,
            registers: &registers,
            values: &values,
        };
        self.append_to_sheet(|numbers, out, told| {
            ffi::write_transaction(numbers, &lists, out, told)
        })
    }

    /// Appends a block. Refusals: 3 before the sheet is complete; 5 where it has more than 32 citations (4 for more than
    /// 65,535, for which a frame has no count), or where a cut entry beyond the sheet's instances is not 0.
    pub fn block(&mut self, block: &Block) -> Result<(), Refusal> {
        let ids = (block.instance, block.sequence, block.rank);
        let count = u16::try_from(block.citations.len()).unwrap_or(u16::MAX);
        let length = self.write(|numbers, out, told| {
            ffi::write_block(numbers, ids, count, &block.cut, &block.citations, out, told)
        })?;
        self.run.extend_from_slice(&self.out[..length]);
        Ok(())
    }

    /// The run so far. Until the sheet is complete [`read`](crate::read) refuses it with 1.
    pub fn bytes(&self) -> &[u8] {
        &self.run
    }

    /// The run so far, as [`RunWriter::bytes`].
    pub fn into_bytes(self) -> Vec<u8> {
        self.run
    }

    /// Writes a frame of the sheet, and loads it so that the next is due.
    fn append_to_sheet(
        &mut self,
        call: impl FnOnce(&[u16], &mut [u8], &mut [u64]) -> u16,
    ) -> Result<(), Refusal> {
        let length = self.write(call)?;
        let frame = &self.out[..length];
        self.ledger.load_frame(frame, 0)?;
        self.run.extend_from_slice(frame);
        Ok(())
    }

    /// Writes a frame to the front of `out`, and gives its length.
    fn write(
        &mut self,
        call: impl FnOnce(&[u16], &mut [u8], &mut [u64]) -> u16,
    ) -> Result<usize, Refusal> {
        let mut told = [0; 2];
        let code = call(&self.ledger.numbers, &mut self.out, &mut told);
        let [length, _] = checked(code, told)?;
        Ok(length as usize)
    }
}
