//! The buffers that a ledger lends, and the most that any call asks.

/// m, a, g and t of the largest sheet. [`report`](super::report) asks for buffers that hold it, whatever the run.
pub const LARGEST: [u16; 4] = [16, 1_024, 64, 1_024];

/// What [`report`](super::report) asks of `out`; no text is longer.
pub const LONGEST_TEXT: usize = 262_144;

/// No writer asks more of `out`: a frame with 1,024 balances.
pub const LONGEST_FRAME: usize = 8_198;

/// What a ledger keeps from call to call.
#[derive(Clone, Debug, Default, PartialEq)]
pub struct Kept {
    /// Balances, then the bodies of the transactions.
    pub sheet: Vec<u8>,
    /// The rank of every block.
    pub ranks: Vec<u32>,
    /// The cut of every block, sixteen entries each.
    pub cuts: Vec<u16>,
    /// The citations of every block, 32 places each.
    pub cites: Vec<u16>,
    /// Which of them book a good part.
    pub good: Vec<u8>,
}

/// Working space: what it holds between calls means nothing.
#[derive(Clone, Debug, Default, PartialEq)]
pub struct Working {
    /// For every transaction its citations, and those that failed.
    pub counts: Vec<u32>,
    /// What every transaction is.
    pub table: Vec<u8>,
    /// A global log.
    pub order: Vec<u16>,
}

impl Kept {
    /// As long as a sheet with these m, a, g and t asks (`docs/BUFFERS.md`).
    pub fn new(sizes: [u16; 4]) -> Kept {
        let mut kept = Kept::default();
        kept.lend(sizes);
        kept
    }

    /// Makes them at least as long. What they held may be lost: a ledger with these sizes holds nothing yet.
    pub(crate) fn lend(&mut self, sizes: [u16; 4]) {
        let [m, a, _, t] = sizes.map(usize::from);
        lengthen(&mut self.sheet, 8 * a + 100 * t);
        lengthen(&mut self.ranks, 128 * m);
        lengthen(&mut self.cuts, 2_048 * m);
        lengthen(&mut self.cites, 4_096 * m);
        lengthen(&mut self.good, 4_096 * m);
    }

    /// The bytes of all five.
    pub fn bytes(&self) -> usize {
        size_of_val(&self.sheet[..])
            + size_of_val(&self.ranks[..])
            + size_of_val(&self.cuts[..])
            + size_of_val(&self.cites[..])
            + size_of_val(&self.good[..])
    }
}

impl Working {
    /// As long as a sheet with these m, a, g and t asks.
    pub fn new(sizes: [u16; 4]) -> Working {
        let mut working = Working::default();
        working.lend(sizes);
        working
    }

    /// Makes them at least as long.
    pub(crate) fn lend(&mut self, sizes: [u16; 4]) {
        let [m, _, _, t] = sizes.map(usize::from);
        lengthen(&mut self.counts, 2 * t);
        lengthen(&mut self.table, t);
        lengthen(&mut self.order, 128 * m);
    }

    /// The bytes of all three.
    pub fn bytes(&self) -> usize {
        size_of_val(&self.counts[..]) + size_of_val(&self.table[..]) + size_of_val(&self.order[..])
    }
}

/// Where a buffer is too short a new one takes its place, which costs less than to keep what it held.
fn lengthen<T: Clone + Default>(buffer: &mut Vec<T>, least: usize) {
    if buffer.len() < least {
        *buffer = vec![T::default(); least];
    }
}
