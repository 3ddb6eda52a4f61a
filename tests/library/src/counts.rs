//! What was compared, for the closing line.

use std::fmt::{self, Display};

/// What was compared.
#[derive(Clone, Copy, Debug, Default, PartialEq, Eq)]
pub struct Counts {
    /// Runs, and those of them whose sheet was complete.
    pub runs: u64,
    pub complete: u64,
    /// Slips of sheets.
    pub sheet_slips: u64,
    /// Offers, as slips and as values, and those of them that were accepted.
    pub slips: u64,
    pub values: u64,
    pub accepted: u64,
    /// Times that all five readings were compared.
    pub readings: u64,
    /// Runs delivered again in another order.
    pub replays: u64,
    /// Calls with a short buffer, and with longer ones than there have to be.
    pub short: u64,
    pub lent: u64,
    /// Calls of writers, and those of them that wrote a frame.
    pub writes: u64,
    pub written: u64,
    /// Runs that were written frame by frame and read back.
    pub read_back: u64,
    /// Texts of runs, and frames looked for.
    pub texts: u64,
    pub frames: u64,
}

impl Display for Counts {
    fn fmt(&self, out: &mut fmt::Formatter<'_>) -> fmt::Result {
        write!(
            out,
            "{} runs ({} with a complete sheet, {} sheet slips), {} offers as slips and {} as values \
             ({} accepted), {} times all readings, {} replays, {} calls with short buffers and {} with \
             longer ones, {} calls of writers ({} wrote a frame), {} runs written and read back, {} texts, \
             {} frames looked for",
            self.runs,
            self.complete,
            self.sheet_slips,
            self.slips,
            self.values,
            self.accepted,
            self.readings,
            self.replays,
            self.short,
            self.lent,
            self.writes,
            self.written,
            self.read_back,
            self.texts,
            self.frames
        )
    }
}
