//! Why a call was turned away.

use std::error::Error;
use std::fmt;

/// Refusals up to this one end a run's reading.
const LAST_THAT_ENDS: u16 = 7;

/// Why a call was turned away: a number of document 01's table, and a place.
///
/// | Number | Given when | Place |
/// |---|---|---|
/// | 1 | the bytes end before the frame does, or before the sheet is complete | the frame's offset |
/// | 2 | a frame's length is not 2 to 8,194 | the frame's offset |
/// | 3 | the kind is unknown or not due; a reading or a block's values come before the sheet is complete | the frame's offset, else 0 |
/// | 4 | the body has another length than its kind and counts say | the frame's offset |
/// | 5 | a field of the sheet is out of range; a block has more than 32 citations; in values, an unused cut entry is not 0 | the frame's offset, 0 for values |
/// | 6 | an account stands twice in the debits, or twice in the credits | the frame's offset |
/// | 7 | debits and credits differ in sum | the frame's offset |
/// | 8 | the instance is not on the sheet | 0 |
/// | 9 | the sequence number is not the one due | the number due |
/// | 10 | the rank is 0 or not above the instance's last | that last rank, 0 if none |
/// | 11 | the cut's own entry is not the sequence number − 1, or an entry is below that of the instance's block before | the entry |
/// | 12 | a cut entry exceeds the blocks accepted of its instance | the entry |
/// | 13 | a citation's transaction is not on the sheet | its place in the list |
/// | 14 | it has no part in this instance | its place in the list |
/// | 15 | this instance has cited it already | its place in the list |
/// | 16 | a lent buffer is too short (with [`ffi`](crate::ffi) alone) | the least length |
/// | 17 | the instance has 128 blocks | 0 |
#[derive(Clone, Copy, Debug, PartialEq, Eq)]
pub struct Refusal {
    /// The number in the table.
    pub number: u16,
    /// An offset, an entry, a list place or a count, as the table says.
    pub place: u64,
}

impl Refusal {
    /// Whether a run's reading ends with it: 1 to 7 do, after the others the next block may follow.
    pub fn ends_reading(&self) -> bool {
        self.number <= LAST_THAT_ENDS
    }
}

impl fmt::Display for Refusal {
    fn fmt(&self, out: &mut fmt::Formatter<'_>) -> fmt::Result {
        let reason = match self.number {
            1 => "the bytes end too early",
            2 => "length of a frame out of range",
            3 => "kind unknown or not due",
            4 => "body of the wrong length",
            5 => "field out of range",
            6 => "account named twice",
            7 => "debits and credits differ",
            8 => "no such instance",
            9 => "sequence number not the one due",
            10 => "rank not above the last",
            11 => "cut entry falls, or own entry wrong",
            12 => "cut entry not covered",
            13 => "no such transaction",
            14 => "no part in this instance",
            15 => "cited already",
            16 => "buffer too short",
            17 => "instance is full",
            _ => "not in the table",
        };
        write!(
            out,
            "refusal {}, place {}: {reason}",
            self.number, self.place
        )
    }
}

impl Error for Refusal {}

/// What a call told, or the refusal whose number it returned.
pub(crate) fn checked(code: u16, told: [u64; 2]) -> Result<[u64; 2], Refusal> {
    match code {
        0 => Ok(told),
        number => Err(Refusal {
            number,
            place: told[0],
        }),
    }
}
