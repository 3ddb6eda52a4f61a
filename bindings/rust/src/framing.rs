//! Where the frames of a run begin and end.

use crate::ffi;
use crate::refusal::{checked, Refusal};

/// The number by which the boundary says that nothing is left, to load or to offer.
pub(crate) const NOTHING_LEFT: u16 = 255;

/// A frame that stands whole at an offset.
#[derive(Clone, Copy, Debug, PartialEq, Eq)]
pub struct Frame {
    /// What it holds: 1 header, 2 balances, 3 transaction, 4 block. Any other number is refused when it is loaded or offered.
    pub kind: u16,
    /// Where the next frame begins.
    pub end: usize,
}

/// The frame at an offset; `None` where no byte is left. Only its length is looked at, not whether it is due nor its body.
///
/// Refusals: 1 or 2, with the offset.
pub fn frame(bytes: &[u8], at: usize) -> Result<Option<Frame>, Refusal> {
    let mut told = [0; 2];
    let code = ffi::frame(bytes, at, &mut told);
    if code == NOTHING_LEFT {
        return Ok(None);
    }
    let [end, kind] = checked(code, told)?;
    Ok(Some(Frame {
        kind: kind as u16,
        end: end as usize,
    }))
}
