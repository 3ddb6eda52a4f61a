//! The text of a run by one call, and the frames of it.
//!
//! * The text is the second engine's, byte for byte, whatever the buffers hold
//!   before; what lies behind their least lengths is left alone.
//! * With a buffer that is too short there is no text, and nothing is written.
//! * A frame is found, or not, at every offset as the second engine does.

use crosscheck::engine::format::slip_at;
use crosscheck::engine::Head;
use crosscheck::generate::random::Random;

use crate::boundary::{Boundary, Call, Lent, Returned, NOTHING_LEFT};
use crate::buffers::{self, Length};
use crate::counts::Counts;
use crate::difference::{same, Difference};
use crate::layout::needs;

/// Of so many runs in a hundred the text is asked for with short buffers, too.
const SHORT: u64 = 20;

/// A run of at most so many bytes is looked for frames at every offset; of a
/// longer one at so many.
const EVERY_OFFSET: usize = 1_500;
const OFFSETS: usize = 200;

/// The greatest length that a frame's first four bytes say.
const GREATEST: usize = 8_194;

/// Compares the text of a run, and its frames. The buffers may hold anything.
pub fn check(
    run: &[u8],
    random: &mut Random,
    counts: &mut Counts,
    boundary: &impl Boundary,
    lent: &mut Lent,
) -> Result<(), Difference> {
    let call = Call::Report(run);
    let sizes = sizes();
    for (buffer, least) in &sizes {
        lent.lengthen(*buffer, *least, 0);
        if random.chance(50) {
            lent.fill(*buffer, random.pick(&[0, 1, 2, 255]));
        }
        lent.lengthen(*buffer, *least, random.pick(&[0, 1, 3]));
    }
    if random.chance(SHORT) {
        buffers::short(boundary, &call, &sizes, None, lent, random, counts)?;
    }
    text(run, counts, boundary, lent)?;
    frames(run, random, counts, boundary)?;
    frames(&one_frame(random), random, counts, boundary)
}

fn sizes() -> Vec<Length> {
    needs(&Call::Report(&[]), &Head { m: 0, a: 0, g: 0, t: 0 }, 0)
}

/// The text of a run. The buffers suffice.
pub fn text(
    run: &[u8],
    counts: &mut Counts,
    boundary: &impl Boundary,
    lent: &mut Lent,
) -> Result<(), Difference> {
    counts.texts += 1;
    let call = Call::Report(run);
    let expected = crosscheck::reading(run);
    let returned = boundary.returned(&call, lent);
    same(&returned, &(0, [expected.len() as u64, 0]), || format!("{call:?}"))?;
    let as_text = |bytes: &[u8]| String::from_utf8_lossy(bytes).into_owned();
    same(&as_text(&lent.out[..expected.len()]), &as_text(&expected), || format!("{call:?}"))?;
    buffers::guarded(&call, &sizes(), lent)
}

/// What stands at the offsets of some bytes, and behind them.
fn frames(
    bytes: &[u8],
    random: &mut Random,
    counts: &mut Counts,
    boundary: &impl Boundary,
) -> Result<(), Difference> {
    let length = bytes.len();
    let mut offsets: Vec<usize> = match length {
        ..=EVERY_OFFSET => (0..length).collect(),
        _ => (0..OFFSETS).map(|_| random.place(length)).collect(),
    };
    offsets.extend([0, length.max(4) - 4, length, length + 1, usize::MAX]);
    let mut lent = Lent::default();
    for at in offsets {
        counts.frames += 1;
        let call = Call::Frame(bytes, at);
        same(&boundary.returned(&call, &mut lent), &framed(bytes, at), || format!("{call:?}"))?;
    }
    Ok(())
}

/// What the second engine finds at an offset.
fn framed(bytes: &[u8], at: usize) -> Returned {
    if at >= bytes.len() {
        return (NOTHING_LEFT, [0, 0]);
    }
    match slip_at(bytes, at) {
        Ok(slip) => (0, [slip.next as u64, slip.kind.into()]),
        Err(refusal) => (refusal.number.into(), [refusal.place, 0]),
    }
}

/// A frame whose length is at a limit or next to it, of any kind, with as many
/// bytes as it needs or next to it.
fn one_frame(random: &mut Random) -> Vec<u8> {
    let length = random.pick(&[0, 1, 2, 3, 4, GREATEST - 1, GREATEST, GREATEST + 1, 65_538]);
    let missing = random.pick(&[0, 0, 1, 2]);
    let mut bytes = (length as u32).to_le_bytes().to_vec();
    if random.chance(5) {
        // More than two bytes of the length count.
        bytes[3] = 1;
    }
    bytes.extend((0..length + 1 - missing.min(length + 1)).map(|_| random.bits() as u8));
    bytes
}
