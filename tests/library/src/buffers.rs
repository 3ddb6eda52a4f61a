//! One call with buffers that are too short, and what a call leaves alone.

use crosscheck::generate::random::Random;

use crate::boundary::{Boundary, Buffer, Call, Lent, Returned, BUFFERS, TOO_SHORT};
use crate::counts::Counts;
use crate::difference::{same, Difference};

/// A buffer and a length of it.
pub type Length = (Buffer, usize);

/// A call with each buffer in turn one place short, and with no place at all,
/// and with several short at once: 16 with the least length of the first, or
/// what comes `earlier` than 16, and nothing is changed.
pub fn short(
    boundary: &impl Boundary,
    call: &Call,
    needs: &[Length],
    earlier: Option<Returned>,
    lent: &mut Lent,
    random: &mut Random,
    counts: &mut Counts,
) -> Result<(), Difference> {
    let mut before = lent.clone();
    let needs: Vec<Length> = needs.iter().copied().filter(|need| need.1 > 0).collect();
    for lengths in shortened(&needs, random) {
        counts.short += 1;
        lengths.iter().for_each(|(buffer, length)| lent.shorten(*buffer, *length));
        let first = needs.iter().find(|(buffer, _)| *buffer == lengths[0].0);
        let least = first.map_or(0, |(_, least)| *least as u64);
        let what = || format!("{call:?} with {lengths:?}");
        let expected = earlier.unwrap_or((TOO_SHORT, [least, 0]));
        same(&boundary.returned(call, lent), &expected, what)?;
        unchanged(lent, &mut before).map_err(|text| format!("{} {text}", what()))?;
        lengths.iter().for_each(|(buffer, _)| lent.restore(*buffer, &mut before));
    }
    Ok(())
}

/// The buffers that are shortened at once, and to what, in the call's order.
fn shortened(needs: &[Length], random: &mut Random) -> Vec<Vec<Length>> {
    let one = |(buffer, least): &Length| [vec![(*buffer, 0)], vec![(*buffer, least - 1)]];
    let mut shortened: Vec<Vec<Length>> = needs.iter().flat_map(one).collect();
    shortened.extend((0..3).map(|_| {
        let mut several = needs.to_vec();
        several.retain(|_| random.chance(60));
        several.iter_mut().for_each(|(_, length)| *length = random.place(*length));
        several
    }));
    shortened.retain(|lengths| !lengths.is_empty());
    shortened
}

/// Nothing but what is told has changed; buffers may be shorter.
pub fn unchanged(lent: &mut Lent, before: &mut Lent) -> Result<(), Difference> {
    same(&lent.numbers, &before.numbers, || "left the numbers".to_string())?;
    match BUFFERS.iter().find(|buffer| !lent.begins(**buffer, before)) {
        Some(buffer) => Err(format!("changed {buffer:?}")),
        None => Ok(()),
    }
}

/// What lies behind the least lengths was left alone.
pub fn guarded(call: &Call, sizes: &[Length], lent: &mut Lent) -> Result<(), Difference> {
    match sizes.iter().find(|(buffer, least)| !lent.is_guarded(*buffer, *least)) {
        Some((buffer, _)) => Err(format!("{call:?} wrote behind the least length of {buffer:?}")),
        None => Ok(()),
    }
}
