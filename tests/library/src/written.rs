//! Runs that were written are read back: a generated sheet and blocks on it, one
//! frame after the other by the library's writers. The numbers go on as each
//! frame of the sheet is loaded. The bytes are those of the second engine, and
//! so is the text of the whole.

use crosscheck::engine::write::checked::Lists;
use crosscheck::generate::random::Random;
use crosscheck::generate::{self, bounds, Run, Size};
use rugxeni::ffi::LONGEST_FRAME;

use crate::boundary::{Boundary, Call, Lent};
use crate::counts::Counts;
use crate::difference::{same, Difference};
use crate::reports;
use crate::writers::{BlockValues, Values, Writers};

/// Writes a run of a seed's numbers, and reads it back.
pub fn check(
    random: &mut Random,
    counts: &mut Counts,
    library: &(impl Boundary + Writers),
    lent: &mut Lent,
) -> Result<(), Difference> {
    counts.read_back += 1;
    let run = any_run(random);
    let mut bytes = Vec::new();
    lent.numbers = [0; 22];
    let frames = run.slips();
    for (place, (values, frame)) in values(&run).iter().zip(&frames).enumerate() {
        let (mut out, mut told) = ([0; LONGEST_FRAME], [0; 2]);
        let number = library.write(&lent.numbers, values, &mut out, &mut told);
        let what = || format!("frame {place} of {:?}, written", run.sheet.head);
        same(&(number, told), &(0, [frame.len() as u64, 0]), what)?;
        let written = &out[..frame.len()];
        same(written, frame, what)?;
        if place < 2 + run.sheet.transactions.len() {
            let loaded = library.returned(&Call::Load(written, 0), lent);
            let what = || format!("frame {place} of {:?}, loaded", run.sheet.head);
            same(&loaded, &(0, [frame.len() as u64, 0]), what)?;
        }
        bytes.extend_from_slice(written);
    }
    reports::text(&bytes, counts, library, lent).map_err(|text| format!("written, {text}"))
}

/// Mostly small ones; at times one that hangs on the last place of every list.
fn any_run(random: &mut Random) -> Run {
    let noise = random.pick(&[0, 20, 50]);
    match random.below(20) {
        0 => bounds::run(random),
        1..3 => generate::run(random, Size::Medium, noise),
        3..10 => generate::run(random, Size::Small, noise),
        _ => generate::run(random, Size::Tiny, noise),
    }
}

/// The values of a run's frames, one by one.
fn values(run: &Run) -> Vec<Values> {
    let sheet = &run.sheet;
    let mut values = vec![Values::Header(sheet.head), Values::Balances(sheet.starts.clone())];
    values.extend(sheet.transactions.iter().map(|one| Values::Transaction(Lists::of(one))));
    values.extend(run.offers.iter().map(|block| Values::Block(BlockValues::of(block))));
    values
}
