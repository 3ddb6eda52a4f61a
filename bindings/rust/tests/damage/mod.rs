//! Runs that are written with any values, and damage to runs. What comes out depends on the seed alone.

mod random;
mod written;

pub use random::Random;
pub use written::written;

use rugxeni::{frame, Ledger};
use std::ops::Range;

/// Numbers at which something changes.
const EDGES: [u8; 8] = [0, 1, 2, 4, 16, 32, 33, 255];

/// A run to be damaged.
pub struct Sound {
    pub run: Vec<u8>,
    /// The frames of the sheet, and those of the blocks.
    parts: [Vec<Range<usize>>; 2],
}

impl Sound {
    pub fn new(run: Vec<u8>) -> Sound {
        let blocks = Ledger::load(&run).map_or(run.len(), |(_, at)| at);
        let mut frames = Vec::new();
        let mut at = 0;
        while let Ok(Some(found)) = frame(&run, at) {
            frames.push(at..found.end);
            at = found.end;
        }
        let parts = frames.into_iter().partition(|frame| frame.start < blocks);
        Sound {
            run,
            parts: parts.into(),
        }
    }

    /// A frame; three times in four a block's.
    fn frame(&self, random: &mut Random) -> Range<usize> {
        let [sheet, blocks] = &self.parts;
        let of_block = !blocks.is_empty() && random.below(4) > 0;
        random.pick(if of_block { blocks } else { sheet }).clone()
    }

    /// The run with one damage or two.
    pub fn damaged(&self, random: &mut Random) -> Vec<u8> {
        let mut run = self.run.clone();
        for _ in 0..=random.below(4) / 3 {
            let frame = self.frame(random);
            let end = run.len();
            damage(random, &mut run, frame.start.min(end)..frame.end.min(end));
        }
        run
    }
}

/// Damages a frame of a run; it may be empty, where the run was cut off before.
fn damage(random: &mut Random, run: &mut Vec<u8>, frame: Range<usize>) {
    let place = random.within(frame.clone());
    match random.below(10) {
        0 => run.truncate(place),
        1 => run.extend((0..=random.below(20)).map(|_| random.byte())),
        2 => {
            run.drain(frame);
        }
        3 => {
            let again = run[frame].to_vec();
            run.splice(place..place, again);
        }
        4 => {
            let again = run[frame.clone()].to_vec();
            run.splice(frame.start..frame.start, again);
        }
        5 => {
            let byte = random.byte();
            run.insert(place, byte);
        }
        6 => put(run, frame.start, length(random, frame.len())),
        7 => put(run, place, *random.pick(&EDGES)),
        8 => put(run, place, random.byte()),
        _ => {
            let by = random.byte() % 7;
            let byte = run
                .get(place)
                .map_or(0, |byte| byte.wrapping_add(by).wrapping_sub(3));
            put(run, place, byte);
        }
    }
}

/// The lowest byte of a length field: near the right one, or any.
fn length(random: &mut Random, frame: usize) -> u8 {
    let near = (frame as u8).wrapping_sub(4);
    match random.below(3) {
        0 => near.wrapping_add(1),
        1 => near.wrapping_sub(1),
        _ => random.byte(),
    }
}

/// Changes a byte, if it is there.
fn put(run: &mut [u8], place: usize, byte: u8) {
    if let Some(found) = run.get_mut(place) {
        *found = byte;
    }
}
