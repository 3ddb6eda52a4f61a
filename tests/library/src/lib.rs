//! The static library against the second engine, call by call.
//!
//! The library is proved; the second engine is written from the scope paper
//! ("document 01") alone. Whatever differs is a fault in one of the two, or a
//! sentence that was read in two ways.
//!
//! * [`subject`] — the calls that are compared, of the library and of others;
//! * [`expect`] — the second engine's answers and readings, in the same types;
//! * [`check`] — the comparisons of one run;
//! * [`boundary`] — the same calls with the buffers that they are lent;
//! * [`lengths`] — refusal 16, and buffers longer than they have to be;
//! * [`layout`] — how long the lent buffers have to be, and what they hold;
//! * [`buffers`] — one call with buffers that are too short;
//! * [`writers`] — the four writers, call by call;
//! * [`written`] — runs that were written, read back;
//! * [`reports`] — the text of a run by one call, and its frames;
//! * [`counts`], [`difference`] — what was compared, and what differs.

pub mod boundary;
pub mod buffers;
pub mod check;
pub mod counts;
pub mod difference;
pub mod expect;
pub mod layout;
pub mod lengths;
pub mod reports;
pub mod subject;
pub mod writers;
pub mod written;

pub use check::check;
pub use counts::Counts;
pub use subject::Subject;

use crosscheck::generate::{self, random::Random, Size};

/// Every so many seeds one stands for a largest run, which `crosscheck` does
/// not generate: it has more bytes than `readrun` takes.
const LARGEST: u64 = 500;

/// The bytes that a seed stands for: those of `crosscheck gen`, but for the
/// largest runs.
pub fn bytes(seed: u64) -> Vec<u8> {
    if seed.is_multiple_of(LARGEST) {
        let mut random = Random::new(seed);
        let noise = random.pick(&[0, 10]);
        return generate::run(&mut random, Size::Largest, noise).bytes();
    }
    generate::bytes(seed)
}

/// Numbers for a comparison on a seed's run: others than those that it is made
/// of.
pub fn numbers(seed: u64) -> Random {
    Random::new(!seed)
}
