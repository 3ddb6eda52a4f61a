//! The share rounded otherwise than request 05 says.

use crosscheck::engine::ledger;
use crosscheck_library::subject::Readings;
use rugxeni::Settlement;

#[derive(Clone, Copy, Debug, PartialEq)]
pub enum Rounding {
    /// As request 05 says.
    Nearest,
    /// A rest is dropped, as document 01 had it until request 05.
    Down,
    /// A tie goes up, or down, or to the odd figure.
    HalfUp,
    HalfDown,
    HalfToOdd,
    /// In thousandths of one transaction less, 1000 at most.
    OfOneLess,
}

pub const WRONG: [Rounding; 5] = [
    Rounding::Down,
    Rounding::HalfUp,
    Rounding::HalfDown,
    Rounding::HalfToOdd,
    Rounding::OfOneLess,
];

fn figure(rounding: Rounding, settled: u32, all: u32) -> u32 {
    let right = ledger::share(settled, all);
    if all == 0 {
        return right;
    }
    let thousandths = settled * ledger::THOUSANDTHS;
    let lower = thousandths / all;
    let tie = thousandths % all * 2 == all;
    match rounding {
        Rounding::Down => lower,
        Rounding::HalfUp if tie => lower + 1,
        Rounding::HalfDown if tie => lower,
        Rounding::HalfToOdd if tie => lower + 1 - lower % 2,
        Rounding::OfOneLess => ledger::share(settled, settled.max(all - 1)),
        _ => right,
    }
}

/// The share of those settled among the first `counted` transactions.
pub fn share(rounding: Rounding, settlements: &[Settlement], counted: usize) -> u32 {
    let counts = settlements.iter().take(counted);
    let settled = counts.filter(|status| **status != Settlement::Open).count();
    figure(rounding, settled as u32, settlements.len() as u32)
}

/// The readings with a share that is rounded so.
pub fn rounded(rounding: Rounding, readings: &mut Readings) {
    if let Ok(settlements) = &readings.settlements {
        readings.share = Ok(share(rounding, settlements, settlements.len()));
    }
}
