//! Crosscheck: the second engine, and the runs to try an engine with.
//!
//! The engine here reads a recorded run straight from the text of the scope
//! paper ("document 01"), as the requests of document 02 have changed it, and
//! shares no code with the proved library. It is kept plain on purpose: whoever
//! doubts a reading should be able to hold a file of this package beside the
//! papers and follow both.
//!
//! * [`engine`] — the second engine: slips, sheet, plain ledger, rules, text.
//! * [`generate`] — seeded runs of every size, sound, noisy and damaged.
//! * [`replay`] — the same instance logs, delivered in another order.
//! * [`cases`] — named runs with the text that the paper gives for them.
//! * [`records`] — what `records_run` prints, taken from a reading.
//! * [`examples`] — the runs that ship in `examples/`.
//! * [`stored`] — the runs that the program `stored_runs` reads in the gate.
//! * [`compare`] — another program's readings against the second engine's.
//! * [`timing`] — how long a program takes for the largest run that it reads.

pub mod cases;
pub mod compare;
pub mod engine;
pub mod examples;
pub mod generate;
pub mod records;
pub mod replay;
pub mod stored;
pub mod timing;

pub use engine::reading;
