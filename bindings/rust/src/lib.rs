//! A safe wrapper of the proved ledger reader.
//!
//! A recorded run is a *sheet* (sizes, starting balances, transactions) and the blocks that each consensus instance
//! delivered, each in a *frame*: a 4-byte length, then a kind and a body (`docs/FORMAT.md`). [`read`] reads a whole run,
//! [`text`] gives its reading as `readrun` prints it, a [`Reader`] does both for many runs, a [`RunWriter`] writes one. A
//! [`Ledger`] is loaded with a sheet, is offered blocks one by one, and gives readings of what it accepted. What the
//! answers and readings are is laid down in the project's specification, *document 01*; the library's functions are
//! proved to give just that. This wrapper adds memory and types, and decides nothing.
//!
//! ```
//! use rugxeni::{read, text, Account, Answer, Block, RunWriter, Sizes};
//!
//! let mut writer = RunWriter::new();
//! writer.header(Sizes { instances: 1, accounts: 1, registers: 0, transactions: 0 })?;
//! writer.balances(&[5])?;
//! writer.block(&Block { instance: 0, sequence: 1, rank: 9, cut: [0; 16], citations: vec![] })?;
//! let run = writer.into_bytes();
//!
//! let reading = read(&run)?;
//! assert_eq!(reading.answers, [Answer::Accepted { instance: 0, sequence: 1 }]);
//! assert_eq!(reading.log, [(0, 1)]);
//! assert_eq!(reading.accounts, [Account { free: 5, held: 0 }]);
//! assert_eq!(text(&run), "run 1 1 0 0\nok 0 1\nlog 0 1\naccount 0 5 0\nshare 1000\n");
//!
//! let refusal = read(&run[..run.len() - 1]).unwrap_err();
//! assert_eq!(refusal.to_string(), "refusal 1, place 28: the bytes end too early");
//! # Ok::<(), rugxeni::Refusal>(())
//! ```
//!
//! # Order and refusals
//!
//! Readings depend on the accepted blocks of each instance alone, not on how the instances interleaved nor on refused
//! offers between them. A refused call changes nothing. [`Refusal`] has the numbers and what stands in its place. No bytes
//! and no values make a call panic.
//!
//! # Memory
//!
//! The library owns none. A [`Ledger`] lends it buffers, sized by the header of the sheet: at most 394,240 bytes, and
//! always as long as a call asks, so that refusal 16 does not occur with it. [`text`] lends 656,384 bytes, whatever the
//! run. [`ffi`] has the same calls for a caller that lends its own.

#![deny(unsafe_code)]
#![warn(missing_docs)]

pub mod ffi;
mod framing;
mod ledger;
mod reading;
mod refusal;
mod values;
mod writing;

pub use framing::{frame, Frame};
pub use ledger::Ledger;
pub use reading::{read, text, Reader, Reading};
pub use refusal::Refusal;
pub use values::{
    Account, Answer, Block, Code, Entry, Kind, Loading, Offer, Operation, Settlement, Sizes,
    Transaction,
};
pub use writing::RunWriter;

/// The listings of the README are run as tests.
#[cfg(doctest)]
#[doc = include_str!("../README.md")]
struct Readme;
