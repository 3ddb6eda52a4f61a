//! The library's own calls, with buffers that the caller lends.

use std::fmt;

use crosscheck::engine::Block;
use rugxeni::ffi::{self, Kept, Working};

/// The buffers by the names of `docs/BUFFERS.md` (but for the log's numbers,
/// which are sequence numbers).
#[derive(Clone, Copy, Debug, PartialEq, Eq)]
pub enum Buffer {
    Sheet,
    Ranks,
    Cuts,
    Cites,
    Good,
    Counts,
    Table,
    Order,
    Free,
    Held,
    Values,
    Statuses,
    Instances,
    Sequences,
    Out,
}

pub const BUFFERS: [Buffer; 15] = [
    Buffer::Sheet,
    Buffer::Ranks,
    Buffer::Cuts,
    Buffer::Cites,
    Buffer::Good,
    Buffer::Counts,
    Buffer::Table,
    Buffer::Order,
    Buffer::Free,
    Buffer::Held,
    Buffer::Values,
    Buffer::Statuses,
    Buffer::Instances,
    Buffer::Sequences,
    Buffer::Out,
];

/// A call, with all that is not lent.
#[derive(Clone, Copy)]
pub enum Call<'a> {
    Load(&'a [u8], usize),
    OfferSlip(&'a [u8], usize),
    OfferValues(&'a Block),
    Accounts,
    Registers,
    Settlements,
    Share,
    Log,
    Frame(&'a [u8], usize),
    Report(&'a [u8]),
}

pub const READINGS: [Call<'static>; 5] =
    [Call::Accounts, Call::Registers, Call::Settlements, Call::Share, Call::Log];

/// Without the bytes, which are those of the run.
impl fmt::Debug for Call<'_> {
    fn fmt(&self, out: &mut fmt::Formatter<'_>) -> fmt::Result {
        match self {
            Call::Load(_, at) => write!(out, "loading at {at}"),
            Call::OfferSlip(_, at) => write!(out, "the slip at {at}"),
            Call::OfferValues(block) => write!(out, "the values {block:?}"),
            Call::Accounts => write!(out, "accounts"),
            Call::Registers => write!(out, "registers"),
            Call::Settlements => write!(out, "settlements"),
            Call::Share => write!(out, "share"),
            Call::Log => write!(out, "log"),
            Call::Frame(bytes, at) => write!(out, "the frame at {at} of {} bytes", bytes.len()),
            Call::Report(_) => write!(out, "report"),
        }
    }
}

/// Everything that some call lends: the ledger's 22 numbers, what it keeps,
/// working space, what readings fill, a text, and the two numbers that are told.
#[derive(Clone, Debug, Default, PartialEq)]
pub struct Lent {
    pub numbers: [u16; 22],
    pub kept: Kept,
    pub working: Working,
    pub free: Vec<u64>,
    pub held: Vec<u64>,
    pub values: Vec<u32>,
    pub statuses: Vec<u8>,
    pub instances: Vec<u16>,
    pub sequences: Vec<u16>,
    pub out: Vec<u8>,
    pub told: [u64; 2],
}

/// The number that a call returns, and what it tells.
pub type Returned = (u16, [u64; 2]);

/// Nothing left, to load, to offer, or to be framed.
pub const NOTHING_LEFT: u16 = 255;
pub const TOO_SHORT: u16 = 16;

/// Anything that answers these calls as the static library does.
pub trait Boundary {
    fn call(&self, call: &Call, lent: &mut Lent) -> u16;

    /// The same, with what it tells. Nothing of it is there before.
    fn returned(&self, call: &Call, lent: &mut Lent) -> Returned {
        lent.told = [u64::MAX; 2];
        let number = self.call(call, lent);
        (number, lent.told)
    }
}

/// The static library.
pub struct Library;

impl Boundary for Library {
    fn call(&self, call: &Call, lent: &mut Lent) -> u16 {
        let Lent { numbers, kept, working, told, .. } = lent;
        match call {
            Call::Load(run, at) => ffi::load(numbers, run, *at, &mut kept.sheet, told),
            Call::OfferSlip(bytes, at) => {
                ffi::offer_frame(numbers, kept, working, bytes, *at, told)
            }
            Call::OfferValues(block) => {
                let Block { instance, number, rank, cut, citations } = block;
                let ids = (*instance, *number, *rank);
                ffi::offer_block(numbers, kept, working, ids, cut, citations, told)
            }
            Call::Accounts => {
                ffi::accounts(numbers, kept, working, &mut lent.free, &mut lent.held, told)
            }
            Call::Registers => ffi::registers(numbers, kept, working, &mut lent.values, told),
            Call::Settlements => ffi::settlements(numbers, kept, working, &mut lent.statuses, told),
            Call::Share => ffi::share(numbers, kept, working, told),
            Call::Log => {
                let (instances, sequences) = (&mut lent.instances, &mut lent.sequences);
                ffi::log(numbers, &kept.ranks, instances, sequences, told)
            }
            Call::Frame(bytes, at) => ffi::frame(bytes, *at, told),
            Call::Report(run) => ffi::report(run, kept, working, &mut lent.out, told),
        }
    }
}

/// What is put behind the least length of a buffer.
const GUARD: u8 = 77;

/// The places of a buffer, whatever they are.
enum Places<'a> {
    U8(&'a mut Vec<u8>),
    U16(&'a mut Vec<u16>),
    U32(&'a mut Vec<u32>),
    U64(&'a mut Vec<u64>),
}

/// The same for places of every width.
macro_rules! each {
    ($places:expr, $list:ident => $body:expr) => {
        match $places {
            Places::U8($list) => $body,
            Places::U16($list) => $body,
            Places::U32($list) => $body,
            Places::U64($list) => $body,
        }
    };
}

impl Lent {
    fn places(&mut self, buffer: Buffer) -> Places<'_> {
        let Lent { kept, working, .. } = self;
        match buffer {
            Buffer::Sheet => Places::U8(&mut kept.sheet),
            Buffer::Ranks => Places::U32(&mut kept.ranks),
            Buffer::Cuts => Places::U16(&mut kept.cuts),
            Buffer::Cites => Places::U16(&mut kept.cites),
            Buffer::Good => Places::U8(&mut kept.good),
            Buffer::Counts => Places::U32(&mut working.counts),
            Buffer::Table => Places::U8(&mut working.table),
            Buffer::Order => Places::U16(&mut working.order),
            Buffer::Free => Places::U64(&mut self.free),
            Buffer::Held => Places::U64(&mut self.held),
            Buffer::Values => Places::U32(&mut self.values),
            Buffer::Statuses => Places::U8(&mut self.statuses),
            Buffer::Instances => Places::U16(&mut self.instances),
            Buffer::Sequences => Places::U16(&mut self.sequences),
            Buffer::Out => Places::U8(&mut self.out),
        }
    }

    pub fn length(&mut self, buffer: Buffer) -> usize {
        each!(self.places(buffer), list => list.len())
    }

    pub fn shorten(&mut self, buffer: Buffer, length: usize) {
        each!(self.places(buffer), list => list.truncate(length));
    }

    /// Makes a buffer `least` long, what it holds so far staying as it is, and
    /// puts `more` guarded places behind.
    pub fn lengthen(&mut self, buffer: Buffer, least: usize, more: usize) {
        each!(self.places(buffer), list => {
            list.truncate(least);
            list.resize(least + more, GUARD.into());
        });
    }

    /// Fills all of a buffer with one number.
    pub fn fill(&mut self, buffer: Buffer, number: u8) {
        each!(self.places(buffer), list => list.fill(number.into()));
    }

    /// Puts a number at one place, if it is there.
    pub fn put(&mut self, buffer: Buffer, place: usize, number: u8) {
        each!(self.places(buffer), list => {
            list.iter_mut().skip(place).take(1).for_each(|found| *found = number.into());
        });
    }

    /// Whether all places behind `least` are as they were guarded.
    pub fn is_guarded(&mut self, buffer: Buffer, least: usize) -> bool {
        each!(self.places(buffer), list => list[least..].iter().all(|place| *place == GUARD.into()))
    }

    /// Gives a shortened buffer the places back that another one has.
    pub fn restore(&mut self, buffer: Buffer, from: &mut Lent) {
        match (self.places(buffer), from.places(buffer)) {
            (Places::U8(list), Places::U8(from)) => list.extend_from_slice(&from[list.len()..]),
            (Places::U16(list), Places::U16(from)) => list.extend_from_slice(&from[list.len()..]),
            (Places::U32(list), Places::U32(from)) => list.extend_from_slice(&from[list.len()..]),
            (Places::U64(list), Places::U64(from)) => list.extend_from_slice(&from[list.len()..]),
            _ => {}
        }
    }

    /// Whether a buffer is a beginning of another one, or all of it.
    pub fn begins(&mut self, buffer: Buffer, other: &mut Lent) -> bool {
        match (self.places(buffer), other.places(buffer)) {
            (Places::U8(list), Places::U8(other)) => other.starts_with(list),
            (Places::U16(list), Places::U16(other)) => other.starts_with(list),
            (Places::U32(list), Places::U32(other)) => other.starts_with(list),
            (Places::U64(list), Places::U64(other)) => other.starts_with(list),
            _ => false,
        }
    }
}
