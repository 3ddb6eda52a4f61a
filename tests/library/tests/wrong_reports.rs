//! The comparison finds wrong texts and wrong frames: the static library with
//! one fault put behind it, each found within the gate's seeds.

use crosscheck::engine::reading_of_any_length;
use crosscheck_library::boundary::{Boundary, Buffer, Call, Lent, Library, NOTHING_LEFT};
use crosscheck_library::{bytes, layout, numbers, reports, Counts};

/// The gate compares the library on so many seeds.
const SEEDS: u64 = 500;
/// A longer run is `long`.
const LONGEST_RUN: usize = 65_536;

#[derive(Clone, Copy, Debug, PartialEq)]
enum Fault {
    None,
    /// A text that ends a byte early, or a line, or where the log begins; a
    /// byte too many; another last byte.
    OneByteShort,
    OneLineShort,
    NotWhole,
    OneByteMore,
    AnotherByte,
    /// A share, or an amount, that is one off.
    AnotherNumber,
    /// Readings after a refusal that ends the reading.
    GoesOn,
    /// A run of 65,536 bytes is long already, or one more is not.
    LongEarly,
    LongIsRead,
    /// A text only where this buffer held zeros.
    NeedsZeros(Buffer),
    /// A second number is told, of a text, or of no frame.
    TellsAValue,
    TellsAKind,
    /// Lengths of frames that are taken, or not.
    TakesLength(u32),
    RefusesLength(u32),
    LengthInTwoBytes,
    /// The kind's first byte alone is told.
    KindInOneByte,
    /// The end is that of the length field, or one further.
    EndWithoutLength,
    EndOneMore,
    /// A frame that is cut off is told before a length that is out of range.
    CutOffFirst,
    /// What is cut off by one byte is taken.
    TakesOneShort,
    /// No byte left is a frame that is cut off.
    RefusesNoByte,
    /// Place 0 instead of the offset.
    NoPlace,
}

const FAULTS: [Fault; 33] = [
    Fault::OneByteShort,
    Fault::OneLineShort,
    Fault::NotWhole,
    Fault::OneByteMore,
    Fault::AnotherByte,
    Fault::AnotherNumber,
    Fault::GoesOn,
    Fault::LongEarly,
    Fault::LongIsRead,
    Fault::NeedsZeros(Buffer::Sheet),
    Fault::NeedsZeros(Buffer::Ranks),
    Fault::NeedsZeros(Buffer::Cuts),
    Fault::NeedsZeros(Buffer::Cites),
    Fault::NeedsZeros(Buffer::Good),
    Fault::NeedsZeros(Buffer::Counts),
    Fault::NeedsZeros(Buffer::Table),
    Fault::NeedsZeros(Buffer::Order),
    Fault::NeedsZeros(Buffer::Out),
    Fault::TellsAValue,
    Fault::TellsAKind,
    Fault::TakesLength(0),
    Fault::TakesLength(1),
    Fault::TakesLength(8_195),
    Fault::RefusesLength(2),
    Fault::RefusesLength(8_194),
    Fault::LengthInTwoBytes,
    Fault::KindInOneByte,
    Fault::EndWithoutLength,
    Fault::EndOneMore,
    Fault::CutOffFirst,
    Fault::TakesOneShort,
    Fault::RefusesNoByte,
    Fault::NoPlace,
];

/// The library behind a fault.
struct Wrong(Fault);

impl Boundary for Wrong {
    fn call(&self, call: &Call, lent: &mut Lent) -> u16 {
        match call {
            Call::Report(run) => {
                let zeros = self.holds_zeros(lent);
                let number = Library.call(call, lent);
                if number == 0 {
                    self.text(run, zeros, lent);
                }
                number
            }
            Call::Frame(bytes, at) => {
                let number = Library.call(call, lent);
                self.frame(bytes, *at, number, &mut lent.told)
            }
            _ => Library.call(call, lent),
        }
    }
}

impl Wrong {
    fn holds_zeros(&self, lent: &Lent) -> bool {
        let Fault::NeedsZeros(buffer) = self.0 else {
            return true;
        };
        let mut zeros = lent.clone();
        zeros.fill(buffer, 0);
        zeros == *lent
    }

    /// What a fault makes of a text.
    fn text(&self, run: &[u8], zeros: bool, lent: &mut Lent) {
        let right = String::from_utf8_lossy(&lent.out[..lent.told[0] as usize]).into_owned();
        let wrong = match self.0 {
            Fault::OneByteShort => right[..right.len() - 1].to_string(),
            Fault::OneLineShort => {
                let end = right[..right.len() - 1].rfind('\n').map_or(0, |end| end + 1);
                right[..end].to_string()
            }
            Fault::NotWhole => right[..right.find("log").unwrap_or(right.len())].to_string(),
            Fault::OneByteMore => format!("{right}\n"),
            Fault::AnotherByte => format!("{}\r", &right[..right.len() - 1]),
            Fault::AnotherNumber => right.replace("share 1000", "share 999"),
            Fault::GoesOn if refused(&right) => format!("{right}share 1000\n"),
            Fault::LongEarly if run.len() == LONGEST_RUN => "long\n".to_string(),
            Fault::LongIsRead if run.len() == LONGEST_RUN + 1 => {
                String::from_utf8_lossy(&reading_of_any_length(run)).into_owned()
            }
            Fault::NeedsZeros(_) if !zeros => "long\n".to_string(),
            _ => right,
        };
        lent.out[..wrong.len()].copy_from_slice(wrong.as_bytes());
        let value = u64::from(self.0 == Fault::TellsAValue);
        lent.told = [wrong.len() as u64, value];
    }

    /// What a fault finds at an offset.
    fn frame(&self, bytes: &[u8], at: usize, number: u16, told: &mut [u64; 2]) -> u16 {
        let rest = bytes.get(at..).unwrap_or_default();
        let length = rest.first_chunk().map(|length| u32::from_le_bytes(*length));
        let left = rest.len().saturating_sub(4) as u64;
        let place = at as u64;
        let end = place.wrapping_add(4 + length.map_or(0, u64::from));
        match (self.0, number) {
            (Fault::TakesLength(taken), 2) if length == Some(taken) => answer(0, told, [end, 0]),
            (Fault::RefusesLength(one), 0) if length == Some(one) => answer(2, told, [place, 0]),
            (Fault::LengthInTwoBytes, 2) if length.is_some_and(|one| one as u16 >= 2) => {
                answer(1, told, [place, 0])
            }
            (Fault::KindInOneByte, 0) => answer(0, told, [told[0], told[1] % 256]),
            (Fault::EndWithoutLength, 0) => answer(0, told, [told[0] - 4, told[1]]),
            (Fault::EndOneMore, 0) => answer(0, told, [told[0] + 1, told[1]]),
            (Fault::CutOffFirst, 2) if length.is_some_and(|one| u64::from(one) > left) => {
                answer(1, told, [place, 0])
            }
            (Fault::TakesOneShort, 1) if length.is_some_and(|one| u64::from(one) == left + 1) => {
                answer(0, told, [end, 0])
            }
            (Fault::RefusesNoByte, NOTHING_LEFT) => answer(1, told, [place, 0]),
            (Fault::NoPlace, 1 | 2) => answer(number, told, [0, 0]),
            (Fault::TellsAKind, 1..) => answer(number, told, [told[0], 1]),
            _ => number,
        }
    }
}

fn answer(number: u16, told: &mut [u64; 2], tells: [u64; 2]) -> u16 {
    *told = tells;
    number
}

/// Whether a text ends with a refusal.
fn refused(text: &str) -> bool {
    text.lines().last().is_some_and(|line| line.starts_with("refused"))
}

/// The seed at which a fault is found, among those of the gate.
fn found(fault: Fault) -> Option<u64> {
    let (mut counts, mut lent) = (Counts::default(), layout::largest());
    (1..=SEEDS).find(|seed| {
        let random = &mut numbers(*seed);
        reports::check(&bytes(*seed), random, &mut counts, &Wrong(fault), &mut lent).is_err()
    })
}

#[test]
fn each_fault_is_found() {
    for fault in FAULTS {
        let seed = found(fault);
        println!("{fault:?}: {seed:?}");
        assert!(seed.is_some(), "{fault:?} is not found");
    }
}

#[test]
fn without_a_fault_nothing_is_found() {
    assert_eq!(found(Fault::None), None);
}
