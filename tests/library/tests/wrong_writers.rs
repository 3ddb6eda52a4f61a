//! The comparison finds writers that are wrong: those of the static library
//! with one fault put behind them, each found within the gate's seeds.

#[path = "wrong_writers/judged.rs"]
mod judged;
#[path = "wrong_writers/plain.rs"]
mod plain;
#[path = "wrong_writers/spoiled.rs"]
mod spoiled;

use crosscheck::engine::write::checked::Lists;
use crosscheck::engine::Head;
use crosscheck_library::boundary::{Boundary, Call, Lent, Library, TOO_SHORT};
use crosscheck_library::writers::{self, BlockValues, Values, Writers};
use crosscheck_library::{bytes, layout, numbers, written, Counts};
use judged::{Judged, LAX, STRICT};
use plain::{kind_of, plain, with_length, LISTS};
use spoiled::{Spoiled, SPOILED};

/// The gate compares the library on so many seeds.
const SEEDS: u64 = 500;
const NUMBERS: usize = 22;

#[derive(Clone, Copy, Debug)]
enum Fault {
    None,
    /// Looks for the second refusal before the first.
    Exchanged(u16, u16),
    /// Answers 3 to fewer numbers than there have to be, or tells one less.
    ThreeToFewNumbers,
    TellsFewerNumbers,
    /// Takes 21 numbers, or no more than 22.
    TakesFewNumbers,
    RefusesMoreNumbers,
    /// Tells place 1 with a refusal of this number.
    TellsAPlace(u16),
    /// Tells one byte less than there have to be, or one less than it wrote.
    TellsOneLess(u16),
    /// Tells a second number, or a third.
    TellsAValue,
    TellsAThird,
    /// Writes the first byte, or the last, though it refuses.
    WritesRefused,
    WritesRefusedLast,
    /// Changes the byte behind the frame.
    WritesBehind,
    /// Takes a buffer that is one byte short, or asks for one byte more.
    TakesOneShort,
    AsksOneMore,
    /// Takes a kind, counted from 0, at a stage where it is not due.
    TakesNotDue(usize, usize),
    /// Does not look at the length of one of the seven lists.
    NotCounted(usize),
    /// Writes what is to be refused, or refuses what is to be written.
    Lax(Judged),
    Strict(Judged),
    /// Writes other bytes.
    Spoils(Spoiled),
    /// Writes sixteen cut entries, whatever m is.
    SixteenEntries,
}

/// The stages of a sheet, by the kind that is due and by what was taken.
const DUE: [usize; 6] = [0, 1, 2, 2, 3, 3];

fn faults() -> Vec<Fault> {
    let mut faults = vec![
        Fault::ThreeToFewNumbers,
        Fault::TellsFewerNumbers,
        Fault::TakesFewNumbers,
        Fault::RefusesMoreNumbers,
        Fault::TellsOneLess(0),
        Fault::TellsOneLess(TOO_SHORT),
        Fault::TellsAValue,
        Fault::TellsAThird,
        Fault::WritesRefused,
        Fault::WritesRefusedLast,
        Fault::WritesBehind,
        Fault::TakesOneShort,
        Fault::AsksOneMore,
        Fault::SixteenEntries,
    ];
    for early in 3..=7 {
        faults.push(Fault::TellsAPlace(early));
        faults.extend((early + 1..=7).map(|late| Fault::Exchanged(early, late)));
        faults.push(Fault::Exchanged(early, TOO_SHORT));
    }
    for (stage, due) in DUE.into_iter().enumerate() {
        let others = (0..4).filter(|kind| *kind != due);
        faults.extend(others.map(|kind| Fault::TakesNotDue(stage, kind)));
    }
    faults.extend((0..LISTS).map(Fault::NotCounted));
    faults.extend(LAX.map(Fault::Lax));
    faults.extend(STRICT.map(Fault::Strict));
    faults.extend(SPOILED.map(Fault::Spoils));
    faults
}

/// The library's writers behind a fault.
struct Wrong(Fault);

impl Writers for Wrong {
    fn write(&self, numbers: &[u16], values: &Values, out: &mut [u8], told: &mut [u64]) -> u16 {
        let Some(sheet) = numbers.first_chunk::<NUMBERS>() else {
            return self.few_numbers(numbers, values, out, told);
        };
        if matches!(self.0, Fault::RefusesMoreNumbers) && numbers.len() > NUMBERS {
            return tell(told, TOO_SHORT, NUMBERS);
        }
        if let Some(number) = self.before(sheet, values, out, told) {
            return number;
        }
        let number = Library.write(numbers, values, out, told);
        self.change(number, sheet[0], values, out, told);
        self.instead(number, sheet, values, out, told).unwrap_or(number)
    }
}

/// The static library itself.
impl Boundary for Wrong {
    fn call(&self, call: &Call, lent: &mut Lent) -> u16 {
        Library.call(call, lent)
    }
}

fn tell(told: &mut [u64], number: u16, place: usize) -> u16 {
    told.iter_mut().zip([place as u64, 0]).for_each(|(told, number)| *told = number);
    number
}

/// Writes a frame whatever the library says of its values, if there is space.
fn put(frame: &[u8], out: &mut [u8], told: &mut [u64]) -> u16 {
    let Some(front) = out.get_mut(..frame.len()) else {
        return tell(told, TOO_SHORT, frame.len());
    };
    front.copy_from_slice(frame);
    tell(told, 0, frame.len())
}

impl Wrong {
    fn few_numbers(&self, few: &[u16], values: &Values, out: &mut [u8], told: &mut [u64]) -> u16 {
        match self.0 {
            Fault::ThreeToFewNumbers => tell(told, 3, 0),
            Fault::TellsFewerNumbers => tell(told, TOO_SHORT, NUMBERS - 1),
            Fault::TakesFewNumbers if few.len() == NUMBERS - 1 => {
                Library.write(&[few, &[0]].concat(), values, out, told)
            }
            _ => Library.write(few, values, out, told),
        }
    }

    /// What a fault answers without asking the library, or asking it otherwise.
    fn before(
        &self,
        sheet: &[u16; NUMBERS],
        values: &Values,
        out: &mut [u8],
        told: &mut [u64],
    ) -> Option<u16> {
        let mut long = vec![0; out.len() + 1];
        let number = Library.write(sheet, values, &mut long, told);
        let length = told.first().map_or(usize::MAX, |told| *told as usize);
        match self.0 {
            Fault::TakesOneShort if number == 0 && length == long.len() => {
                out.copy_from_slice(&long[..length - 1]);
                Some(tell(told, 0, length))
            }
            Fault::AsksOneMore if number == 0 && length == out.len() => {
                Some(tell(told, TOO_SHORT, length + 1))
            }
            Fault::NotCounted(list) if number == 4 => {
                Some(Library.write(sheet, &with_length(values, list), out, told))
            }
            _ => None,
        }
    }

    /// What a fault changes of what is told and written.
    fn change(&self, number: u16, m: u16, values: &Values, out: &mut [u8], told: &mut [u64]) {
        let frame = if number == 0 { plain(values, m).len() } else { 0 };
        let flip = |byte: Option<&mut u8>| byte.into_iter().for_each(|byte| *byte ^= 1);
        match self.0 {
            Fault::TellsOneLess(answer) if number == answer => {
                told.iter_mut().take(1).for_each(|place| *place -= 1);
            }
            Fault::TellsAValue => told.iter_mut().skip(1).take(1).for_each(|value| *value = 1),
            Fault::TellsAThird => told.iter_mut().skip(2).for_each(|value| *value = 0),
            Fault::WritesRefused if number != 0 => flip(out.first_mut()),
            Fault::WritesRefusedLast if number != 0 => flip(out.last_mut()),
            Fault::WritesBehind if number == 0 => flip(out.get_mut(frame)),
            Fault::Spoils(spoiled) if number == 0 => (spoiled.spoil)(values, &mut out[..frame]),
            _ => {}
        }
    }

    /// What a fault answers instead of the library's answer.
    fn instead(
        &self,
        number: u16,
        sheet: &[u16; NUMBERS],
        values: &Values,
        out: &mut [u8],
        told: &mut [u64],
    ) -> Option<u16> {
        let [m, a, g, t, ..] = *sheet;
        let head = Head { m, a, g, t };
        let frame = plain(values, m);
        match self.0 {
            Fault::Exchanged(early, late) if number == early => {
                let place = if late == TOO_SHORT { frame.len() } else { 0 };
                judged::applies(late, values, &head, out.len() < frame.len())
                    .then(|| tell(told, late, place))
            }
            Fault::TellsAPlace(refusal) if number == refusal => Some(tell(told, number, 1)),
            Fault::TakesNotDue(at, kind) if number == 3 => {
                let there = (at, kind) == (stage(sheet), kind_of(values));
                there.then(|| put(&frame, out, told))
            }
            Fault::Lax(judged) if number == judged.number => {
                (judged.when)(values, &head).then(|| put(&frame, out, told))
            }
            Fault::Strict(judged) if number == 0 => {
                (judged.when)(values, &head).then(|| tell(told, judged.number, 0))
            }
            Fault::SixteenEntries if number == 0 => Some(put(&plain(values, 16), out, told)),
            _ => None,
        }
    }
}

/// The stage of a sheet: what is due the library says itself.
fn stage(sheet: &[u16; NUMBERS]) -> usize {
    let head = Head { m: 0, a: 0, g: 0, t: 0 };
    let block = BlockValues {
        instance: 0,
        sequence: 0,
        rank: 0,
        count: 0,
        cut: Vec::new(),
        citations: Vec::new(),
    };
    let kinds = [
        Values::Header(head),
        Values::Balances(Vec::new()),
        Values::Transaction(Lists::default()),
        Values::Block(block),
    ];
    let due = kinds.iter().position(|values| Library.write(sheet, values, &mut [], &mut []) != 3);
    let [_, _, _, _, _, taken, heights @ ..] = sheet;
    match due {
        Some(2) => 2 + usize::from(*taken > 0),
        Some(3) => 4 + usize::from(heights.iter().any(|height| *height > 0)),
        due => due.unwrap_or(DUE.len()),
    }
}

/// The seed at which a fault is found, among those of the gate.
fn found(fault: Fault) -> Option<u64> {
    let mut counts = Counts::default();
    (1..=SEEDS).find(|seed| {
        let random = &mut numbers(*seed);
        writers::check(&bytes(*seed), random, &mut counts, &Wrong(fault)).is_err()
    })
}

#[test]
fn each_fault_is_found() {
    for fault in faults() {
        let seed = found(fault);
        println!("{fault:?}: {seed:?}");
        assert!(seed.is_some(), "{fault:?} is not found");
    }
}

/// Where a run is written and read back, other bytes are found as well.
#[test]
fn each_spoiled_run_is_found() {
    let (mut counts, mut lent) = (Counts::default(), layout::largest());
    for spoiled in SPOILED {
        let wrong = Wrong(Fault::Spoils(spoiled));
        let seed = (1..=SEEDS).find(|seed| {
            written::check(&mut numbers(*seed), &mut counts, &wrong, &mut lent).is_err()
        });
        println!("{spoiled:?}, in a run: {seed:?}");
        assert!(seed.is_some(), "{spoiled:?} is not found in a run");
    }
}

#[test]
fn without_a_fault_nothing_is_found() {
    assert_eq!(found(Fault::None), None);
}
