//! The comparison of short and longer buffers finds boundaries that are
//! wrong: the static library with one fault put before it, each found within
//! the gate's seeds.

use crosscheck::engine::format::{self, slip_at};
use crosscheck::engine::{Block, Head};
use crosscheck_library::boundary::{Boundary, Buffer, Call, Lent, Library, BUFFERS, TOO_SHORT};
use crosscheck_library::{bytes, layout, lengths, numbers, reports, Counts};

/// The gate compares the library on so many seeds.
const SEEDS: u64 = 500;

#[derive(Clone, Copy, Debug, PartialEq)]
enum Fault {
    None,
    /// Tells one place less than there has to be.
    TellsOneLess,
    /// Of several short buffers takes the last in the call.
    TellsTheLast,
    /// Takes a buffer that is one place short for long enough.
    TakesOneShort(Buffer),
    /// Asks for a place more than there has to be.
    AsksOneMore(Buffer),
    /// Looks for short buffers after everything else.
    JudgesFirst,
    /// Looks for short buffers before everything else: that the sheet is not
    /// complete, that no byte is left, that nothing is left to load.
    AsksReadingsEarly,
    AsksForNoByte,
    AsksForNothing,
    /// Turns a call away with 16, and yet writes.
    Writes(Buffer),
    /// Turns a call away with 16, and yet counts a block.
    CountsABlock,
    /// Writes a place behind the least length.
    WritesBehind(Buffer),
    /// Takes a longer list of ranks for that of another instance.
    GoesByLength,
    /// Keeps something else at the last place: of the sheet the body of
    /// transaction 1,023, of a block its cut entry 15, its citation or outcome
    /// at place 31, of block 128 its rank.
    KeepsOtherwise(Buffer),
}

/// Every fault, those of a buffer for each of them.
fn faults() -> Vec<Fault> {
    let mut faults = vec![
        Fault::TellsOneLess,
        Fault::TellsTheLast,
        Fault::JudgesFirst,
        Fault::AsksReadingsEarly,
        Fault::AsksForNoByte,
        Fault::AsksForNothing,
        Fault::CountsABlock,
        Fault::GoesByLength,
    ];
    faults.extend(BUFFERS[..5].iter().copied().map(Fault::KeepsOtherwise));
    // What a text is written to is lent by no call here.
    for buffer in BUFFERS.into_iter().filter(|buffer| *buffer != Buffer::Out) {
        faults.extend([Fault::Writes(buffer), Fault::WritesBehind(buffer)]);
        faults.extend([Fault::TakesOneShort(buffer), Fault::AsksOneMore(buffer)]);
    }
    faults
}

/// The library behind a fault.
struct Wrong(Fault);

impl Boundary for Wrong {
    fn call(&self, call: &Call, lent: &mut Lent) -> u16 {
        let needs = needs(call, lent);
        if let Some(number) = self.before(call, &needs, lent) {
            return number;
        }
        let number = Library.call(call, lent);
        match (self.0, number) {
            (Fault::TellsOneLess, TOO_SHORT) => lent.told[0] -= 1,
            (Fault::TellsTheLast, TOO_SHORT) => lent.told[0] = short(&needs, lent, true),
            (Fault::Writes(buffer), TOO_SHORT) => lent.put(buffer, 0, 99),
            (Fault::CountsABlock, TOO_SHORT) => lent.numbers[6] += 1,
            (Fault::WritesBehind(buffer), 0) => {
                let behind = needs.iter().filter(|need| need.0 == buffer);
                behind.for_each(|(_, least)| lent.put(buffer, *least, 99));
            }
            (Fault::KeepsOtherwise(buffer), 0) => keep_otherwise(buffer, call, lent),
            _ => {}
        }
        number
    }
}

impl Wrong {
    /// What a fault returns without asking the library, or asking it otherwise.
    fn before(&self, call: &Call, needs: &[(Buffer, usize)], lent: &mut Lent) -> Option<u16> {
        let offer = matches!(call, Call::OfferSlip(..) | Call::OfferValues(_));
        let load = matches!(call, Call::Load(..));
        let least = |wanted: Buffer| {
            needs.iter().find(|(buffer, _)| *buffer == wanted).map(|(_, least)| *least)
        };
        let asks = match self.0 {
            Fault::AsksReadingsEarly => !offer && !load,
            Fault::AsksForNoByte => offer,
            Fault::AsksForNothing => load,
            _ => false,
        };
        let place = short(needs, lent, false);
        if asks && place > 0 {
            lent.told = [place, 0];
            return Some(TOO_SHORT);
        }
        match self.0 {
            Fault::TakesOneShort(buffer) => {
                let least = least(buffer).filter(|least| lent.length(buffer) + 1 == *least)?;
                lent.lengthen(buffer, least - 1, 1);
                let number = Library.call(call, lent);
                lent.shorten(buffer, least - 1);
                Some(number)
            }
            Fault::AsksOneMore(buffer) => {
                let least = least(buffer).filter(|least| lent.length(buffer) == *least)?;
                lent.told = [least as u64 + 1, 0];
                (least > 0).then_some(TOO_SHORT)
            }
            Fault::JudgesFirst => {
                let mut enough = lent.clone();
                needs.iter().for_each(|(buffer, least)| enough.lengthen(*buffer, *least, 0));
                let number = Some(Library.call(call, &mut enough)).filter(|number| *number != 0);
                lent.told = enough.told;
                number
            }
            Fault::GoesByLength => {
                let m = lent.numbers[0];
                let longer = lent.length(Buffer::Ranks) > 128 * usize::from(m);
                (longer && (1..16).contains(&m)).then(|| {
                    lent.numbers[0] = m + 1;
                    let number = Library.call(call, lent);
                    lent.numbers[0] = m;
                    number
                })
            }
            _ => None,
        }
    }
}

/// Spoils the last place of what an accepted call has written.
fn keep_otherwise(buffer: Buffer, call: &Call, lent: &mut Lent) {
    let [m, a, _, t, _, loaded, ..] = lent.numbers;
    let block = match call {
        Call::OfferValues(block) => Some((*block).clone()),
        Call::OfferSlip(bytes, at) => {
            slip_at(bytes, *at).ok().and_then(|slip| format::block(slip.body, m))
        }
        Call::Load(..) if buffer == Buffer::Sheet && (loaded, t) == (1_024, 1_024) => {
            lent.put(buffer, 8 * usize::from(a) + 100 * 1_023, 99);
            None
        }
        _ => None,
    };
    let Some(Block { instance, number, citations, .. }) = block else {
        return;
    };
    let index = 128 * usize::from(instance) + usize::from(number) - 1;
    let place = 32 * index + 31;
    match buffer {
        Buffer::Ranks if number == 128 => lent.put(buffer, index, 0),
        Buffer::Cuts => lent.put(buffer, 16 * index + 15, 200),
        Buffer::Cites if citations.len() == 32 => lent.put(buffer, place, 255),
        Buffer::Good if citations.len() == 32 => lent.put(buffer, place, 0),
        _ => {}
    }
}

/// What a call needs, by the numbers of the ledger. How long the log is the
/// library says itself.
fn needs(call: &Call, lent: &Lent) -> Vec<(Buffer, usize)> {
    let [m, a, g, t, ..] = lent.numbers;
    let log = match call {
        Call::Log => {
            let mut enough = lent.clone();
            enough.lengthen(Buffer::Instances, 0, 16 * 128);
            enough.lengthen(Buffer::Sequences, 0, 16 * 128);
            enough.lengthen(Buffer::Ranks, 128 * usize::from(m), 0);
            enough.told = [0; 2];
            Library.call(call, &mut enough);
            enough.told[1] as usize
        }
        _ => 0,
    };
    layout::needs(call, &Head { m, a, g, t }, log)
}

/// The least length of the first short buffer, or of the last; 0 if none is.
fn short(needs: &[(Buffer, usize)], lent: &mut Lent, last: bool) -> u64 {
    let mut short = needs.iter().filter(|(buffer, least)| lent.length(*buffer) < *least);
    let found = if last { short.next_back() } else { short.next() };
    found.map_or(0, |(_, least)| *least as u64)
}

/// The seed at which a fault is found, among those of the gate.
fn found(fault: Fault) -> Option<u64> {
    let mut counts = Counts::default();
    (1..=SEEDS).find(|seed| {
        lengths::check(&bytes(*seed), &mut numbers(*seed), &mut counts, &Wrong(fault)).is_err()
    })
}

/// Those of the call that writes a text, which lends nine buffers.
fn faults_of_texts() -> Vec<Fault> {
    let lent = layout::needs(&Call::Report(&[]), &Head { m: 0, a: 0, g: 0, t: 0 }, 0);
    let each = |(buffer, _): (Buffer, usize)| {
        let short = [Fault::Writes(buffer), Fault::TakesOneShort(buffer)];
        [&short[..], &[Fault::WritesBehind(buffer), Fault::AsksOneMore(buffer)]].concat()
    };
    let mut faults = vec![Fault::TellsOneLess, Fault::TellsTheLast];
    faults.extend(lent.into_iter().flat_map(each));
    faults
}

/// The seed at which a fault is found there.
fn found_in_texts(fault: Fault) -> Option<u64> {
    let (mut counts, mut lent) = (Counts::default(), layout::largest());
    (1..=SEEDS).find(|seed| {
        let random = &mut numbers(*seed);
        reports::check(&bytes(*seed), random, &mut counts, &Wrong(fault), &mut lent).is_err()
    })
}

fn assert_found(faults: Vec<Fault>, found: fn(Fault) -> Option<u64>) {
    for fault in faults {
        let seed = found(fault);
        println!("{fault:?}: {seed:?}");
        assert!(seed.is_some(), "{fault:?} is not found");
    }
}

#[test]
fn each_fault_is_found() {
    assert_found(faults(), found);
}

#[test]
fn each_fault_of_texts_is_found() {
    assert_found(faults_of_texts(), found_in_texts);
}

#[test]
fn without_a_fault_nothing_is_found() {
    assert_eq!(found(Fault::None), None);
    assert_eq!(found_in_texts(Fault::None), None);
}
