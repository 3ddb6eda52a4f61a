//! Refusal 16, call by call: the library's own calls with buffers that are too
//! short, as long as they have to be, and longer.
//!
//! * A short buffer gives 16 with its least length, the first in the call's
//!   order, and nothing is changed. For an offer and for loading this comes
//!   before all else, but no byte left is no offer, and nothing is loaded once
//!   the sheet is complete; a reading gives 3 before it.
//! * What lies behind the least lengths is left alone, and they may be other
//!   lengths at each call: the ledger goes on as before.
//! * At the end the buffers hold what `docs/BUFFERS.md` says, the outcomes of
//!   parts among it.

use crosscheck::engine::format::{self, slip_at};
use crosscheck::engine::{Answer, Block, Draft, Engine, Head, Refusal};
use crosscheck::generate::random::Random;

use crate::boundary::{Boundary, Buffer, Call, Lent, Returned, NOTHING_LEFT, READINGS};
use crate::buffers::{self, Length};
use crate::counts::Counts;
use crate::difference::{same, Difference};
use crate::layout::{self, needs};

/// About so many times in a sheet, and then among the blocks, every call is
/// made with short buffers, and every reading with longer ones.
const MOMENTS: u64 = 2;

/// Compares the calls of a boundary, with buffers of every length, with the
/// second engine on a run.
pub fn check(
    run: &[u8],
    random: &mut Random,
    counts: &mut Counts,
    boundary: &impl Boundary,
) -> Result<(), Difference> {
    let mut walk = Walk { boundary, lent: Lent::default(), engine: Engine::new(), random, counts };
    let Some(at) = walk.sheet(run)? else {
        return Ok(());
    };
    walk.blocks(run, at)?;
    walk.engine.ledger().map_or(Ok(()), |ledger| layout::kept(ledger, &walk.lent))
}

/// A ledger on its way through a run.
struct Walk<'a, B> {
    boundary: &'a B,
    lent: Lent,
    engine: Engine,
    random: &'a mut Random,
    counts: &'a mut Counts,
}

impl<B: Boundary> Walk<'_, B> {
    /// The sheet. Gives where the blocks begin, `None` if it was turned away.
    fn sheet(&mut self, run: &[u8]) -> Result<Option<usize>, Difference> {
        let mut at = 0;
        let block = any_block();
        while self.engine.ledger().is_err() {
            let slips = u64::from(self.head().t) + 2;
            if self.random.below(slips) < MOMENTS {
                let calls = [
                    Call::Load(run, at),
                    Call::Load(run, run.len()),
                    Call::OfferSlip(run, at),
                    Call::OfferSlip(run, run.len()),
                    Call::OfferValues(&block),
                ];
                self.moment(&calls)?;
            }
            let sizes = self.lengthen();
            let next = self.engine.feed(run, at);
            let expected = next.map_or_else(refused, |next| (0, [next as u64, 0]));
            self.make(&Call::Load(run, at), &sizes, expected)?;
            match next {
                Ok(next) => at = next,
                Err(_) => return Ok(None),
            }
        }
        Ok(Some(at))
    }

    /// The blocks, each as a slip or as values.
    fn blocks(&mut self, run: &[u8], mut at: usize) -> Result<(), Difference> {
        let head = self.head();
        let slips = (run.len() - at) as u64 / 18 + 1;
        let mut block = any_block();
        while at < run.len() {
            let slip = slip_at(run, at).ok();
            let values = slip.filter(|slip| slip.kind == 4);
            let values = values.and_then(|slip| format::block(slip.body, head.m));
            let by_values = values.is_some() && self.random.chance(50);
            block = values.unwrap_or(block);
            let moment = self.random.below(slips) < MOMENTS;
            if moment {
                self.moment(&after_the_sheet(run, at, &block))?;
            }
            let sizes = self.lengthen();
            let before = (moment || self.random.chance(5)).then(|| self.lent.clone());
            let call = if by_values { Call::OfferValues(&block) } else { Call::OfferSlip(run, at) };
            let expected = match by_values {
                true => self.engine.offer_values(&block),
                false => self.engine.offer_slip(run, at),
            };
            let expected = answered(expected);
            self.make(&call, &sizes, expected)?;
            if let Some(mut before) = before.filter(|_| expected.0 != 0) {
                buffers::unchanged(&mut self.lent, &mut before)
                    .map_err(|text| format!("refused, {call:?} {text}"))?;
            }
            // What follows a slip of no known length cannot be found.
            at = slip.map_or(run.len(), |slip| slip.next);
        }
        self.moment(&after_the_sheet(run, run.len(), &block))
    }

    fn head(&self) -> Head {
        match self.engine.draft() {
            Draft::Empty => Head { m: 0, a: 0, g: 0, t: 0 },
            Draft::Headed(head) => *head,
            Draft::Begun(sheet) => sheet.head,
        }
    }

    /// Lends what the ledger keeps and works in anew: the least lengths or a
    /// little more, working space with anything in it. Gives the least lengths.
    fn lengthen(&mut self) -> Vec<Length> {
        let sizes = needs(&Call::OfferSlip(&[], 0), &self.head(), 0);
        for (buffer, least) in &sizes {
            let more = self.random.pick(&[0, 0, 1, 3]);
            self.lent.lengthen(*buffer, *least, 0);
            if [Buffer::Counts, Buffer::Table, Buffer::Order].contains(buffer) {
                self.lent.fill(*buffer, self.random.pick(&[0, 1, 2, 255]));
            }
            self.lent.lengthen(*buffer, *least, more);
        }
        sizes
    }

    /// Makes a call whose buffers suffice: it returns what is expected and
    /// leaves alone what lies behind the least lengths.
    fn make(
        &mut self,
        call: &Call,
        sizes: &[Length],
        expected: Returned,
    ) -> Result<(), Difference> {
        self.counts.lent += 1;
        let got = self.boundary.returned(call, &mut self.lent);
        same(&got, &expected, || format!("{call:?}"))?;
        buffers::guarded(call, sizes, &mut self.lent)
    }

    /// The given calls and all readings with short buffers, then all readings
    /// with buffers that suffice.
    fn moment(&mut self, calls: &[Call]) -> Result<(), Difference> {
        let log = self.engine.log().map_or(0, |log| log.len());
        let mut sizes = self.lengthen();
        for reading in READINGS {
            for (buffer, least) in needs(&reading, &self.head(), log) {
                if sizes.iter().all(|(other, _)| *other != buffer) {
                    self.lent.shorten(buffer, 0);
                    let more = self.random.pick(&[0, 1, 3]);
                    self.lent.lengthen(buffer, 0, least + more);
                    sizes.push((buffer, least));
                }
            }
        }
        for call in calls.iter().chain(&READINGS) {
            self.short(call, log)?;
        }
        self.readings(&sizes)
    }

    /// A call with short buffers.
    fn short(&mut self, call: &Call, log: usize) -> Result<(), Difference> {
        let (needs, earlier) = (needs(call, &self.head(), log), self.earlier(call));
        let Walk { boundary, lent, random, counts, .. } = self;
        buffers::short(*boundary, call, &needs, earlier, lent, random, counts)
    }

    /// What comes before 16.
    fn earlier(&self, call: &Call) -> Option<Returned> {
        let complete = self.engine.ledger().is_ok();
        match call {
            Call::Load(..) => complete.then_some((NOTHING_LEFT, [0, 0])),
            Call::OfferSlip(bytes, at) => (*at >= bytes.len()).then_some((NOTHING_LEFT, [0, 0])),
            Call::OfferValues(_) => None,
            _ => (!complete).then_some((3, [0, 0])),
        }
    }

    /// All readings: what they fill, and what they leave alone.
    fn readings(&mut self, sizes: &[Length]) -> Result<(), Difference> {
        let (numbers, kept) = (self.lent.numbers, self.lent.kept.clone());
        let value = |reading: &Call| match reading {
            Call::Share => self.engine.share().map(u64::from),
            Call::Log => self.engine.log().map(|log| log.len() as u64),
            _ => self.engine.ledger().map(|_| 0),
        };
        let expected = READINGS.map(|reading| {
            let value = value(&reading);
            (reading, value.map_or_else(refused, |value| (0, [0, value])))
        });
        for (reading, expected) in &expected {
            self.make(reading, sizes, *expected)?;
        }
        if (numbers, &kept) != (self.lent.numbers, &self.lent.kept) {
            return Err("readings changed what the ledger keeps".to_string());
        }
        self.engine.ledger().map_or(Ok(()), |ledger| layout::filled(ledger, &self.lent))
    }
}

/// A block that is turned away whatever the sheet is: instance 16.
fn any_block() -> Block {
    Block { instance: 16, number: 0, rank: 0, cut: [0; 16], citations: vec![0; 33] }
}

/// The calls on a complete sheet, at an offset.
fn after_the_sheet<'a>(run: &'a [u8], at: usize, block: &'a Block) -> [Call<'a>; 5] {
    [
        Call::Load(run, 0),
        Call::OfferSlip(run, at),
        // The head, which is not due; and no byte left.
        Call::OfferSlip(run, 0),
        Call::OfferSlip(run, run.len()),
        Call::OfferValues(block),
    ]
}

fn refused(refusal: Refusal) -> Returned {
    (refusal.number.into(), [refusal.place, 0])
}

fn answered(answer: Answer) -> Returned {
    match answer {
        Answer::Accepted { .. } => (0, [0, 0]),
        Answer::Refused(refusal) => refused(refusal),
    }
}
