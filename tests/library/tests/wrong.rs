//! The comparison finds engines that are wrong: the library with one fault
//! put behind it, each found within the seeds of the gate.

#[path = "wrong/last.rs"]
mod last;
#[path = "wrong/rounding.rs"]
mod rounding;

use crosscheck::engine::format::{self, slip_at};
use crosscheck::engine::Block;
use crosscheck_library::subject::Readings;
use crosscheck_library::{bytes, check, numbers, Counts, Subject};
use last::Last;
use rounding::Rounding;
use rugxeni::{Account, Ledger, Loading, Offer, Refusal};

/// The gate compares the library on so many seeds.
const SEEDS: u64 = 500;

#[derive(Clone, Copy, Debug, PartialEq)]
enum Fault {
    None,
    /// Answers 12 to a fourth block, though its cut is covered.
    AnswersTwelve,
    /// Books the first block and merely counts the others.
    BooksTheFirst,
    /// Accepts, and books nothing.
    BooksNothing,
    InventsTheShare,
    /// Gives the same registers for every run.
    SameRegisters,
    TurnsAllAway,
    /// Takes the order of arrival for the log.
    LogsByArrival,
    /// Gives the place after the one that counts.
    NextPlace,
    /// Gives a slip's offset to values, too.
    OffsetForValues,
    /// Takes no byte for a slip that ends early.
    RefusesNoByte,
    /// Gives readings before the sheet is complete.
    ReadsEarly,
    /// Counts what is held as free.
    SpendsHeld,
    /// Is wrong at the last place that a bound allows.
    AtTheLast(Last),
    /// Is wrong where an instance has delivered nothing.
    WhereEmpty(Empty),
    /// Rounds the share otherwise.
    Rounds(Rounding),
}

/// Where an instance has no block, document 01 had an empty log; request 04
/// replaced that. With every rank one higher the ledger that is read still has
/// it: beside an empty instance e nothing but rank 1 is below the bar, (1, e).
#[derive(Clone, Copy, Debug, PartialEq)]
enum Empty {
    /// All logs follow document 01.
    Everywhere,
    /// The printed log alone follows request 04.
    NotInPrint,
    /// The printed log alone follows document 01.
    InPrint,
}

const FAULTS: [Fault; 12] = [
    Fault::AnswersTwelve,
    Fault::BooksTheFirst,
    Fault::BooksNothing,
    Fault::InventsTheShare,
    Fault::SameRegisters,
    Fault::TurnsAllAway,
    Fault::LogsByArrival,
    Fault::NextPlace,
    Fault::OffsetForValues,
    Fault::RefusesNoByte,
    Fault::ReadsEarly,
    Fault::SpendsHeld,
];

/// One rank higher; near the end of their range ranks are left alone.
fn raised(rank: u32) -> u32 {
    rank + u32::from(rank < 1 << 31)
}

/// The library with a fault: `judge` answers, `books` is read.
struct Wrong {
    fault: Fault,
    judge: Ledger,
    books: Ledger,
    accepted: usize,
    /// Blocks in the order in which they came.
    arrivals: Vec<(u16, u16)>,
    /// The sheet as it is read.
    sheet: last::Sheet,
}

impl Wrong {
    fn new(fault: Fault) -> Wrong {
        let (judge, books) = (Ledger::new(), Ledger::new());
        let sheet = last::Sheet::default();
        Wrong { fault, judge, books, accepted: 0, arrivals: Vec::new(), sheet }
    }

    /// An offer to both ledgers, the block with a fault at the last place, or
    /// with a higher rank.
    fn offer_changed(&mut self, block: Option<Block>, answer: Offer) -> Offer {
        let Some(block) = block else {
            return answer;
        };
        if answer == Offer::Accepted {
            let booked = match self.fault {
                Fault::AtTheLast(fault) => self.sheet.booked(fault, &block),
                _ => Block { rank: raised(block.rank), ..block.clone() },
            };
            let booked = Subject::offer_values(&mut self.books, &booked);
            assert_eq!(booked, Offer::Accepted, "a fault is not to be turned away");
        }
        match self.fault {
            Fault::AtTheLast(fault) => last::answer(fault, &block, answer),
            _ => answer,
        }
    }

    /// Whether blocks are changed before they are booked.
    fn changes_blocks(&self) -> bool {
        matches!(self.fault, Fault::AtTheLast(_) | Fault::WhereEmpty(_))
    }

    /// An offer to both ledgers, as far as the fault lets it.
    fn offer(&mut self, make: impl Fn(&mut Ledger) -> Offer, values: bool) -> Offer {
        let mut next = self.judge.clone();
        let answer = make(&mut next);
        match answer {
            Offer::Accepted => {
                if self.fault == Fault::TurnsAllAway {
                    return Offer::Refused(Refusal { number: 8, place: 0 });
                }
                if self.fault == Fault::AnswersTwelve && self.accepted == 3 {
                    return Offer::Refused(Refusal { number: 12, place: 0 });
                }
                let grown =
                    (0..16).find(|i| next.heights().get(*i) != self.judge.heights().get(*i));
                let instance = grown.unwrap_or(0);
                self.arrivals.push((instance as u16, next.heights()[instance]));
                self.judge = next;
                let books = match self.fault {
                    Fault::BooksNothing => false,
                    Fault::BooksTheFirst => self.accepted == 0,
                    _ => true,
                };
                if books {
                    make(&mut self.books);
                }
                self.accepted += 1;
                answer
            }
            Offer::Refused(Refusal { number, place }) => match self.fault {
                Fault::NextPlace if number >= 13 => {
                    Offer::Refused(Refusal { number, place: place + 1 })
                }
                Fault::OffsetForValues if values && number == 5 => {
                    Offer::Refused(Refusal { number, place: 100 })
                }
                _ => answer,
            },
            Offer::NoByte if self.fault == Fault::RefusesNoByte => {
                Offer::Refused(Refusal { number: 1, place: 0 })
            }
            Offer::NoByte => answer,
        }
    }
}

impl Subject for Wrong {
    fn load(&mut self, run: &[u8], at: usize) -> Result<Loading, Refusal> {
        let answer = self.judge.load_frame(run, at);
        if let Ok(Loading::Next(next)) = answer {
            let slip = match self.fault {
                Fault::AtTheLast(fault) => self.sheet.slip(fault, &run[at..next]),
                _ => run[at..next].to_vec(),
            };
            let booked = self.books.load_frame(&slip, 0);
            assert_eq!(booked, Ok(Loading::Next(slip.len())), "a fault is not to be turned away");
        }
        match (self.fault, answer) {
            (Fault::AtTheLast(fault), Err(refusal)) if last::takes(fault, &run[at..], refusal) => {
                Ok(Loading::Next(run.len()))
            }
            _ => answer,
        }
    }

    fn offer_slip(&mut self, bytes: &[u8], at: usize) -> Offer {
        if self.changes_blocks() {
            let m = self.judge.sizes().map_or(0, |sizes| sizes.instances);
            let slip = slip_at(bytes, at).ok().filter(|slip| slip.kind == 4);
            let block = slip.and_then(|slip| format::block(slip.body, m));
            let answer = self.judge.offer_frame(bytes, at);
            return self.offer_changed(block, answer);
        }
        self.offer(|ledger| ledger.offer_frame(bytes, at), false)
    }

    fn offer_values(&mut self, block: &Block) -> Offer {
        let values = |ledger: &mut Ledger| Subject::offer_values(ledger, block);
        if self.changes_blocks() {
            let answer = values(&mut self.judge);
            return self.offer_changed(Some(block.clone()), answer);
        }
        self.offer(values, true)
    }

    fn readings(&mut self) -> Readings {
        let mut readings = self.books.readings();
        match self.fault {
            Fault::InventsTheShare => readings.share = readings.share.map(|share| share / 2 + 500),
            Fault::SameRegisters => {
                readings.registers = readings.registers.map(|list| vec![0; list.len()]);
            }
            Fault::LogsByArrival => {
                readings.log = readings.log.map(|log| self.arrivals[..log.len()].to_vec());
            }
            Fault::ReadsEarly => readings.share = readings.share.or(Ok(0)),
            Fault::SpendsHeld => {
                let spend = |Account { free, held }| Account { free: free + held, held };
                readings.accounts =
                    readings.accounts.map(|list| list.into_iter().map(spend).collect());
            }
            Fault::AtTheLast(fault) => self.sheet.readings(fault, &mut readings),
            Fault::Rounds(rounding) => rounding::rounded(rounding, &mut readings),
            Fault::WhereEmpty(Empty::NotInPrint) => readings.log = self.judge.readings().log,
            Fault::WhereEmpty(Empty::InPrint) => {
                readings = Readings { log: readings.log, ..self.judge.readings() };
            }
            _ => {}
        }
        readings
    }
}

/// The seed at which a fault is found, among those of the gate.
fn found(fault: Fault) -> Option<u64> {
    let mut counts = Counts::default();
    (1..=SEEDS).find(|seed| {
        check(&bytes(*seed), &mut numbers(*seed), &mut counts, || Wrong::new(fault)).is_err()
    })
}

fn assert_found(faults: impl IntoIterator<Item = Fault>) {
    for fault in faults {
        let seed = found(fault);
        println!("{fault:?}: {seed:?}");
        assert!(seed.is_some(), "{fault:?} is not found");
    }
}

#[test]
fn each_fault_is_found() {
    assert_found(FAULTS);
}

#[test]
fn each_fault_about_empty_instances_is_found() {
    assert_found([Empty::Everywhere, Empty::NotInPrint, Empty::InPrint].map(Fault::WhereEmpty));
}

#[test]
fn each_fault_of_rounding_is_found() {
    assert_found(rounding::WRONG.map(Fault::Rounds));
}

#[test]
fn each_fault_at_a_last_place_is_found() {
    assert_found(last::ALL.map(Fault::AtTheLast));
}

#[test]
fn without_a_fault_nothing_is_found() {
    assert_eq!(found(Fault::None), None);
    assert_eq!(found(Fault::AtTheLast(Last::Nothing)), None);
    assert_eq!(found(Fault::Rounds(Rounding::Nearest)), None);
}
