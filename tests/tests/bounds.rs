//! The last place of every list is reached by the runs of the gate, and their
//! readings and answers hang on it: another content there, another reading.

use std::collections::BTreeMap;

use crosscheck::engine::text::LONGEST_RUN;
use crosscheck::engine::{Block, Draft, Ledger, Logs, Refusal, Status, Transaction};
use crosscheck::generate::random::Random;
use crosscheck::generate::{self, bounds, damage, Run};

/// The gate compares the static library on these seeds, and `readrun` on them
/// and on more.
const SEEDS: std::ops::RangeInclusive<u64> = 1..=500;
/// Each bound is to be met so many times.
const TIMES: usize = 4;

/// The runs of the gate that stand at the limits, but for damaged ones.
fn runs() -> impl Iterator<Item = Run> {
    let at_the_limits = SEEDS.filter(|seed| generate::is_at_the_limits(*seed));
    let runs = at_the_limits.map(|seed| (seed, bounds::run(&mut Random::new(seed))));
    runs.filter(|(seed, run)| run.bytes() == generate::bytes(*seed)).map(|(_, run)| run)
}

/// What a reading shows beside the log.
fn shown(run: &Run) -> (Vec<Status>, Vec<u32>, Vec<crosscheck::engine::Account>) {
    let mut ledger = Ledger::new(run.sheet.clone());
    for block in &run.offers {
        ledger.offer_values(block);
    }
    (ledger.settlements(), ledger.registers(), ledger.accounts())
}

/// A bound, and how a run is changed at the last place that it allows.
type Change = (&'static str, fn(&mut Run));

const CHANGES: [Change; 17] = [
    ("the operations of transaction 1,023", |run| {
        on(&mut run.sheet.transactions, 1_023, |last| last.operations.clear());
    }),
    ("transaction 1,023, cited", |run| {
        run.offers.iter_mut().for_each(|block| block.citations.retain(|number| *number != 1_023));
    }),
    // The reading shows a start of itself, so the settlements are asked.
    ("account 1,023, one less", |run| {
        on(&mut run.sheet.starts, 1_023, |start| *start = start.saturating_sub(1));
    }),
    ("account 1,023, one more", |run| on(&mut run.sheet.starts, 1_023, |start| *start += 1)),
    ("credits to account 1,023", |run| {
        each_credit(run, |credit| *credit = if *credit == 1_023 { 0 } else { *credit });
    }),
    ("operations on register 63", |run| {
        each_transaction(run, |transaction| {
            transaction.operations.retain(|operation| operation.register != 63);
        });
    }),
    ("operation 7", |run| each_transaction(run, |transaction| transaction.operations.truncate(7))),
    ("debit 3", |run| {
        each_transaction(run, |transaction| {
            if transaction.debits.len() == 4 {
                transaction.debits[3].amount ^= 1;
            }
        });
    }),
    ("credit 3", |run| {
        each_transaction(run, |transaction| {
            if transaction.credits.len() == 4 {
                transaction.credits[3].amount ^= 1;
            }
        });
    }),
    ("place 31", |run| run.offers.iter_mut().for_each(|block| block.citations.truncate(31))),
    ("blocks of instance 15", |run| {
        each_block(run, |block| block.instance == 15, |block| block.citations.clear());
    }),
    ("cut entry 15", |run| {
        each_block(run, |block| block.instance != 15, |block| block.cut[15] = 0);
    }),
    ("block 128", |run| {
        each_block(run, |block| block.number == 128, |block| block.citations.clear());
    }),
    ("block 128 of instance 15", |run| {
        let last = |block: &Block| (block.instance, block.number) == (15, 128);
        each_block(run, last, |block| block.citations.clear());
    }),
    ("place 31 of block 128 of instance 15", |run| {
        let last = |block: &Block| (block.instance, block.number) == (15, 128);
        each_block(run, last, |block| block.citations.truncate(31));
    }),
    ("places 30 and 31 in their order", |run| {
        each_block(run, |block| block.citations.len() == 32, |block| block.citations.swap(30, 31));
    }),
    ("entries of 128", |run| {
        each_block(run, |_| true, |block| block.cut.iter_mut().for_each(|n| *n = 127.min(*n)));
    }),
];

fn on<T>(list: &mut [T], place: usize, change: impl FnOnce(&mut T)) {
    if let Some(item) = list.get_mut(place) {
        change(item);
    }
}

fn each_transaction(run: &mut Run, change: impl FnMut(&mut Transaction)) {
    run.sheet.transactions.iter_mut().for_each(change);
}

fn each_credit(run: &mut Run, change: impl Fn(&mut u16)) {
    each_transaction(run, |transaction| {
        transaction.credits.iter_mut().for_each(|credit| change(&mut credit.account));
    });
}

fn each_block(run: &mut Run, which: impl Fn(&Block) -> bool, change: impl Fn(&mut Block)) {
    run.offers.iter_mut().filter(|block| which(block)).for_each(change);
}

#[test]
fn readings_hang_on_the_last_places() {
    let mut seen: BTreeMap<&str, usize> = BTreeMap::new();
    for run in runs() {
        let mut before = None;
        for (bound, change) in CHANGES {
            let mut changed = run.clone();
            change(&mut changed);
            let same = changed.sheet == run.sheet && changed.offers == run.offers;
            if same || seen.get(bound).is_some_and(|times| *times >= TIMES) {
                continue;
            }
            let before = before.get_or_insert_with(|| shown(&run));
            let after = shown(&changed);
            let differs = match bound {
                "account 1,023, one less" | "account 1,023, one more" => before.0 != after.0,
                _ => *before != after,
            };
            *seen.entry(bound).or_default() += usize::from(differs);
        }
    }
    println!("{seen:#?}");
    for (bound, _) in CHANGES {
        assert!(seen.get(bound).is_some_and(|times| *times >= TIMES), "{bound}: too rare");
    }
}

/// A fault at any place of a transaction's lists is refused.
#[test]
fn faults_at_every_place_are_refused() {
    let mut seen: BTreeMap<u8, usize> = BTreeMap::new();
    for run in runs() {
        for transaction in run.sheet.transactions.iter().rev().take(3) {
            for slip in damage::place_faults(&run.sheet.head, transaction) {
                let mut sheet = run.sheet.clone();
                sheet.transactions.pop();
                let refused = Draft::Begun(sheet).take(&slip, 0);
                *seen.entry(refused.map_or_else(|refusal| refusal.number, |_| 0)).or_default() += 1;
            }
        }
    }
    println!("{seen:?}");
    assert_eq!(seen.keys().copied().collect::<Vec<u8>>(), [5, 6, 7]);
}

/// The answers at last places and entries, as (number, place).
#[test]
fn answers_hang_on_the_last_places() {
    let mut seen: BTreeMap<String, usize> = BTreeMap::new();
    let mut count = |what: String| *seen.entry(what).or_default() += 1;
    for run in runs() {
        assert!(run.bytes().len() <= LONGEST_RUN);
        let mut logs = Logs::new(run.sheet.instances());
        for block in &run.offers {
            match logs.judge(&run.sheet, block) {
                Ok(()) => {
                    if block.citations.len() == 32 {
                        count("32 citations accepted".to_string());
                    }
                    if block.number == 128 {
                        count("block 128 accepted".to_string());
                    }
                    if block.rank == u32::MAX {
                        count("the highest rank accepted".to_string());
                    }
                    logs.push(block.clone());
                }
                Err(Refusal { number, place }) => {
                    count(format!("{number} at {place}"));
                    let cited = |place: usize| block.citations.get(place);
                    if (number, place) == (15, 31) {
                        let repeated = (0..31).find(|earlier| cited(*earlier) == cited(31));
                        count(format!("31 repeats {repeated:?}"));
                    }
                    if number == 8 && block.instance == 16 {
                        count("instance 16".to_string());
                    }
                    if number == 17 && block.number == 129 {
                        count("block 129".to_string());
                    }
                }
            }
        }
    }
    println!("{seen:#?}");
    let mut wanted: Vec<String> = [
        "32 citations accepted",
        "block 128 accepted",
        "the highest rank accepted",
        "31 repeats Some(30)",
        "31 repeats Some(0)",
        "31 repeats None",
        "13 at 31",
        "14 at 31",
        "11 at 15",
        "12 at 15",
        "instance 16",
        "block 129",
    ]
    .map(str::to_string)
    .to_vec();
    wanted.extend((0..32).map(|place| format!("15 at {place}")));
    for what in wanted {
        assert!(seen.get(&what).is_some_and(|times| *times >= TIMES), "{what}: too rare");
    }
}
