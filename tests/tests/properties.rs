//! What must hold of every run, tried on some hundred seeds.

use std::collections::{BTreeMap, BTreeSet};

use crosscheck::engine::format::slip_at;
use crosscheck::engine::write::checked::Lists;
use crosscheck::engine::{
    reading, rules, write, Account, Answer, Draft, Engine, Ledger, Logs, Outcomes, Refusal, Sheet,
    Status,
};
use crosscheck::generate::random::Random;
use crosscheck::generate::spoil::{self, Fault, FAULTS};
use crosscheck::generate::{self, damage, Run, Size};
use crosscheck::replay;

/// Everything that demand 3 compares.
#[derive(Debug, PartialEq)]
struct Readings {
    log: Vec<(u16, u16)>,
    outcomes: Outcomes,
    settlements: Vec<Status>,
    share: u32,
    registers: Vec<u32>,
    accounts: Vec<Account>,
}

fn readings(ledger: &Ledger) -> Readings {
    Readings {
        log: ledger.log(),
        outcomes: ledger.outcomes().clone(),
        settlements: ledger.settlements(),
        share: ledger.share(),
        registers: ledger.registers(),
        accounts: ledger.accounts(),
    }
}

fn engine_on(sheet: &Sheet) -> Engine {
    Engine::on(sheet).expect("a complete sheet")
}

fn ledger(engine: &Engine) -> &Ledger {
    engine.ledger().expect("a complete sheet")
}

/// The ledger after all offers of a run.
fn after(run: &Run) -> Ledger {
    let mut ledger = Ledger::new(run.sheet.clone());
    for block in &run.offers {
        ledger.offer_values(block);
    }
    ledger
}

/// Runs of the first three sizes, for so many seeds.
fn runs(seeds: u64, noise: u64) -> impl Iterator<Item = (Random, Run)> {
    (0..seeds).map(move |seed| {
        let mut random = Random::new(seed);
        let size = match seed % 10 {
            0..5 => Size::Tiny,
            5..9 => Size::Small,
            _ => Size::Medium,
        };
        let run = generate::run(&mut random, size, noise);
        (random, run)
    })
}

/// "free and held amounts over all accounts add up to the starting balances".
fn assert_totals(ledger: &Ledger) {
    let starts: u128 = ledger.sheet().starts.iter().map(|start| u128::from(*start)).sum();
    let amounts: u128 = ledger.accounts().iter().map(|account| account.free + account.held).sum();
    assert_eq!(starts, amounts);
}

#[test]
fn sound_runs_are_sound() {
    for (_, run) in runs(300, 0) {
        let bytes = run.bytes();
        assert!(bytes.len() <= 65_536);
        let text = String::from_utf8(reading(&bytes)).expect("plain text");
        assert!(!text.contains("refused") && text.contains("share"), "{text}");
        assert_eq!(text.lines().filter(|line| line.starts_with("ok ")).count(), run.offers.len());
    }
}

/// The generator reaches what it is there for.
#[test]
fn runs_are_varied() {
    let mut seen: BTreeMap<String, usize> = BTreeMap::new();
    let mut count = |what: &str| *seen.entry(what.to_string()).or_default() += 1;
    for (_, run) in runs(300, 0) {
        let ledger = after(&run);
        let settlements = ledger.settlements();
        for (transaction, status) in run.sheet.transactions.iter().zip(settlements) {
            let sort = if transaction.is_contract() { "contract" } else { "payment" };
            count(&format!("{sort} {status:?}"));
            let credited: Vec<u16> = transaction.credits.iter().map(|c| c.account).collect();
            if transaction.debits.iter().any(|debit| credited.contains(&debit.account)) {
                count(&format!("to itself {status:?}"));
            }
            if transaction.is_contract() && transaction.operations.len() == 8 {
                count(&format!("eight operations {status:?}"));
            }
        }
        for instance in 0..run.sheet.instances() {
            count(if ledger.logs().of(instance).is_empty() { "silent" } else { "delivering" });
            for good in ledger.outcomes().of(instance).iter().flatten() {
                count(if *good { "good" } else { "failed" });
            }
        }
        if (0..run.sheet.transactions.len()).any(|number| run.sheet.parts(number) > 1) {
            count("several parts");
        }
        if ledger.registers().contains(&u32::MAX) {
            count("register at its limit");
        }
        let ranks: Vec<u32> = ledger.logs().all().map(|block| block.rank).collect();
        let distinct: BTreeSet<u32> = ranks.iter().copied().collect();
        if distinct.len() < ranks.len() {
            count("ranks tie");
        }
        if ranks.contains(&u32::MAX) {
            count("highest rank");
        }
        if ledger.accounts().iter().any(|account| account.held > 0) {
            count("held");
        }
    }
    println!("{seen:#?}");
    for what in [
        "payment Paid",
        "payment Returned",
        "payment Open",
        "contract Paid",
        "contract Returned",
        "contract Open",
        "to itself Paid",
        "to itself Returned",
        "eight operations Paid",
        "eight operations Returned",
        "silent",
        "delivering",
        "good",
        "failed",
        "several parts",
        "register at its limit",
        "ranks tie",
        "highest rank",
        "held",
    ] {
        assert!(seen.get(what).is_some_and(|times| *times >= 5), "{what} is too rare");
    }
}

#[test]
fn amounts_add_up_after_every_offer() {
    for (_, run) in runs(200, 20) {
        let mut ledger = Ledger::new(run.sheet.clone());
        assert_totals(&ledger);
        for block in run.offers.iter().take(80) {
            ledger.offer_values(block);
            assert_totals(&ledger);
        }
    }
}

/// A refused offer changes nothing; an accepted one adds its block.
#[test]
fn refused_offers_leave_no_trace() {
    for (_, run) in runs(200, 50) {
        let mut ledger = Ledger::new(run.sheet.clone());
        for block in &run.offers {
            let before = ledger.clone();
            match ledger.offer_values(block) {
                Answer::Refused(_) => assert_eq!(before, ledger),
                Answer::Accepted { instance, number } => {
                    assert_eq!((instance, number), (block.instance, block.number));
                    assert_eq!(ledger.logs().of(instance.into()).last(), Some(block));
                    assert_eq!(ledger.logs().all().count(), before.logs().all().count() + 1);
                }
            }
        }
        assert_eq!(*ledger.logs(), run.logs());
    }
}

/// Demand 3, parts 1 to 3: the readings are those of the logs, however the
/// instances interleave and whatever refused offers lie between.
#[test]
fn replays_come_to_the_same_readings() {
    for (mut random, run) in runs(300, 10) {
        let first = after(&run);
        assert_eq!(*first.outcomes(), rules::outcomes(&run.sheet, first.logs()));
        for _ in 0..3 {
            let mut engine = engine_on(&run.sheet);
            for offer in replay::offers(&mut random, &run.sheet, first.logs(), 60) {
                offer.make(&mut engine);
            }
            assert_eq!(ledger(&engine).logs(), first.logs());
            assert_eq!(readings(ledger(&engine)), readings(&first));
        }
    }
}

/// In a replay the blocks of the logs are accepted, each once, and every
/// other offer is turned away.
#[test]
fn replays_accept_the_logs_and_nothing_else() {
    let mut numbers = BTreeSet::new();
    for (mut random, run) in runs(200, 0) {
        let logs = run.logs();
        let mut engine = engine_on(&run.sheet);
        let mut accepted = 0;
        for offer in replay::offers(&mut random, &run.sheet, &logs, 70) {
            match offer.make(&mut engine) {
                Answer::Accepted { .. } => accepted += 1,
                Answer::Refused(refusal) => {
                    numbers.insert(refusal.number);
                }
            }
        }
        assert_eq!(accepted, logs.all().count());
    }
    // 6 and 7 are for transactions; 17 needs a full instance.
    assert!((1..=15).filter(|n| ![6, 7].contains(n)).all(|n| numbers.contains(&n)), "{numbers:?}");
}

/// Demand 3, part 4: the log of a beginning is a beginning of the log, and
/// every part outcome and every paid or returned stays.
#[test]
fn beginnings_stay() {
    for (mut random, run) in runs(200, 0) {
        let last = readings(&after(&run));
        let mut so_far = Ledger::new(run.sheet.clone());
        for block in replay::order(&mut random, &run.logs()).iter().take(150) {
            assert_beginning(&run.sheet, &readings(&so_far), &last);
            so_far.offer_values(block);
        }
    }
}

fn assert_beginning(sheet: &Sheet, before: &Readings, after: &Readings) {
    assert!(after.log.starts_with(&before.log));
    for instance in 0..sheet.instances() {
        assert!(after.outcomes.of(instance).starts_with(before.outcomes.of(instance)));
    }
    for (before, after) in before.settlements.iter().zip(&after.settlements) {
        assert!(*before == Status::Open || before == after);
    }
}

/// The same block as a slip and as values gets the same answer.
#[test]
fn values_and_slips_agree() {
    for (_, run) in runs(300, 40) {
        let (mut by_slip, mut by_values) = (engine_on(&run.sheet), engine_on(&run.sheet));
        let bytes = run.bytes();
        let mut offset = write::sheet(&run.sheet).concat().len();
        for block in &run.offers {
            assert_eq!(by_slip.offer_slip(&bytes, offset), by_values.offer_values(block));
            offset = slip_at(&bytes, offset).expect("a sound slip").next;
        }
        assert_eq!(offset, bytes.len());
        assert_eq!(ledger(&by_slip), ledger(&by_values));
    }
}

/// A slip that is read and written again is the same bytes, and the writer
/// that checks gives what the plain one gives.
#[test]
fn slips_are_read_as_written() {
    for (_, run) in runs(200, 20) {
        let bytes = run.bytes();
        let (mut draft, mut offset) = (Draft::default(), 0);
        while draft.complete().is_none() {
            let written = match &draft {
                Draft::Empty => write::checked::head(&draft, &run.sheet.head),
                Draft::Headed(_) => write::checked::starts(&draft, &run.sheet.starts),
                Draft::Begun(sheet) => {
                    let next = &run.sheet.transactions[sheet.transactions.len()];
                    write::checked::transaction(&draft, &Lists::of(next))
                }
            };
            let next = draft.take(&bytes, offset).expect("a sound slip");
            assert_eq!(written.as_deref(), Ok(&bytes[offset..next]));
            offset = next;
        }
        assert_eq!(draft.complete(), Some(&run.sheet));
        for block in &run.offers {
            let count = block.citations.len() as u16;
            let written = write::checked::block(&draft, block, count).expect("a sound block");
            assert!(bytes[offset..].starts_with(&written));
            offset += written.len();
        }
    }
}

/// Every fault put into a sound block is answered by the number it is for,
/// unless it does not apply and leaves the block sound.
#[test]
fn faults_are_answered_by_their_numbers() {
    let mut seen: BTreeMap<u8, usize> = BTreeMap::new();
    for (mut random, run) in runs(400, 0) {
        let mut logs = Logs::new(run.sheet.instances());
        for block in &run.offers {
            let fault = random.pick(&FAULTS);
            let faulty = spoil::put(&mut random, &run.sheet, &logs, block.clone(), fault);
            if let Err(Refusal { number, .. }) = logs.judge(&run.sheet, &faulty) {
                assert!(expected(fault).contains(&number), "{fault:?} gives {number}");
                *seen.entry(number).or_default() += 1;
            }
            logs.push(block.clone());
        }
    }
    println!("{seen:?}");
    assert!([8, 9, 10, 11, 12, 13, 14, 15, 17].iter().all(|number| seen.contains_key(number)));
}

fn expected(fault: Fault) -> &'static [u8] {
    match fault {
        Fault::Instance => &[8],
        Fault::Full => &[17],
        Fault::Number => &[9],
        Fault::Rank => &[10],
        Fault::OwnEntry | Fault::FallingEntry => &[11],
        // In the own entry a count too high is an 11 already; one that is
        // chosen out of a few numbers may also be below the one before.
        Fault::HighEntry => &[11, 12],
        Fault::Unknown => &[13],
        Fault::NoPart => &[14],
        Fault::CitedBefore | Fault::CitedTwice => &[15],
        Fault::Resent => &[9, 17],
    }
}

/// Every field of every sheet slip, set out of its range: the refusal stands
/// at that slip, whatever it is.
#[test]
fn field_faults_are_refused_where_they_are() {
    let mut numbers = BTreeSet::new();
    for (_, run) in runs(60, 0) {
        let slips = run.slips();
        let places = (0..slips.len()).step_by(1 + slips.len() / 12);
        for place in places {
            let start = slips[..place].concat();
            let faulty = damage::field_faults(&run, place)
                .into_iter()
                .chain(damage::shape_faults(&slips[place]));
            for slip in faulty.filter(|slip| *slip != slips[place]) {
                let text = reading(&[&start[..], &slip].concat());
                let text = String::from_utf8(text).expect("plain text");
                let last = text.lines().last().unwrap_or_default();
                let words: Vec<&str> = last.split(' ').collect();
                match words[..] {
                    ["refused", number, offset] => {
                        numbers.insert(number.to_string());
                        assert_eq!(offset, start.len().to_string());
                    }
                    // An operation that is not there cannot be wrong.
                    _ => assert!(slip_is_sound(&run, place, &slip), "{text}"),
                }
            }
        }
    }
    let wanted: BTreeSet<String> = (1..=7).map(|number| number.to_string()).collect();
    assert_eq!(numbers, wanted);
}

/// Whether a changed transaction is a sound one all the same.
fn slip_is_sound(run: &Run, place: usize, slip: &[u8]) -> bool {
    let mut draft = Draft::default();
    for slip in &run.slips()[..place] {
        if draft.take(slip, 0).is_err() {
            return false;
        }
    }
    draft.take(slip, 0).is_ok()
}

/// The runs that a program is compared on: no bytes make the engine stumble,
/// and all refusals appear among them.
#[test]
fn compared_runs_are_read_to_an_end() {
    let mut numbers = BTreeSet::new();
    let mut endings: BTreeMap<&str, usize> = BTreeMap::new();
    for seed in 1_000..2_000 {
        let text = String::from_utf8(reading(&generate::bytes(seed))).expect("plain text");
        assert!(text.ends_with('\n'));
        for line in text.lines().filter(|line| line.starts_with("refused ")) {
            numbers
                .insert(line.split(' ').nth(1).and_then(|number| number.parse().ok()).unwrap_or(0));
        }
        let last = text.lines().last().and_then(|line| line.split(' ').next()).unwrap_or_default();
        let ending = ["long", "refused", "share"].into_iter().find(|word| *word == last);
        *endings.entry(ending.expect("one of three endings")).or_default() += 1;
    }
    println!("{endings:?}");
    assert_eq!(endings.len(), 3);
    let wanted: BTreeSet<u8> = (1..=15).chain([17]).collect();
    assert_eq!(numbers, wanted);
}

/// A run ended at every byte: refusal 1 at the slip that is cut short, or at
/// the end if the sheet is not complete; otherwise a whole reading.
#[test]
fn truncated_runs_are_refused_where_they_end() {
    for (_, run) in runs(30, 20).filter(|(_, run)| run.bytes().len() < 2_000) {
        let bytes = run.bytes();
        let sheet = write::sheet(&run.sheet).concat().len();
        let (mut slip, mut ends) = (0, BTreeSet::from([0]));
        for written in run.slips() {
            slip += written.len();
            ends.insert(slip);
        }
        for end in 0..bytes.len() {
            let text = String::from_utf8(reading(&bytes[..end])).expect("plain text");
            let last = text.lines().last().unwrap_or_default();
            if ends.contains(&end) && end >= sheet {
                assert!(last.starts_with("share "), "{text}");
            } else {
                let slip = ends.range(..=end).last().copied().unwrap_or(0);
                assert_eq!(last, format!("refused 1 {slip}"));
            }
        }
    }
}

/// Bytes that are no run at all.
#[test]
fn any_bytes_are_read_to_an_end() {
    for seed in 0..2_000 {
        let mut random = Random::new(seed);
        let length = random.place(200);
        let bytes: Vec<u8> =
            (0..length).map(|_| random.pick(&[0, 0, 1, 2, 3, 4, 8, 10, 255])).collect();
        assert!(reading(&bytes).ends_with(b"\n"));
    }
}

/// Calls before the sheet is complete.
#[test]
fn an_incomplete_sheet_answers_3() {
    let run = generate::run(&mut Random::new(5), Size::Small, 0);
    let slips = write::sheet(&run.sheet);
    let mut engine = Engine::new();
    for slip in &slips {
        assert_eq!(engine.accounts(), Err(Refusal::new(3, 0)));
        assert_eq!(engine.registers(), Err(Refusal::new(3, 0)));
        assert_eq!(engine.settlements(), Err(Refusal::new(3, 0)));
        assert_eq!(engine.share(), Err(Refusal::new(3, 0)));
        assert_eq!(engine.log(), Err(Refusal::new(3, 0)));
        for block in run.offers.iter().take(1) {
            assert_eq!(engine.offer_values(block), Answer::Refused(Refusal::new(3, 0)));
            let slip = [&[7, 7][..], &write::block(block, run.sheet.head.m)].concat();
            assert_eq!(engine.offer_slip(&slip, 2), Answer::Refused(Refusal::new(3, 2)));
        }
        assert_eq!(engine.feed(slip, 0), Ok(slip.len()));
    }
    assert!(engine.log().is_ok());
}

/// The largest run: 16 × 128 blocks, 1,024 transactions.
#[test]
fn the_largest_run() {
    let mut random = Random::new(1);
    let run = generate::run(&mut random, Size::Largest, 0);
    assert_eq!(run.logs().all().count(), 16 * 128);
    assert_eq!(run.sheet.transactions.len(), 1_024);
    assert_eq!(reading(&run.bytes()), b"long\n");
    let first = after(&run);
    assert_totals(&first);
    let mut engine = engine_on(&run.sheet);
    for offer in replay::offers(&mut random, &run.sheet, first.logs(), 10) {
        offer.make(&mut engine);
    }
    assert_eq!(readings(ledger(&engine)), readings(&first));
}
