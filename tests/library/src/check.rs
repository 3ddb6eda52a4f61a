//! The comparisons of one run.
//!
//! * the sheet, slip by slip, with spoiled slips between and calls that come
//!   too early;
//! * the blocks, offered as slips to the subject and to the second engine,
//!   and as values to another subject;
//! * all readings, now and then and at the end;
//! * the accepted blocks in other orders, with refused offers between: the
//!   readings have to be those of the run ("demand 3", seen from outside).

use crosscheck::engine::format::{self, slip_at};
use crosscheck::engine::{Block, Draft, Engine, Ledger};
use crosscheck::generate::damage;
use crosscheck::generate::random::Random;
use crosscheck::replay::{self, Offer as Replayed};
use rugxeni::{Loading, Offer, Refusal, Settlement};

use crate::counts::Counts;
use crate::difference::{same, Difference};
use crate::expect;
use crate::subject::{Readings, Subject};

/// About so many times in a run all readings are compared before its end.
const READINGS_BETWEEN: u64 = 4;

/// Compares subjects, as `fresh` gives them, with the second engine on a run.
pub fn check<S: Subject>(
    run: &[u8],
    random: &mut Random,
    counts: &mut Counts,
    fresh: impl Fn() -> S,
) -> Result<(), Difference> {
    counts.runs += 1;
    let mut subject = fresh();
    let Some((mut engine, at)) = sheet(run, random, counts, &mut subject)? else {
        return Ok(());
    };
    counts.complete += 1;
    let mut by_values = loaded(run, &fresh)?;
    blocks(run, at, random, counts, &mut subject, &mut by_values, &mut engine)?;
    let ledger = engine.ledger().map_err(|refusal| format!("no ledger: {refusal:?}"))?;
    let last = expect::readings(&engine);
    let same_offers = loaded(run, &fresh)?;
    replay(ledger, random, counts, same_offers, Some(Engine::on(ledger.sheet())), &last)?;
    replay(ledger, random, counts, loaded(run, &fresh)?, None, &last)
}

fn same_readings(
    got: &Readings,
    expected: &Readings,
    counts: &mut Counts,
    what: &str,
) -> Result<(), Difference> {
    counts.readings += 1;
    same(&got.log, &expected.log, || format!("log {what}"))?;
    same(&got.settlements, &expected.settlements, || format!("settlements {what}"))?;
    same(&got.accounts, &expected.accounts, || format!("accounts {what}"))?;
    same(&got.registers, &expected.registers, || format!("registers {what}"))?;
    same(&got.share, &expected.share, || format!("share {what}"))
}

/// A subject with the sheet of a run that is known to be sound.
fn loaded<S: Subject>(run: &[u8], fresh: &impl Fn() -> S) -> Result<S, Difference> {
    let mut subject = fresh();
    let mut at = 0;
    loop {
        match subject.load(run, at) {
            Ok(Loading::Next(next)) => at = next,
            Ok(Loading::Complete) => return Ok(subject),
            Err(refusal) => return Err(format!("the sheet, loaded again: {refusal:?}")),
        }
    }
}

/// The sheet. Gives the engine and where the blocks begin; `None` where the
/// sheet was turned away, by both alike.
fn sheet<S: Subject>(
    run: &[u8],
    random: &mut Random,
    counts: &mut Counts,
    subject: &mut S,
) -> Result<Option<(Engine, usize)>, Difference> {
    let (mut engine, mut at) = (Engine::new(), 0);
    while engine.ledger().is_err() {
        if random.chance(10) || last_transaction_is_due(&engine) {
            early(run, at, random, counts, subject, &mut engine)?;
            spoiled(run, at, random, counts, subject, &engine)?;
        }
        counts.sheet_slips += 1;
        let expected = engine.feed(run, at).map_err(expect::refusal);
        let got = subject.load(run, at);
        same(&got, &expected.map(Loading::Next), || format!("sheet slip at {at}"))?;
        match expected {
            Ok(next) => at = next,
            Err(_) => {
                early(run, at, random, counts, subject, &mut engine)?;
                return Ok(None);
            }
        }
    }
    for anywhere in [at, 0, run.len()] {
        let got = subject.load(run, anywhere);
        same(&got, &Ok(Loading::Complete), || "loading a complete sheet".to_string())?;
    }
    Ok(Some((engine, at)))
}

fn last_transaction_is_due(engine: &Engine) -> bool {
    let Draft::Begun(sheet) = engine.draft() else {
        return false;
    };
    sheet.transactions.len() + 1 == usize::from(sheet.head.t)
}

/// The slip that is due, spoiled in every shape and in one byte, the last
/// transaction at every place of its lists: refused, it leaves the sound one to
/// be loaded.
fn spoiled<S: Subject>(
    run: &[u8],
    at: usize,
    random: &mut Random,
    counts: &mut Counts,
    subject: &mut S,
    engine: &Engine,
) -> Result<(), Difference> {
    let Ok(slip) = slip_at(run, at) else {
        return Ok(());
    };
    let sound = &run[at..slip.next];
    let mut faulty = damage::shape_faults(sound);
    let mut one_byte = sound.to_vec();
    one_byte[random.place(sound.len())] = random.bits() as u8;
    faulty.push(one_byte);
    if let Draft::Begun(sheet) = engine.draft() {
        let transaction =
            format::transaction(slip.body).filter(|_| last_transaction_is_due(engine));
        let at_each_place = transaction.map(|sound| damage::place_faults(&sheet.head, &sound));
        faulty.extend(at_each_place.unwrap_or_default());
    }
    for slip in faulty {
        // A fault may be none; then the slip is not fed to either.
        if let Err(refusal) = engine.clone().feed(&slip, 0) {
            counts.sheet_slips += 1;
            let expected = Err(expect::refusal(refusal));
            same(&subject.load(&slip, 0), &expected, || format!("spoiled sheet slip {slip:?}"))?;
        }
    }
    Ok(())
}

/// Calls before the sheet is complete.
fn early<S: Subject>(
    run: &[u8],
    at: usize,
    random: &mut Random,
    counts: &mut Counts,
    subject: &mut S,
    engine: &mut Engine,
) -> Result<(), Difference> {
    same_readings(&subject.readings(), &expect::readings(engine), counts, "too early")?;
    for anywhere in [at, random.place(run.len() + 2)] {
        let expected = expect::offer_slip(engine, run, anywhere);
        let got = subject.offer_slip(run, anywhere);
        same(&got, &expected, || format!("slip at {anywhere}, offered too early"))?;
    }
    let block = Block { instance: 0, number: 1, rank: 1, cut: [0; 16], citations: vec![0; 33] };
    let expected = expect::offer_values(engine, &block);
    same(&subject.offer_values(&block), &expected, || "values offered too early".to_string())
}

/// The blocks, as slips and as values. A slip that cannot be read ends no
/// ledger: what follows it is offered, too, if it can be found.
fn blocks<S: Subject>(
    run: &[u8],
    mut at: usize,
    random: &mut Random,
    counts: &mut Counts,
    subject: &mut S,
    by_values: &mut S,
    engine: &mut Engine,
) -> Result<(), Difference> {
    let m = engine.ledger().map_or(0, |ledger| ledger.sheet().head.m);
    // A block slip has at least 18 bytes; so many are left at most.
    let slips = (run.len() - at) as u64 / 18 + 1;
    while at < run.len() {
        counts.slips += 1;
        let expected = expect::offer_slip(engine, run, at);
        let got = subject.offer_slip(run, at);
        same(&got, &expected, || format!("slip offered at {at}"))?;
        counts.accepted += u64::from(got == Offer::Accepted);
        let Ok(slip) = slip_at(run, at) else {
            break;
        };
        if let Some(block) = (slip.kind == 4).then(|| format::block(slip.body, m)).flatten() {
            counts.values += 1;
            let got = by_values.offer_values(&block);
            same(&got, &as_values(expected), || format!("values of the slip at {at}"))?;
            counts.accepted += u64::from(got == Offer::Accepted);
        }
        if random.below(slips) < READINGS_BETWEEN {
            let what = format!("after the slip at {at}");
            let readings = subject.readings();
            same_readings(&readings, &expect::readings(engine), counts, &what)?;
            same_readings(&by_values.readings(), &readings, counts, &format!("of values {what}"))?;
            let got = subject.offer_slip(run, run.len());
            same(&got, &Offer::NoByte, || format!("no byte left, {what}"))?;
        }
        at = slip.next;
    }
    for nothing in [run.len(), run.len() + 1] {
        let got = subject.offer_slip(run, nothing);
        same(&got, &Offer::NoByte, || format!("no byte left at {nothing}"))?;
    }
    let readings = subject.readings();
    same_readings(&readings, &expect::readings(engine), counts, "at the end")?;
    same_readings(&by_values.readings(), &readings, counts, "of values at the end")
}

/// What the values of a readable block slip are answered: 5 has place 0.
fn as_values(answer: Offer) -> Offer {
    match answer {
        Offer::Refused(Refusal { number: 5, .. }) => {
            Offer::Refused(Refusal { number: 5, place: 0 })
        }
        other => other,
    }
}

/// The blocks of a ledger's logs in another order, with refused offers
/// between. With an engine every answer is compared; without one it has to be
/// that each block of the logs is accepted once and nothing else is.
fn replay<S: Subject>(
    ledger: &Ledger,
    random: &mut Random,
    counts: &mut Counts,
    mut subject: S,
    engine: Option<Result<Engine, crosscheck::engine::Refusal>>,
    last: &Readings,
) -> Result<(), Difference> {
    counts.replays += 1;
    let mut engine = engine.transpose().map_err(|refusal| format!("no engine: {refusal:?}"))?;
    let noise = random.pick(&[0, 20, 60]);
    let offers = replay::offers(random, ledger.sheet(), ledger.logs(), noise);
    let mut accepted = 0;
    for (place, offer) in offers.iter().enumerate() {
        let what = || format!("offer {place} of a replay, {offer:?}");
        let (got, expected) = match offer {
            Replayed::Slip { bytes, offset } => {
                counts.slips += 1;
                let got = subject.offer_slip(bytes, *offset);
                (got, engine.as_mut().map(|e| expect::offer_slip(e, bytes, *offset)))
            }
            Replayed::Values(block) => {
                counts.values += 1;
                let got = subject.offer_values(block);
                (got, engine.as_mut().map(|e| expect::offer_values(e, block)))
            }
        };
        same(&got, &expected.unwrap_or(got), what)?;
        accepted += u64::from(got == Offer::Accepted);
        if random.below(offers.len() as u64) < READINGS_BETWEEN {
            let readings = subject.readings();
            if let Some(engine) = &engine {
                same_readings(&readings, &expect::readings(engine), counts, &what())?;
            }
            beginning(&readings, last).map_err(|text| format!("{text} after {}", what()))?;
        }
    }
    counts.accepted += accepted;
    same(&accepted, &(ledger.logs().all().count() as u64), || "blocks of a replay".to_string())?;
    same_readings(&subject.readings(), last, counts, "of a replay")
}

/// The log of a beginning is a beginning of the log, and what is settled
/// stays as it is.
fn beginning(before: &Readings, last: &Readings) -> Result<(), Difference> {
    let (Ok(log), Ok(last_log)) = (&before.log, &last.log) else {
        return Err("no log".to_string());
    };
    if !last_log.starts_with(log) {
        return Err(format!("the log {log:?} is no beginning of the last"));
    }
    let (Ok(settlements), Ok(last_settlements)) = (&before.settlements, &last.settlements) else {
        return Err("no settlements".to_string());
    };
    let stays = |(before, last)| before == &Settlement::Open || before == last;
    match settlements.iter().zip(last_settlements).position(|pair| !stays(pair)) {
        Some(number) => Err(format!("transaction {number} did not stay settled")),
        None => Ok(()),
    }
}
