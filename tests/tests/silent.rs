//! Request 04, "An instance that has delivered nothing": its sentences as
//! properties, and how often the generated runs hang on them.

use std::collections::BTreeMap;

use crosscheck::engine::format::slip_at;
use crosscheck::engine::rules::{self, Picture, View};
use crosscheck::engine::{Answer, Block, Cut, Engine, Ledger, Logs};
use crosscheck::generate::random::Random;
use crosscheck::generate::{self, Run, Size};
use crosscheck::replay;

/// Blocks as (instance, sequence number).
type Log = Vec<(u16, u16)>;

fn log(logs: &Logs, view: &View) -> Log {
    rules::global_log(logs, view).iter().map(|block| (block.instance, block.number)).collect()
}

/// The instances without a block among so many of each.
fn silent(counts: &Cut, instances: usize) -> Vec<usize> {
    (0..instances).filter(|instance| counts[*instance] == 0).collect()
}

/// How many blocks of each instance there are.
fn counts(logs: &Logs) -> Cut {
    let mut counts = [0; 16];
    for (instance, count) in counts.iter_mut().enumerate().take(logs.instances()) {
        *count = logs.of(instance).len() as u16;
    }
    counts
}

/// The log of a view, from the sentences alone: the bar by last ranks, that of
/// an instance without a block being 0; the blocks below it, ascending.
fn log_by_the_request(logs: &Logs, counts: &Cut) -> Log {
    let rank = |instance: usize, number: u16| match number {
        0 => 0,
        _ => u64::from(logs.of(instance)[usize::from(number) - 1].rank),
    };
    let instances = 0..logs.instances();
    let least = instances.clone().map(|i| (rank(i, counts[i]), i)).min().expect("an instance");
    let bar = (least.0 + 1, least.1);
    let blocks = instances.flat_map(|i| (1..=counts[i]).map(move |number| (i, number)));
    let mut below: Vec<_> = blocks.filter(|(i, number)| (rank(*i, *number), *i) < bar).collect();
    below.sort_by_key(|(i, number)| (rank(*i, *number), *i));
    below.into_iter().map(|(i, number)| (i as u16, number)).collect()
}

fn runs(seeds: u64, noise: u64) -> impl Iterator<Item = (Random, Run)> {
    (0..seeds).map(move |seed| {
        let mut random = Random::new(seed);
        let size = if seed % 3 == 0 { Size::Small } else { Size::Tiny };
        let run = generate::run(&mut random, size, noise);
        (random, run)
    })
}

/// In the full view and in that of every citation: what is below the bar, all
/// of it, ascending; and a beginning of the log of the full view.
#[test]
fn logs_are_what_is_below_the_bar() {
    for (_, run) in runs(400, 10) {
        let logs = run.logs();
        let full = log(&logs, &View::full(&logs));
        assert_eq!(full, log_by_the_request(&logs, &counts(&logs)));
        for block in logs.all() {
            let seen = log(&logs, &View::of_citation(block, 0));
            assert_eq!(seen, log_by_the_request(&logs, &block.cut));
            assert!(full.starts_with(&seen), "{full:?} does not begin with {seen:?}");
        }
    }
}

/// "A view with no blocks at all still has an empty log."
#[test]
fn no_blocks_no_log() {
    let mut views = 0;
    for (_, run) in runs(300, 0) {
        let logs = run.logs();
        let none = Logs::new(run.sheet.instances());
        assert!(log(&none, &View::full(&none)).is_empty());
        for block in logs.all().filter(|block| block.cut == [0; 16]) {
            assert!(log(&logs, &View::of_citation(block, 0)).is_empty());
            views += 1;
        }
    }
    assert!(views > 300, "{views} views without a block");
}

/// "a shorter replay's log must still be a beginning of the longer one's":
/// after every block, in any order of arrival.
#[test]
fn shorter_logs_are_beginnings() {
    let mut grown = 0;
    for (mut random, run) in runs(300, 0) {
        let mut so_far = Logs::new(run.sheet.instances());
        let mut before = Log::new();
        for block in replay::order(&mut random, &run.logs()) {
            let was_silent = !silent(&counts(&so_far), so_far.instances()).is_empty();
            so_far.push(block);
            let after = log(&so_far, &View::full(&so_far));
            assert!(after.starts_with(&before), "{after:?} does not begin with {before:?}");
            grown += usize::from(was_silent && after.len() > before.len() && !before.is_empty());
            before = after;
        }
    }
    println!("{grown} logs grew that were not empty while an instance was silent");
    assert!(grown > 30);
}

/// The same blocks with ranks one higher. No rank is 1 then, so that a view
/// without a block of some instance has an empty log; in any other view
/// nothing changes. That is the rule that request 04 has replaced.
fn by_the_old_rule(logs: &Logs) -> Option<Logs> {
    let mut raised = Logs::new(logs.instances());
    for block in logs.all() {
        raised.push(Block { rank: block.rank.checked_add(1)?, ..block.clone() });
    }
    Some(raised)
}

#[test]
fn higher_ranks_give_the_old_rule() {
    let mut emptied = 0;
    for (_, run) in runs(300, 0) {
        let logs = run.logs();
        let Some(raised) = by_the_old_rule(&logs) else {
            continue;
        };
        for block in logs.all() {
            let view = View::of_citation(block, 0);
            let (now, before) = (log(&logs, &view), log(&raised, &view));
            if silent(&block.cut, logs.instances()).is_empty() {
                assert_eq!(now, before);
            } else {
                assert!(before.is_empty());
                emptied += usize::from(!now.is_empty());
            }
        }
    }
    assert!(emptied > 300, "{emptied} views");
}

/// A run of several instances that is read to its end.
struct Reading {
    ledger: Ledger,
    /// For each instance how many blocks were there when its first one came.
    first: Vec<Option<usize>>,
    /// The instances of the blocks that were turned away.
    refused: Vec<u16>,
}

/// `None` if the run is not read to its end or has one instance.
fn read(run: &[u8]) -> Option<Reading> {
    let (mut engine, mut offset) = Engine::load(run).ok()?;
    let mut first = vec![None; engine.ledger().ok()?.logs().instances()];
    let (mut accepted, mut refused) = (0, Vec::new());
    while offset < run.len() {
        let answer = engine.offer_slip(run, offset);
        let slip = slip_at(run, offset).ok()?;
        match answer {
            Answer::Accepted { instance, .. } => {
                first[usize::from(instance)].get_or_insert(accepted);
                accepted += 1;
            }
            Answer::Refused(refusal) if refusal.number <= 7 => return None,
            Answer::Refused(_) => refused.push(u16::from_le_bytes([slip.body[0], slip.body[1]])),
        }
        offset = slip.next;
    }
    let ledger = engine.ledger().ok()?.clone();
    (ledger.logs().instances() > 1).then_some(Reading { ledger, first, refused })
}

/// What a run shows of request 04.
fn shown(Reading { ledger, first, refused }: &Reading) -> Vec<&'static str> {
    let logs = ledger.logs();
    let (m, blocks) = (logs.instances(), logs.all().count());
    let mut shown = Vec::new();
    let mut show = |what: &'static str, is_shown: bool| shown.extend(is_shown.then_some(what));
    let without = silent(&counts(logs), m);
    show("silent", !without.is_empty());
    show("silent: no block at all", blocks == 0);
    show("silent: the lowest", without == [0]);
    show("silent: the highest", without == [m - 1]);
    show("silent: one between", without.len() == 1 && (1..m - 1).contains(&without[0]));
    show("silent: several", without.len() > 1 && blocks > 0);
    show("silent, the log not empty", !without.is_empty() && !ledger.log().is_empty());
    let turned_away = |i: &usize| refused.iter().any(|refused| usize::from(*refused) == *i);
    show("silent, blocks turned away", without.iter().any(turned_away));
    let late = |i: usize| first[i].is_some_and(|at| at >= m && 2 * at >= blocks);
    show("late", (0..m).any(late));
    show("late, of rank 1", (0..m).any(|i| late(i) && logs.of(i)[0].rank == 1));
    let mut firsts = (0..m).filter_map(|i| logs.block(i, 1));
    show(
        "first block, the log of its view not empty",
        firsts.any(|block| !log(logs, &View::of_citation(block, 0)).is_empty()),
    );
    shown
}

/// What would be otherwise by the old rule.
fn hanging(ledger: &Ledger) -> Vec<&'static str> {
    let (sheet, logs) = (ledger.sheet(), ledger.logs());
    let Some(raised) = by_the_old_rule(logs) else {
        return Vec::new();
    };
    let outcomes = rules::outcomes(sheet, &raised);
    let before = Picture::of(sheet, &raised, &outcomes, &View::full(&raised));
    let mut hanging = Vec::new();
    let mut hangs = |what: &'static str, differs: bool| hanging.extend(differs.then_some(what));
    let other_log = log(&raised, &View::full(&raised)) != ledger.log();
    let other_outcome = outcomes != *ledger.outcomes();
    let other_settlement = before.settlements() != ledger.settlements();
    let other_accounts = before.accounts() != ledger.accounts();
    let other_registers = before.registers() != ledger.registers();
    hangs("other log", other_log);
    hangs("other outcome", other_outcome);
    hangs("other settlement", other_settlement);
    hangs("other amounts", other_accounts);
    hangs("other registers", other_registers);
    hangs("other outcome, the same log", other_outcome && !other_log);
    let lines = other_log || other_settlement || other_accounts || other_registers;
    hangs("other reading", lines);
    hanging
}

/// The runs that programs are compared on, those at the limits and damaged
/// ones among them. Of those with more than one instance that are read to
/// their end, at least so many in a thousand.
const WANTED: [(&str, usize); 18] = [
    ("silent", 334),
    ("silent: no block at all", 20),
    ("silent: the lowest", 20),
    ("silent: the highest", 100),
    ("silent: one between", 70),
    ("silent: several", 70),
    ("silent, the log not empty", 200),
    ("silent, blocks turned away", 50),
    ("late", 100),
    ("late, of rank 1", 25),
    ("first block, the log of its view not empty", 200),
    ("other log", 200),
    ("other outcome", 80),
    ("other outcome, the same log", 15),
    ("other settlement", 150),
    ("other amounts", 120),
    ("other registers", 50),
    ("other reading", 200),
];

#[test]
fn runs_hang_on_silent_instances() {
    let mut seen: BTreeMap<&str, usize> = BTreeMap::new();
    let mut all = 0;
    for reading in (1..=1_000).filter_map(|seed| read(&generate::bytes(seed))) {
        all += 1;
        for what in shown(&reading).into_iter().chain(hanging(&reading.ledger)) {
            *seen.entry(what).or_default() += 1;
        }
    }
    println!("of {all} runs {seen:#?}");
    for (what, least) in WANTED {
        let times = seen.get(what).copied().unwrap_or(0);
        assert!(1_000 * times >= least * all, "{what}: {times} of {all}");
    }
}
