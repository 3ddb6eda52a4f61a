// Times the library on the largest run, and compares every answer and reading with the second engine's.
//
//     bash tests/staticlib.sh rugxeni
//     cargo run --offline --release --manifest-path docs/src/bench_ledger/Cargo.toml
//
// m 16, a 1,024, g 64, t 1,024 (half of them contracts), 16 × 128 blocks, every part cited once, all accepted. The
// blocks are offered as slips of one run; the second engine (tests/) is given the same bytes.

mod case;

use case::{Case, Spread, BLOCKS, INSTANCES};
use crosscheck::engine::format::slip_at;
use crosscheck::engine::{Answer, Engine, Status};
use rugxeni::{Ledger, Offer, Settlement};
use std::hint::black_box;
use std::time::Instant;

const SEED: u64 = 1;
const OFFER_ROUNDS: usize = 5;
const READING_ROUNDS: usize = 50;

// Best and median of some rounds, in milliseconds.
fn timed<T>(rounds: usize, mut call: impl FnMut() -> T) -> (f64, f64) {
    let mut times: Vec<f64> = (0..rounds)
        .map(|_| {
            let start = Instant::now();
            black_box(call());
            start.elapsed().as_secs_f64() * 1e3
        })
        .collect();
    times.sort_by(f64::total_cmp);
    (times[0], times[rounds / 2])
}

// The offset of every block's slip.
fn offsets(case: &Case, mut at: usize) -> Vec<usize> {
    let mut offsets = Vec::new();
    while let Ok(slip) = slip_at(&case.run, at) {
        offsets.push(at);
        at = slip.next;
    }
    offsets
}

// All offers to the library: the ledger then, and what was answered.
fn library(fresh: &Ledger, run: &[u8], offsets: &[usize]) -> (Ledger, Vec<Offer>) {
    let mut ledger = fresh.clone();
    let answers = offsets
        .iter()
        .map(|at| ledger.offer_frame(run, *at))
        .collect();
    (ledger, answers)
}

fn second_engine(fresh: &Engine, run: &[u8], offsets: &[usize]) -> (Engine, Vec<Answer>) {
    let mut engine = fresh.clone();
    let answers = offsets
        .iter()
        .map(|at| engine.offer_slip(run, *at))
        .collect();
    (engine, answers)
}

// Panics where an answer or a reading differs.
fn same(ledger: &mut Ledger, offers: &[Offer], engine: &Engine, answers: &[Answer]) {
    assert_eq!(offers.len(), answers.len());
    for (place, pair) in offers.iter().zip(answers).enumerate() {
        let agree = match pair {
            (Offer::Accepted, Answer::Accepted { .. }) => true,
            (Offer::Refused(one), Answer::Refused(other)) => {
                (one.number, one.place) == (other.number.into(), other.place)
            }
            _ => false,
        };
        assert!(agree, "offer {place}: {pair:?}");
    }
    assert_eq!(ledger.log().ok(), engine.log().ok(), "the log");
    let accounts: Option<Vec<(u128, u128)>> = ledger.accounts().ok().map(|list| {
        let amounts = list.iter().map(|one| (one.free.into(), one.held.into()));
        amounts.collect()
    });
    let expected = engine.accounts().ok();
    let expected = expected.map(|list| list.iter().map(|one| (one.free, one.held)).collect());
    assert_eq!(accounts, expected, "the accounts");
    assert_eq!(
        ledger.registers().ok(),
        engine.registers().ok(),
        "the registers"
    );
    assert_eq!(ledger.share().ok(), engine.share().ok(), "the share");
    let settlements = ledger.settlements().expect("a complete sheet");
    let expected = engine.settlements().expect("a complete sheet");
    assert_eq!(settlements.len(), expected.len());
    for (number, pair) in settlements.into_iter().zip(expected).enumerate() {
        let agree = matches!(
            pair,
            (Settlement::Open, Status::Open)
                | (Settlement::Paid, Status::Paid)
                | (Settlement::Returned, Status::Returned)
        );
        assert!(agree, "transaction {number}: {pair:?}");
    }
}

fn line(name: &str, library: (f64, f64), engine: (f64, f64)) {
    let ratio = library.0 / engine.0;
    println!(
        "  {name:<12} {:>9.3} {:>9.3}   {:>9.3} {:>9.3}   {ratio:>5.2}",
        library.0, library.1, engine.0, engine.1,
    );
}

fn bench(name: &str, spread: Spread) {
    let case = Case::new(SEED, spread);
    let (fresh, at) = Ledger::load(&case.run).expect("a sound sheet");
    let engine_fresh = Engine::on(&case.sheet).expect("a sound sheet");
    let offsets = offsets(&case, at);
    assert_eq!(offsets.len(), usize::from(INSTANCES * BLOCKS));

    let (mut ledger, offers) = library(&fresh, &case.run, &offsets);
    let (engine, answers) = second_engine(&engine_fresh, &case.run, &offsets);
    same(&mut ledger, &offers, &engine, &answers);

    let accepted = offers.iter().filter(|offer| **offer == Offer::Accepted);
    let accepted = accepted.count();
    assert_eq!(accepted, offers.len());
    let settlements = ledger.settlements().expect("a complete sheet");
    let count = |status| settlements.iter().filter(|one| **one == status).count();
    println!("Citations {name}");
    println!(
        "  {} blocks offered, {accepted} accepted, {} citations; {} blocks in the log; {} transactions paid, {} returned, {} open",
        offers.len(),
        case.citations(),
        ledger.log().map_or(0, |log| log.len()),
        count(Settlement::Paid),
        count(Settlement::Returned),
        count(Settlement::Open),
    );
    println!(
        "  {} bytes of buffers lent; a run of {} bytes",
        ledger.lent_bytes(),
        case.run.len()
    );
    println!("  every answer and reading is the second engine's");
    println!(
        "  {:<12} {:>19}   {:>19}   {:>5}",
        "", "library, ms", "second engine, ms", "ratio"
    );
    println!(
        "  {:<12} {:>9} {:>9}   {:>9} {:>9}   {:>5}",
        "", "best", "median", "best", "median", "best"
    );
    line(
        "all offers",
        timed(OFFER_ROUNDS, || library(&fresh, &case.run, &offsets)),
        timed(OFFER_ROUNDS, || {
            second_engine(&engine_fresh, &case.run, &offsets)
        }),
    );
    line(
        "log",
        timed(READING_ROUNDS, || ledger.log()),
        timed(READING_ROUNDS, || engine.log()),
    );
    line(
        "settlements",
        timed(READING_ROUNDS, || ledger.settlements()),
        timed(READING_ROUNDS, || engine.settlements()),
    );
    line(
        "accounts",
        timed(READING_ROUNDS, || ledger.accounts()),
        timed(READING_ROUNDS, || engine.accounts()),
    );
    line(
        "registers",
        timed(READING_ROUNDS, || ledger.registers()),
        timed(READING_ROUNDS, || engine.registers()),
    );
    line(
        "share",
        timed(READING_ROUNDS, || ledger.share()),
        timed(READING_ROUNDS, || engine.share()),
    );
}

fn main() {
    println!(
        "16 instances of 128 blocks, 1024 accounts, 64 registers, 1024 transactions; \
         offers timed {OFFER_ROUNDS} times, readings {READING_ROUNDS}"
    );
    bench("spread evenly over the blocks", Spread::Even);
    bench("in the first blocks, 32 in each", Spread::First);
    bench("in the last blocks, 32 in each", Spread::Last);
}
