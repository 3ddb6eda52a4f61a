//! `crosscheck-library COUNT SEED`: the static library against the second
//! engine, on the runs of COUNT seeds from SEED on.

use std::process::ExitCode;
use std::{env, fs};

use crosscheck_library::boundary::{Lent, Library};
use crosscheck_library::difference::Difference;
use crosscheck_library::{
    bytes, check, layout, lengths, numbers, reports, writers, written, Counts,
};
use rugxeni::Ledger;

fn main() -> ExitCode {
    let words: Vec<String> = env::args().skip(1).collect();
    let arguments: Result<Vec<u64>, _> = words.iter().map(|word| word.parse()).collect();
    let Ok([count, seed]) = arguments.as_deref() else {
        eprintln!("usage: crosscheck-library COUNT SEED");
        return ExitCode::from(2);
    };
    let (mut counts, mut lent) = (Counts::default(), layout::largest());
    for round in 0..*count {
        let seed = seed.wrapping_add(round);
        let run = bytes(seed);
        if let Err(difference) = compare(seed, &run, &mut counts, &mut lent) {
            let file = format!("difference-{seed}.run");
            let kept = match fs::write(&file, &run) {
                Ok(()) => format!("see {file}"),
                Err(error) => format!("{file} cannot be written: {error}"),
            };
            println!("difference at seed {seed}, {} bytes, {kept}\n{difference}", run.len());
            return ExitCode::FAILURE;
        }
    }
    println!("{counts}: all agree");
    ExitCode::SUCCESS
}

/// All comparisons of a seed, each with the same numbers, so that none depends
/// on how many of them another one takes.
fn compare(seed: u64, run: &[u8], counts: &mut Counts, lent: &mut Lent) -> Result<(), Difference> {
    check(run, &mut numbers(seed), counts, Ledger::new)?;
    lengths::check(run, &mut numbers(seed), counts, &Library)?;
    writers::check(run, &mut numbers(seed), counts, &Library)?;
    written::check(&mut numbers(seed), counts, &Library, lent)?;
    reports::check(run, &mut numbers(seed), counts, &Library, lent)
}
