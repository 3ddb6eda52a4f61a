//! Says what became of a run: `cargo run --example read FILE`

use rugxeni::{read, Answer, Settlement};
use std::error::Error;
use std::io::{self, Write};
use std::process::ExitCode;
use std::{env, fs};

fn say(out: &mut impl Write) -> Result<(), Box<dyn Error>> {
    let path = env::args_os().nth(1).ok_or("usage: read FILE")?;
    let reading = read(&fs::read(path)?)?; // a damaged run gives its refusal, and no reading
    for (place, answer) in reading.answers.iter().enumerate() {
        if let Answer::Refused(refusal) = answer {
            writeln!(out, "block {place} is turned away: {refusal}")?;
        }
    }
    let (blocks, log) = (reading.answers.len(), reading.log.len());
    writeln!(out, "{log} of {blocks} blocks are in the global log")?;
    let paid = |one: &&Settlement| **one == Settlement::Paid;
    let paid = reading.settlements.iter().filter(paid).count();
    let all = reading.settlements.len();
    writeln!(out, "{paid} of {all} transactions are paid")?;
    let free: u64 = reading.accounts.iter().map(|account| account.free).sum();
    let held: u64 = reading.accounts.iter().map(|account| account.held).sum();
    writeln!(out, "{free} can be spent, {held} is held")?;
    Ok(())
}

fn main() -> ExitCode {
    match say(&mut io::stdout()) {
        Ok(()) => ExitCode::SUCCESS,
        Err(error) => {
            eprintln!("{error}");
            ExitCode::FAILURE
        }
    }
}
