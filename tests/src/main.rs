//! `crosscheck`: runs, readings and comparisons from the command line.

use std::io::{self, Read, Write};
use std::path::Path;
use std::process::ExitCode;
use std::{env, fs};

use crosscheck::compare::{self, Program};
use crosscheck::{examples, generate, reading, records, stored, timing};

const USAGE: &str = "\
usage: crosscheck gen SEED OUTFILE         write the run of a seed
       crosscheck read FILE                print the second engine's reading (- for standard input)
       crosscheck compare PROGRAM N SEED   compare PROGRAM on the runs of N seeds from SEED on
       crosscheck long PROGRAM N SEED      the same over a great many runs, most of them small, with progress
       crosscheck cases PROGRAM            compare PROGRAM on the named cases
       crosscheck records PROGRAM N SEED   compare PROGRAM, which prints account records, on both
       crosscheck read-records FILE        print the records that are expected of it
       crosscheck time PROGRAM ROUNDS      time PROGRAM and the second engine on the largest run that fits
       crosscheck examples FOLDER          write the runs that ship with the repository, with their readings
       crosscheck stored FOLDER            write what the program of crates/stored_runs, the FOLDER, reads and prints
PROGRAM is a command that reads a run on standard input and prints its reading, or its account records.";

fn main() -> ExitCode {
    let words: Vec<String> = env::args().skip(1).collect();
    let words: Vec<&str> = words.iter().map(String::as_str).collect();
    match perform(&words) {
        Ok(Some(true)) => ExitCode::SUCCESS,
        Ok(Some(false)) => ExitCode::FAILURE,
        Ok(None) => {
            eprintln!("{USAGE}");
            ExitCode::from(2)
        }
        Err(error) => {
            eprintln!("crosscheck: {error}");
            ExitCode::from(2)
        }
    }
}

/// Whether all went well; `None` for words that make no command.
fn perform(words: &[&str]) -> io::Result<Option<bool>> {
    match words {
        ["gen", seed, file] => {
            let Ok(seed) = seed.parse() else {
                return Ok(None);
            };
            fs::write(file, generate::bytes(seed))?;
            Ok(Some(true))
        }
        ["read", file] => {
            io::stdout().write_all(&reading(&input(file)?))?;
            Ok(Some(true))
        }
        ["read-records", file] => {
            io::stdout().write_all(&records::of_reading(&reading(&input(file)?)))?;
            Ok(Some(true))
        }
        [command @ ("compare" | "long" | "records"), program, count, seed] => {
            let (Some(program), Ok(count), Ok(seed)) =
                (Program::new(program), count.parse(), seed.parse())
            else {
                return Ok(None);
            };
            let all = match *command {
                "long" => compare::long,
                "records" => compare::records,
                _ => compare::seeds,
            };
            all(&program, count, seed).map(Some)
        }
        ["time", program, rounds] => {
            let (Some(program), Ok(rounds)) = (Program::new(program), rounds.parse()) else {
                return Ok(None);
            };
            timing::full(&program, rounds).map(Some)
        }
        ["examples", folder] => {
            examples::write(Path::new(folder))?;
            Ok(Some(true))
        }
        ["stored", folder] => {
            stored::write(Path::new(folder))?;
            Ok(Some(true))
        }
        ["cases", program] => {
            let Some(program) = Program::new(program) else {
                return Ok(None);
            };
            compare::cases(&program).map(Some)
        }
        _ => Ok(None),
    }
}

fn input(file: &str) -> io::Result<Vec<u8>> {
    if file != "-" {
        return fs::read(file);
    }
    let mut bytes = Vec::new();
    io::stdin().read_to_end(&mut bytes)?;
    Ok(bytes)
}
