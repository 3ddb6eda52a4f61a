//! How long a program takes to read the run that fills 65,536 bytes, and how
//! long the second engine does, as a program too.

use std::env;
use std::io::{self, Write};
use std::time::Instant;

use crate::compare::Program;
use crate::generate::full;
use crate::reading;

/// The times of some rounds, in milliseconds.
struct Times(Vec<f64>);

impl Times {
    fn best(&self) -> f64 {
        self.0.iter().copied().fold(f64::INFINITY, f64::min)
    }

    fn median(&self) -> f64 {
        let mut sorted = self.0.clone();
        sorted.sort_by(f64::total_cmp);
        sorted[sorted.len() / 2]
    }
}

/// Times a program and the second engine in turn, some rounds each, from the
/// start of the process to its last byte. True if every reading is right.
pub fn full(program: &Program, rounds: u32) -> io::Result<bool> {
    let engine = env::current_exe()?.to_string_lossy().into_owned();
    let engine = Program::of(&[&engine, "read", "-"]);
    let (sheet, blocks) = (full::run().sheet.head, full::run().offers);
    let run = full::bytes();
    let text = reading(&run);
    let mut times = [Times(Vec::new()), Times(Vec::new())];
    for _ in 0..rounds.max(1) {
        for (program, times) in [program, &engine].into_iter().zip(&mut times) {
            let began = Instant::now();
            let output = program.read(&run)?;
            times.0.push(began.elapsed().as_secs_f64() * 1e3);
            if output.stdout != text || !output.status.success() {
                writeln!(io::stdout(), "not the reading of the run: compare it first")?;
                return Ok(false);
            }
        }
    }
    let citations: usize = blocks.iter().map(|block| block.citations.len()).sum();
    let mut out = io::stdout().lock();
    writeln!(
        out,
        "{} bytes: {} instances, {} transactions, {} blocks, {citations} citations; {rounds} times each",
        run.len(),
        sheet.m,
        sheet.t,
        blocks.len()
    )?;
    for (name, times) in ["the program", "the second engine"].iter().zip(&times) {
        writeln!(out, "{name}: best {:.1} ms, median {:.1} ms", times.best(), times.median())?;
    }
    writeln!(out, "ratio of the best: {:.2}", times[0].best() / times[1].best())?;
    Ok(true)
}
