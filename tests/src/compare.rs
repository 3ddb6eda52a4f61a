//! Another program's readings against the second engine's.

use std::fmt::{self, Display};
use std::fs;
use std::io::{self, Write};
use std::process::{Command, Output, Stdio};
use std::thread;
use std::time::Instant;

use crate::cases::{self, Case};
use crate::{generate, reading, records};

/// A program with its arguments, parted by spaces.
pub struct Program {
    words: Vec<String>,
}

impl Program {
    /// `None` if there is no word in it.
    pub fn new(command: &str) -> Option<Program> {
        let words: Vec<String> = command.split_whitespace().map(str::to_string).collect();
        (!words.is_empty()).then_some(Program { words })
    }

    /// Of its words, one by one.
    pub fn of(words: &[&str]) -> Program {
        Program { words: words.iter().map(|word| word.to_string()).collect() }
    }

    /// Runs the program with a run on its standard input.
    pub fn read(&self, run: &[u8]) -> io::Result<Output> {
        let mut child = Command::new(&self.words[0])
            .args(&self.words[1..])
            .stdin(Stdio::piped())
            .stdout(Stdio::piped())
            .stderr(Stdio::piped())
            .spawn()?;
        let input = child.stdin.take();
        thread::scope(|scope| {
            // Written on the side: the program may print before it has read
            // everything. It may also stop reading early; that is its affair.
            scope.spawn(move || input.map(|mut input| input.write_all(run)));
            child.wait_with_output()
        })
    }
}

/// Compares a program with the second engine on the runs of `count` seeds
/// from `seed` on. True if all agree.
pub fn seeds(program: &Program, count: u64, seed: u64) -> io::Result<bool> {
    Ok(each_seed(program, count, seed, <[u8]>::to_vec)? && all_agree(count)?)
}

/// Compares a program with the texts of the named cases. True if all agree.
pub fn cases(program: &Program) -> io::Result<bool> {
    let cases = cases::all();
    Ok(each_case(program, &cases, <[u8]>::to_vec)? && all_agree(cases.len() as u64)?)
}

/// Compares a program that prints account records: on the runs of seeds, and
/// on the named cases. True if all agree.
pub fn records(program: &Program, count: u64, seed: u64) -> io::Result<bool> {
    let cases = cases::all();
    Ok(each_seed(program, count, seed, records::of_reading)?
        && each_case(program, &cases, records::of_reading)?
        && all_agree(count + cases.len() as u64)?)
}

/// What a program has to print, made of the reading of its run.
type Expected = fn(&[u8]) -> Vec<u8>;

fn each_seed(program: &Program, count: u64, seed: u64, expected: Expected) -> io::Result<bool> {
    for round in 0..count {
        let seed = seed.wrapping_add(round);
        let run = generate::bytes(seed);
        let name = format!("seed {seed}");
        let file = format!("difference-{seed}");
        if !agree(program, &name, &file, &run, &expected(&reading(&run)))? {
            return Ok(false);
        }
    }
    Ok(true)
}

fn each_case(program: &Program, cases: &[Case], expected: Expected) -> io::Result<bool> {
    for (number, case) in cases.iter().enumerate() {
        let file = format!("difference-case-{number}");
        if !agree(program, &case.name, &file, &case.run, &expected(case.text.as_bytes()))? {
            return Ok(false);
        }
    }
    Ok(true)
}

fn all_agree(count: u64) -> io::Result<bool> {
    writeln!(io::stdout(), "{count} runs, {count} agree")?;
    Ok(true)
}

/// The same over a great many runs, most of them small, with a line of
/// progress at every hundredth of them and counts of what was compared.
pub fn long(program: &Program, count: u64, seed: u64) -> io::Result<bool> {
    let began = Instant::now();
    let mut readings = Readings::default();
    for round in 0..count {
        let seed = seed.wrapping_add(round);
        let run = generate::mostly_small(seed);
        let text = reading(&run);
        let name = format!("seed {seed} of the long comparison");
        if !agree(program, &name, &format!("difference-long-{seed}"), &run, &text)? {
            return Ok(false);
        }
        readings.count(&run, &text);
        let done = round + 1;
        if done.is_multiple_of((count / 100).max(1)) {
            let seconds = began.elapsed().as_secs();
            writeln!(io::stderr(), "{done} of {count} runs agree, {seconds} s")?;
        }
    }
    writeln!(io::stdout(), "{readings}")?;
    all_agree(count)
}

/// What readings a comparison met, by how they end.
#[derive(Clone, Copy, Debug, Default, PartialEq, Eq)]
struct Readings {
    bytes: u64,
    /// Read to the end.
    whole: u64,
    /// Ended by one of the refusals 1 to 7.
    ended: u64,
    long: u64,
    /// Blocks accepted, and blocks turned away with the next allowed.
    accepted: u64,
    refused: u64,
}

impl Readings {
    fn count(&mut self, run: &[u8], text: &[u8]) {
        let lines = |word: &[u8]| {
            text.split(|byte| *byte == b'\n').filter(|line| line.starts_with(word)).count() as u64
        };
        let (whole, long) = (lines(b"share "), lines(b"long"));
        let ended = 1 - whole - long;
        self.bytes += run.len() as u64;
        self.whole += whole;
        self.long += long;
        self.ended += ended;
        self.accepted += lines(b"ok ");
        self.refused += lines(b"refused ") - ended;
    }
}

impl Display for Readings {
    fn fmt(&self, out: &mut fmt::Formatter<'_>) -> fmt::Result {
        let Readings { bytes, whole, ended, long, accepted, refused } = self;
        write!(
            out,
            "{bytes} bytes; {whole} runs read to the end, {ended} ended by a refusal, {long} long; \
             {accepted} blocks accepted, {refused} turned away"
        )
    }
}

/// Whether a program prints the expected text and ends well. If not, says so,
/// and leaves the run in two files: as it is, and as a hex dump.
fn agree(program: &Program, name: &str, file: &str, run: &[u8], text: &[u8]) -> io::Result<bool> {
    let output = program.read(run)?;
    if output.stdout == text && output.status.success() {
        return Ok(true);
    }
    fs::write(format!("{file}.run"), run)?;
    fs::write(format!("{file}.hex"), hex_dump(run))?;
    let mut out = io::stdout().lock();
    writeln!(out, "difference at {name}, {} bytes, see {file}.hex and {file}.run", run.len())?;
    writeln!(out, "first line that differs: {}", first_difference(&output.stdout, text))?;
    writeln!(out, "---- the program ({}):", output.status)?;
    out.write_all(&output.stdout)?;
    writeln!(out, "---- expected:")?;
    out.write_all(text)?;
    if !output.stderr.is_empty() {
        writeln!(out, "---- the program's standard error:")?;
        out.write_all(&output.stderr)?;
    }
    Ok(false)
}

/// The number, from 1, of the first line in which two texts differ.
fn first_difference(one: &[u8], other: &[u8]) -> usize {
    let same = one.iter().zip(other).take_while(|(a, b)| a == b).count();
    1 + one[..same].iter().filter(|byte| **byte == b'\n').count()
}

/// Sixteen bytes on a line, with the offset of the first.
fn hex_dump(bytes: &[u8]) -> String {
    let line = |(number, chunk): (usize, &[u8])| {
        let pairs: String = chunk.iter().map(|byte| format!(" {byte:02x}")).collect();
        format!("{:08x}{pairs}\n", number * 16)
    };
    bytes.chunks(16).enumerate().map(line).collect()
}
