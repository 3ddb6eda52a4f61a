//! No bytes make the wrapper panic: 100,000 damaged runs, each read as values and as text, and the two compared.

mod damage;

use damage::{written, Random, Sound};
use rugxeni::{read, text, Answer, Ledger, Reader, Refusal};
use std::collections::BTreeMap;
use std::fs;
use std::path::Path;

const SEED: u64 = 12;
const RUNS: usize = 100_000;
/// A run is damaged so many times before the next one is taken.
const TIMES_EACH: usize = 20;
/// The largest example takes a fifth of a second to read.
const LARGE_RUNS: usize = 12;
/// Refusals 1 to 7 end a reading.
const LAST_THAT_ENDS: u16 = 7;

/// What the runs came to, and the reader that reads them all: what one leaves in its buffers means nothing to the next.
#[derive(Default)]
struct Counts {
    reader: Reader,
    runs: usize,
    /// Whose sheet is complete.
    opened: usize,
    /// That have a reading.
    whole: usize,
    /// How often each refusal stands in a text.
    refusals: BTreeMap<u16, usize>,
}

impl Counts {
    /// Reads a run both ways.
    fn compare(&mut self, run: &[u8]) {
        let got = read(run);
        let expected = match &got {
            Ok(reading) => reading.to_string(),
            Err(refusal) => lines_up_to(*refusal, run),
        };
        let text = self.reader.text(run).to_owned();
        assert_eq!(text, expected, "{run:?}");
        assert_eq!(self.reader.read(run), got, "{run:?}");
        self.runs += 1;
        self.opened += usize::from(text.starts_with("run "));
        self.whole += usize::from(got.is_ok());
        for line in text
            .lines()
            .filter_map(|line| line.strip_prefix("refused "))
        {
            let number = line
                .split(' ')
                .next()
                .and_then(|number| number.parse().ok());
            *self.refusals.entry(number.expect("a number")).or_default() += 1;
        }
    }
}

/// The text of a run that has no reading: the steps up to this refusal.
fn lines_up_to(refusal: Refusal, run: &[u8]) -> String {
    let mut lines = Vec::new();
    assert_eq!(steps(run, &mut lines), Err(refusal), "{run:?}");
    lines.push(Answer::Refused(refusal).to_string());
    lines.join("\n") + "\n"
}

fn steps(run: &[u8], lines: &mut Vec<String>) -> Result<(), Refusal> {
    let (mut ledger, mut at) = Ledger::load(run)?;
    if let Some(sizes) = ledger.sizes() {
        let (m, a) = (sizes.instances, sizes.accounts);
        let (g, t) = (sizes.registers, sizes.transactions);
        lines.push(format!("run {m} {a} {g} {t}"));
    }
    while let Some((answer, next)) = ledger.read_block(run, at)? {
        lines.push(answer.to_string());
        at = next;
    }
    Ok(())
}

fn example(name: &str) -> Sound {
    let folder = Path::new(env!("CARGO_MANIFEST_DIR")).join("../../examples");
    Sound::new(fs::read(folder.join(name)).expect("an example"))
}

#[test]
fn small_runs() {
    let mut random = Random::new(SEED);
    let (mut counts, mut undamaged) = (Counts::default(), Counts::default());
    let examples = ["worked.run", "unseen.run", "cut-short.run", "group.run"].map(example);
    while counts.runs < RUNS {
        let new = Sound::new(written(&mut random).expect("values that can be written"));
        undamaged.compare(&new.run);
        let sound = match random.below(16) {
            place @ 0..4 => &examples[place as usize],
            _ => &new,
        };
        for _ in 0..TIMES_EACH {
            counts.compare(&sound.damaged(&mut random));
        }
    }
    assert_eq!(undamaged.whole, undamaged.runs);
    let Counts {
        runs,
        opened,
        whole,
        refusals,
        ..
    } = counts;
    println!("{runs} runs, {opened} with a complete sheet, {whole} with a reading; refusals {refusals:?}");
    assert!((1..=LAST_THAT_ENDS).all(|number| refusals.contains_key(&number)));
    assert!((8..=15).all(|number| refusals.contains_key(&number)));
    assert!(opened > runs / 2 && whole > runs / 10 && whole < runs / 2);
}

#[test]
fn bytes_of_no_kind() {
    let mut random = Random::new(SEED);
    let mut counts = Counts::default();
    for length in 0..2_000 {
        let bytes: Vec<u8> = (0..length % 100).map(|_| random.byte()).collect();
        counts.compare(&bytes);
        assert_eq!(text(&bytes), counts.reader.text(&bytes));
    }
}

#[test]
fn the_largest_run() {
    let mut random = Random::new(SEED);
    let mut counts = Counts::default();
    let sound = example("full.run");
    while counts.runs < LARGE_RUNS {
        let mut run = sound.damaged(&mut random);
        // As long as `readrun` takes it.
        run.truncate(65_536);
        counts.compare(&run);
    }
}
