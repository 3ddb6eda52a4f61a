// Times the reading of a whole run through the Rust interface, against what `readrun` does.
//
//     bash tests/staticlib.sh rugxeni
//     cargo run --offline --release --manifest-path docs/src/bench_read/Cargo.toml
//
// `report` is the one call that `readrun` is made of, with buffers that were lent before. `readrun` is that program without
// its process: it clears its buffers, then makes the call. `read` gives the reading as values, with buffers of its own; a
// `Reader` keeps them from run to run. `text` is the call with buffers that are allocated for it. They take turns, and
// before that their readings are compared.

use rugxeni::ffi::{self, Kept, Working, LARGEST, LONGEST_TEXT};
use rugxeni::{read, text, Reader};
use std::error::Error;
use std::hint::black_box;
use std::path::Path;
use std::time::Instant;
use std::{array, fs};

// The examples, and how often each is read.
const RUNS: [(&str, usize); 3] = [
    ("full.run", 31),
    ("group.run", 5_001),
    ("worked.run", 20_001),
];

const CALLS: [&str; 5] = ["report", "readrun", "read", "Reader::read", "text"];

// What the bare call is lent.
struct Lent {
    kept: Kept,
    working: Working,
    out: Vec<u8>,
}

impl Lent {
    fn new() -> Lent {
        Lent {
            kept: Kept::new(LARGEST),
            working: Working::new(LARGEST),
            out: vec![0; LONGEST_TEXT],
        }
    }

    // What `readrun` does in its process.
    fn readrun(&mut self, run: &[u8]) -> &[u8] {
        let Lent { kept, working, out } = self;
        kept.sheet.fill(0);
        kept.ranks.fill(0);
        kept.cuts.fill(0);
        kept.cites.fill(0);
        kept.good.fill(0);
        working.counts.fill(0);
        working.table.fill(0);
        working.order.fill(0);
        out.fill(0);
        self.report(run)
    }

    fn report(&mut self, run: &[u8]) -> &[u8] {
        let Lent { kept, working, out } = self;
        let mut told = [0; 2];
        assert_eq!(ffi::report(run, kept, working, out, &mut told), 0);
        &out[..told[0] as usize]
    }
}

// The time of a call, in microseconds.
fn timed<T>(call: impl FnOnce() -> T) -> f64 {
    let start = Instant::now();
    black_box(call());
    start.elapsed().as_secs_f64() * 1e6
}

// Best and median of each of the calls that took turns.
fn best_and_median<const N: usize>(mut rounds: Vec<[f64; N]>) -> [(f64, f64); N] {
    array::from_fn(|call| {
        rounds.sort_by(|one, other| one[call].total_cmp(&other[call]));
        (rounds[0][call], rounds[rounds.len() / 2][call])
    })
}

fn bench(name: &str, rounds: usize) -> Result<(), Box<dyn Error>> {
    let folder = Path::new(env!("CARGO_MANIFEST_DIR")).join("../../../examples");
    let run = fs::read(folder.join(name))?;
    let (mut lent, mut reader) = (Lent::new(), Reader::new());
    assert_eq!(read(&run)?.to_string(), text(&run));
    assert_eq!(reader.read(&run), read(&run));
    assert_eq!(lent.report(&run), text(&run).as_bytes());
    assert_eq!(lent.readrun(&run), text(&run).as_bytes());
    let times = (0..rounds).map(|_| {
        [
            timed(|| lent.report(&run).len()),
            timed(|| lent.readrun(&run).len()),
            timed(|| read(&run)),
            timed(|| reader.read(&run)),
            timed(|| text(&run)),
        ]
    });
    let times = best_and_median(times.collect());
    println!("{name}, {} bytes, {rounds} rounds", run.len());
    let [(report, _), (readrun, _), ..] = times;
    for (call, (best, median)) in CALLS.into_iter().zip(times) {
        let ratios = [best / report, best / readrun];
        println!(
            "  {call:<13} {best:>10.1} {median:>10.1} {:>9.2} {:>9.2}",
            ratios[0], ratios[1]
        );
    }
    Ok(())
}

fn main() -> Result<(), Box<dyn Error>> {
    println!(
        "  {:<13} {:>10} {:>10} {:>9} {:>9}",
        "µs", "best", "median", "/ report", "/ readrun"
    );
    RUNS.into_iter()
        .try_for_each(|(name, rounds)| bench(name, rounds))
}
