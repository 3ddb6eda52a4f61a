//! "One reading, whole": what `readrun` prints for a run.

use super::format::slip_at;
use super::{Answer, Engine, Ledger, Refusal, Status};

/// "A run of more than 65,536 bytes makes `readrun` print the one line
/// `long`".
pub const LONGEST_RUN: usize = 65_536;

/// The whole text for a run, as `readrun` prints it.
pub fn reading(run: &[u8]) -> Vec<u8> {
    if run.len() > LONGEST_RUN {
        return b"long\n".to_vec();
    }
    reading_of_any_length(run)
}

/// The same without the limit of `readrun`: "the library has only the limits
/// above".
pub fn reading_of_any_length(run: &[u8]) -> Vec<u8> {
    let mut lines = Lines::default();
    // Refusals 1 to 7 end the output; their line is the last.
    if let Err(refusal) = read(run, &mut lines) {
        lines.refused(refusal);
    }
    lines.0.into_bytes()
}

/// Prints as it reads, up to the end or to a refusal of a slip.
fn read(run: &[u8], lines: &mut Lines) -> Result<(), Refusal> {
    let (mut engine, mut offset) = Engine::load(run)?;
    // "The `run` line is printed once the sheet is complete."
    lines.run(engine.ledger()?);
    // "Once the sheet … is complete, a run ends where no byte is left."
    while offset < run.len() {
        match engine.offer_slip(run, offset) {
            Answer::Accepted { instance, number } => lines.pair("ok", instance, number),
            Answer::Refused(refusal) if refusal.number <= 7 => return Err(refusal),
            Answer::Refused(refusal) => lines.refused(refusal),
        }
        offset = slip_at(run, offset)?.next;
    }
    lines.ledger(engine.ledger()?);
    Ok(())
}

/// Lines of fields: "parted by one space, each line closed by a line feed".
#[derive(Default)]
struct Lines(String);

impl Lines {
    fn line(&mut self, text: String) {
        self.0.push_str(&text);
        self.0.push('\n');
    }

    fn pair(&mut self, word: &str, instance: u16, number: u16) {
        self.line(format!("{word} {instance} {number}"));
    }

    fn refused(&mut self, refusal: Refusal) {
        self.line(format!("refused {} {}", refusal.number, refusal.place));
    }

    fn run(&mut self, ledger: &Ledger) {
        let head = ledger.sheet().head;
        self.line(format!("run {} {} {} {}", head.m, head.a, head.g, head.t));
    }

    /// The lines `log`, `tx`, `account`, `register` and `share`.
    fn ledger(&mut self, ledger: &Ledger) {
        for (instance, number) in ledger.log() {
            self.pair("log", instance, number);
        }
        for (number, status) in ledger.settlements().into_iter().enumerate() {
            self.line(format!("tx {number} {}", word(status)));
        }
        for (number, account) in ledger.accounts().into_iter().enumerate() {
            self.line(format!("account {number} {} {}", account.free, account.held));
        }
        for (number, value) in ledger.registers().into_iter().enumerate() {
            self.line(format!("register {number} {value}"));
        }
        self.line(format!("share {}", ledger.share()));
    }
}

fn word(status: Status) -> &'static str {
    match status {
        Status::Open => "open",
        Status::Paid => "paid",
        Status::Returned => "returned",
    }
}
