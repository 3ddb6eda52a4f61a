//! The static library on the named runs: its text against the paper's, and
//! its calls against the second engine's.

use crosscheck::cases;
use crosscheck::generate::random::Random;
use crosscheck_library::boundary::Library;
use crosscheck_library::{check, layout, lengths, reports, writers, Counts};
use rugxeni::ffi;
use rugxeni::{frame, Ledger, Offer, Refusal, Settlement};

/// A run's text, as `readrun` prints it, taken from the library's calls.
fn text(run: &[u8]) -> String {
    if run.len() > 65_536 {
        return "long\n".to_string();
    }
    let mut lines = Vec::new();
    if let Err(Refusal { number, place }) = read(run, &mut lines) {
        lines.push(format!("refused {number} {place}"));
    }
    lines.iter().map(|line| format!("{line}\n")).collect()
}

fn read(run: &[u8], lines: &mut Vec<String>) -> Result<(), Refusal> {
    let (mut ledger, mut at) = Ledger::load(run)?;
    let sizes = ledger.sizes().expect("a loaded head");
    let (m, a, g, t) = (sizes.instances, sizes.accounts, sizes.registers, sizes.transactions);
    lines.push(format!("run {m} {a} {g} {t}"));
    loop {
        let heights = ledger.heights().to_vec();
        match ledger.offer_frame(run, at) {
            Offer::NoByte => break,
            Offer::Refused(refusal) if refusal.number <= 7 => return Err(refusal),
            Offer::Refused(Refusal { number, place }) => {
                lines.push(format!("refused {number} {place}"));
            }
            Offer::Accepted => {
                let after = ledger.heights();
                let grown: Vec<usize> =
                    (0..after.len()).filter(|i| after[*i] != heights[*i]).collect();
                assert_eq!(grown.len(), 1, "one instance has one block more");
                assert_eq!(after[grown[0]], heights[grown[0]] + 1);
                lines.push(format!("ok {} {}", grown[0], after[grown[0]]));
            }
        }
        at = frame(run, at)?.expect("a whole frame").end;
    }
    for (instance, sequence) in ledger.log()? {
        lines.push(format!("log {instance} {sequence}"));
    }
    for (number, settlement) in ledger.settlements()?.into_iter().enumerate() {
        let word = match settlement {
            Settlement::Open => "open",
            Settlement::Paid => "paid",
            Settlement::Returned => "returned",
        };
        lines.push(format!("tx {number} {word}"));
    }
    for (number, account) in ledger.accounts()?.into_iter().enumerate() {
        lines.push(format!("account {number} {} {}", account.free, account.held));
    }
    for (number, value) in ledger.registers()?.into_iter().enumerate() {
        lines.push(format!("register {number} {value}"));
    }
    lines.push(format!("share {}", ledger.share()?));
    Ok(())
}

#[test]
fn texts_are_those_of_the_paper() {
    for case in cases::all() {
        assert_eq!(text(&case.run), case.text, "{}", case.name);
        assert_eq!(rugxeni::text(&case.run), case.text, "{}, by one call", case.name);
    }
}

#[test]
fn calls_are_those_of_the_second_engine() {
    let (mut counts, mut lent) = (Counts::default(), layout::largest());
    for (number, case) in cases::all().iter().enumerate() {
        let mut random = Random::new(number as u64);
        let checked = check(&case.run, &mut random, &mut counts, Ledger::new);
        assert_eq!(checked, Ok(()), "{}", case.name);
        let checked = lengths::check(&case.run, &mut random, &mut counts, &Library);
        assert_eq!(checked, Ok(()), "{}, with buffers of other lengths", case.name);
        let checked = writers::check(&case.run, &mut random, &mut counts, &Library);
        assert_eq!(checked, Ok(()), "{}, writing on its sheet", case.name);
        let checked = reports::check(&case.run, &mut random, &mut counts, &Library, &mut lent);
        assert_eq!(checked, Ok(()), "{}, its text", case.name);
    }
}

/// Two numbers are told, as far as there are places for them, and no third.
#[test]
fn as_much_is_told_as_there_is_space_for() {
    let case = &cases::all()[0];
    let mut lent = layout::largest();
    for places in 0..4 {
        let mut told = vec![u64::MAX; places];
        assert_eq!(ffi::frame(&case.run, 0, &mut told), 0);
        assert_eq!(told, [14, 1, u64::MAX][..places], "the head of {}", case.name);
        told.fill(u64::MAX);
        let (kept, working) = (&mut lent.kept, &mut lent.working);
        assert_eq!(ffi::report(&case.run, kept, working, &mut lent.out, &mut told), 0);
        let length = case.text.len() as u64;
        assert_eq!(told, [length, 0, u64::MAX][..places], "the text of {}", case.name);
    }
}
