//! Whole runs: as values, as text, and step by step. The five examples have the readings that are stored beside them.

#[allow(dead_code)]
mod frames;
#[allow(dead_code)]
mod values;

use frames::{balances, block, frame as frame_of, header, worked_run, worked_sheet};
use rugxeni::{frame, read, text, Answer, Frame, Ledger, Reader, Reading, Settlement, Sizes};
use std::fs;
use std::path::{Path, PathBuf};
use values::{account, refusal};

/// The most that `readrun` takes.
const LONGEST_RUN: usize = 65_536;

fn examples() -> Vec<PathBuf> {
    let folder = Path::new(env!("CARGO_MANIFEST_DIR")).join("../../examples");
    let files = fs::read_dir(folder).expect("the examples");
    let paths = files.map(|file| file.expect("a file").path());
    paths
        .filter(|path| path.extension().is_some_and(|end| end == "run"))
        .collect()
}

#[test]
fn the_examples() {
    let paths = examples();
    assert_eq!(paths.len(), 5);
    for path in paths {
        let run = fs::read(&path).expect("a run");
        let stored = fs::read_to_string(path.with_extension("reading")).expect("its reading");
        assert_eq!(text(&run), stored, "{}", path.display());
        match read(&run) {
            Ok(reading) => assert_eq!(reading.to_string(), stored, "{}", path.display()),
            Err(refusal) => {
                assert!(path.ends_with("cut-short.run"), "{}", path.display());
                let line = Answer::Refused(refusal).to_string();
                assert_eq!(stored.lines().last(), Some(&line[..]));
            }
        }
    }
}

#[test]
fn the_worked_run() {
    let accepted = |instance, sequence| Answer::Accepted { instance, sequence };
    let expected = Reading {
        sizes: Sizes {
            instances: 2,
            accounts: 3,
            registers: 1,
            transactions: 2,
        },
        answers: vec![accepted(1, 1), accepted(0, 1)],
        log: vec![(1, 1), (0, 1)],
        settlements: vec![Settlement::Paid; 2],
        accounts: vec![account(6, 0), account(6, 0), account(3, 0)],
        registers: vec![7],
        share: 1000,
    };
    assert_eq!(read(&worked_run()), Ok(expected));
}

/// A block that is turned away is answered, and the next one follows; one that cannot be read ends it all.
#[test]
fn refusals_in_a_run() {
    let late = block(0, 1, 1, &[0, 0], &[]);
    let next = block(0, 2, 3, &[1, 1], &[]);
    let run = [worked_run(), late, next].concat();
    let reading = read(&run).expect("a whole run");
    let accepted = |instance, sequence| Answer::Accepted { instance, sequence };
    let answers = [
        accepted(1, 1),
        accepted(0, 1),
        Answer::Refused(refusal(9, 2)),
        accepted(0, 2),
    ];
    assert_eq!(reading.answers, answers);
    assert_eq!(reading.to_string(), text(&run));
    let lines = "run 2 3 1 2\nok 1 1\nok 0 1\nrefused 9 2\nok 0 2\n";
    let at = run.len();
    for (number, frame) in [
        (1, vec![255, 0, 0, 0]),
        (2, vec![1, 0, 0, 0]),
        (3, header([1, 1, 0, 0])),
        (4, frame_of(4, &[0; 9])),
        (5, block(0, 3, 4, &[2, 1], &[0; 33])),
    ] {
        let damaged = [&run[..], &frame, &block(0, 3, 4, &[2, 1], &[])].concat();
        assert_eq!(read(&damaged), Err(refusal(number, at as u64)));
        assert_eq!(text(&damaged), format!("{lines}refused {number} {at}\n"));
    }
}

/// In whatever order runs are read, and whatever came before.
#[test]
fn a_reader_keeps_nothing_of_a_run() {
    let group = fs::read(Path::new(env!("CARGO_MANIFEST_DIR")).join("../../examples/group.run"));
    let group = group.expect("a run");
    let worked = worked_run();
    let runs = [
        &worked[..],
        &group,
        &worked[..145],
        &worked,
        &group[..60],
        &[],
        &group,
    ];
    let (mut values, mut texts, mut both) = (Reader::new(), Reader::new(), Reader::new());
    for run in runs {
        assert_eq!(values.read(run), read(run));
        assert_eq!(texts.text(run), text(run));
        assert_eq!(both.read(run), read(run));
        assert_eq!(both.text(run), text(run));
        assert_eq!(both.read(run), read(run));
    }
}

/// Cut off anywhere, a run has a reading only where a frame of its blocks ends.
#[test]
fn every_beginning_of_a_run() {
    let run = worked_run();
    for length in 0..=run.len() {
        let ends = read(&run[..length]).is_ok();
        assert_eq!(ends, [100, 122, 146].contains(&length), "{length}");
        let last = text(&run[..length]).lines().last().map(String::from);
        let expected = read(&run[..length]).map_or_else(
            |refusal| Answer::Refused(refusal).to_string(),
            |reading| format!("share {}", reading.share),
        );
        assert_eq!(last, Some(expected), "{length}");
    }
}

/// `readrun` takes no longer run than 65,536 bytes. The library does.
#[test]
fn a_long_run() {
    let sheet = [header([1, 1, 0, 0]), balances(&[5])].concat();
    let turned_away = block(1, 1, 1, &[0], &[]);
    let mut run = sheet;
    while run.len() <= LONGEST_RUN {
        assert_eq!(
            read(&run).map(|reading| reading.to_string()),
            Ok(text(&run))
        );
        run.extend(turned_away.repeat(500));
    }
    assert_eq!(text(&run), "long\n");
    let reading = read(&run).expect("a whole run");
    assert!(reading.answers.len() > LONGEST_RUN / turned_away.len());
    let eight = Answer::Refused(refusal(8, 0));
    assert!(reading.answers.iter().all(|answer| *answer == eight));
}

#[test]
fn step_by_step() {
    let run = worked_run();
    let (mut ledger, at) = Ledger::load(&run).expect("a sound sheet");
    let first = Answer::Accepted {
        instance: 1,
        sequence: 1,
    };
    assert_eq!(ledger.read_block(&run, at), Ok(Some((first, 122))));
    // The same once more: it is turned away, and the next one begins where it began before.
    let again = Answer::Refused(refusal(9, 2));
    assert_eq!(ledger.read_block(&run, at), Ok(Some((again, 122))));
    assert_eq!(ledger.read_block(&run, 123), Err(refusal(2, 123)));
    assert_eq!(ledger.read_block(&run[..145], 122), Err(refusal(1, 122)));
    assert_eq!(ledger.read_block(&run, 146), Ok(None));
    assert_eq!(ledger.read_block(&run, usize::MAX), Ok(None));
    assert_eq!(ledger.read_block(&run, 0), Err(refusal(3, 0)));
    assert_eq!(ledger.heights(), [0, 1]);
    assert_eq!(Ledger::new().read_block(&run, 122), Err(refusal(3, 122)));
}

#[test]
fn frames_of_a_run() {
    let run = worked_run();
    let mut seen = Vec::new();
    let mut at = 0;
    while let Ok(Some(Frame { kind, end })) = frame(&run, at) {
        seen.push((kind, end));
        at = end;
    }
    let expected = [(1, 14), (2, 44), (3, 72), (3, 100), (4, 122), (4, 146)];
    assert_eq!(seen, expected);
    for past in [146, 147, usize::MAX] {
        assert_eq!(frame(&run, past), Ok(None));
    }
    assert_eq!(frame(&run, 143), Err(refusal(1, 143)));
    assert_eq!(frame(&run[..145], 122), Err(refusal(1, 122)));
    assert_eq!(frame(&[255; 9], 0), Err(refusal(2, 0)));
    // Neither kind nor body is looked at.
    let other = Frame {
        kind: 65_535,
        end: 8,
    };
    assert_eq!(frame(&[9, 9, 2, 0, 0, 0, 255, 255], 2), Ok(Some(other)));
}

/// With no transaction the share is 1000, with no register and no block there are no such lines.
#[test]
fn the_least_run() {
    let run = [header([1, 1, 0, 0]), balances(&[5])].concat();
    assert_eq!(text(&run), "run 1 1 0 0\naccount 0 5 0\nshare 1000\n");
    assert_eq!(
        read(&run).map(|reading| reading.to_string()),
        Ok(text(&run))
    );
    assert_eq!(read(&worked_sheet()).map(|reading| reading.share), Ok(0));
}
