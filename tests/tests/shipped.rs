//! The files that ship with the repository are what this package writes now.

use std::fs;
use std::path::{Path, PathBuf};

use crosscheck::engine::reading;
use crosscheck::engine::text::LONGEST_RUN;
use crosscheck::{cases, examples, stored};

/// A file of the repository.
fn file(name: &str) -> PathBuf {
    Path::new(env!("CARGO_MANIFEST_DIR")).join("..").join(name)
}

fn content(name: &str) -> Vec<u8> {
    fs::read(file(name)).unwrap_or_else(|error| panic!("{name}: {error}"))
}

#[test]
fn the_examples_are_what_this_package_writes() {
    let all = examples::all();
    for example in &all {
        let name = format!("examples/{}", example.name);
        assert!(content(&format!("{name}.run")) == example.run, "{name}.run");
        let text = content(&format!("{name}.reading"));
        assert!(text == reading(&example.run), "{name}.reading");
    }
    let run = |name: &str| fs::read_dir(file(name)).map_or(0, |entries| entries.count());
    // A run and a reading each, and the README.
    assert_eq!(run("examples"), 2 * all.len() + 1);
}

#[test]
fn readrun_is_tried_on_the_worked_run() {
    assert!(content("crates/readrun/stdin") == content("examples/worked.run"));
    assert!(content("crates/readrun/stdout") == cases::WORKED_TEXT.as_bytes());
}

#[test]
fn the_full_run_fills_the_limit() {
    let run = crosscheck::generate::full::run();
    let left = LONGEST_RUN - run.bytes().len();
    // One transaction more, of at least 40 bytes with four citations, and the
    // block that fills the rest, of 32, do not go in.
    assert!((32..32 + 48).contains(&left), "{left} bytes are left");
    assert_eq!(run.logs().all().count(), run.offers.len());
    assert_eq!(content("examples/full.run").len(), LONGEST_RUN);
}

#[test]
fn the_stored_runs_are_what_this_package_writes() {
    let groups = stored::groups();
    for group in &groups {
        let name = format!("crates/stored_runs/data/{}", group.name);
        assert!(content(&name) == group.bytes(), "{name}");
    }
    let files = fs::read_dir(file("crates/stored_runs/data")).map_or(0, |entries| entries.count());
    assert_eq!(files, groups.len());
    assert!(content("crates/stored_runs/stdout") == stored::output(&groups).as_bytes());
}

#[test]
fn the_stored_runs_hold_what_they_are_named_for() {
    let groups = stored::groups();
    let runs = |name: &str| &groups.iter().find(|group| group.name == name).unwrap().runs;
    let texts = |name: &str| -> Vec<String> {
        runs(name).iter().map(|run| String::from_utf8(reading(run)).unwrap()).collect()
    };
    assert!(runs("edges").contains(&content("examples/worked.run")));
    assert!(runs("edges").contains(&content("examples/unseen.run")));
    // The figures of request 05 come first.
    let shares = texts("share");
    assert!(shares[0].ends_with("\nshare 62\n") && shares[1].ends_with("\nshare 188\n"));
    // Every refusal but 16 once, in order.
    let numbers = (1..=17).filter(|number| *number != 16);
    assert_eq!(texts("refusals").len(), 16);
    for (number, text) in numbers.zip(texts("refusals")) {
        assert!(text.contains(&format!("refused {number} ")), "{number}: {text}");
    }
    let limits = texts("limits");
    assert_eq!(limits[0], "refused 1 0\n");
    assert!(limits[1].starts_with("run 2 2 3 0\n") && limits[1].ends_with("share 1000\n"));
    assert!(limits[2].starts_with("run 16 ") && limits[2].contains("\nok 15 1\n"));
    assert!(limits[3].starts_with("run 2 2 0 2\n") && limits[3].contains("tx 1 paid"));
    let lengths: Vec<usize> = runs("limits").iter().map(Vec::len).collect();
    assert_eq!(lengths[4..7], [LONGEST_RUN, LONGEST_RUN + 1, LONGEST_RUN - 1]);
    assert!(limits[4].ends_with("\nshare 998\n"));
    assert_eq!(limits[5], "long\n");
    // Room for what the program lends.
    let largest = |length: usize, text: usize| length <= LONGEST_RUN + 1 && text <= 262_144;
    let all = groups.iter().flat_map(|group| &group.runs);
    assert!(all.clone().all(|run| largest(run.len(), reading(run).len())));
}
