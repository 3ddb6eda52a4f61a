//! The second engine against the texts that the scope paper gives.

use crosscheck::cases::{self, Case};
use crosscheck::engine::reading;
use crosscheck::records;

fn check(cases: Vec<Case>) {
    for case in cases {
        let text = String::from_utf8_lossy(&reading(&case.run)).into_owned();
        assert_eq!(text, case.text, "{}", case.name);
    }
}

#[test]
fn the_worked_run_byte_for_byte() {
    let run = cases::run(&cases::worked_sheet(), &cases::worked_blocks());
    assert_eq!(run.len(), 146);
    assert_eq!(reading(&run), cases::WORKED_TEXT.as_bytes());
}

#[test]
fn edges() {
    check(cases::edges::edges());
}

#[test]
fn rules() {
    check(cases::rules::rules());
}

#[test]
fn instances_without_a_block() {
    check(cases::empty::empty());
}

#[test]
fn views_without_a_block_of_an_instance() {
    check(cases::empty_views::views());
}

#[test]
fn shares_to_the_nearest() {
    check(cases::share::share());
}

#[test]
fn refusals_of_the_sheet() {
    check(cases::slips::of_the_sheet());
}

#[test]
fn refusals_of_slips() {
    check(cases::slips::among_the_blocks());
}

#[test]
fn refusals_of_blocks() {
    check(cases::blocks::blocks());
}

#[test]
fn truncations_at_every_byte() {
    check(cases::edges::truncations());
}

/// What is expected of a program that prints account records.
#[test]
fn records_are_the_account_lines() {
    let run = cases::run(&cases::worked_sheet(), &cases::worked_blocks());
    let records = |run: &[u8]| String::from_utf8(records::of_reading(&reading(run))).unwrap();
    assert_eq!(records(&run), "account 0 6 0\naccount 1 6 0\naccount 2 3 0\nkept 1021\n");
    // Ended by a refusal in a block slip, and in the sheet; no block; too long.
    assert_eq!(records(&run[..run.len() - 1]), "refused 1 122\n");
    assert_eq!(records(&run[..20]), "refused 1 14\n");
    assert_eq!(records(&run[..100]), "account 0 10 0\naccount 1 5 0\naccount 2 0 0\nkept 1021\n");
    assert_eq!(records(&[0; 65_537]), "long\n");
    // A block turned away ends nothing.
    let refused = [&run[..], &run[100..122]].concat();
    assert_eq!(records(&refused), records(&run));
}
