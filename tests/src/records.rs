//! The account records of a run, as the program `records_run` prints them.
//!
//! "The account lines are also offered as a lent list of records, free and
//! held together … places from a on keep what they had." The program lends a
//! list of 1,024 records and prints the first a of them as account lines, then
//! how many of the others are as they were.

use std::str;

/// So many records the program lends: as many as there can be accounts.
const RECORDS: usize = 1_024;

/// What the program prints where `readrun` prints this reading: its account
/// lines and the records kept; of a run that is not read to its end the line
/// that says so.
pub fn of_reading(reading: &[u8]) -> Vec<u8> {
    let lines: Vec<&str> = str::from_utf8(reading).unwrap_or_default().lines().collect();
    match lines.last() {
        Some(last) if last.starts_with("share ") => {
            let accounts = lines.iter().filter(|line| line.starts_with("account "));
            let kept = RECORDS - accounts.clone().count();
            let text: String = accounts.map(|line| format!("{line}\n")).collect();
            format!("{text}kept {kept}\n").into_bytes()
        }
        last => last.map_or(String::new(), |line| format!("{line}\n")).into_bytes(),
    }
}
