//! The runs that the program `stored_runs` of the gate reads, each with the
//! reading of the second engine.
//!
//! A group is a file: for each run its length and that of its reading, four
//! bytes each, the run, the reading.

use std::fs;
use std::io;
use std::path::Path;

use crate::cases::{self, block, contract, payment, run, sheet, Case};
use crate::engine::text::LONGEST_RUN;
use crate::engine::Block;
use crate::generate::random::Random;
use crate::generate::{self, damage, full, Size};
use crate::reading;

/// So many seeds, from 1 on, stand in the group `generated`.
const SEEDS: u64 = 400;
/// Those whose run has more bytes are left to the comparisons of programs.
const MOST_BYTES: usize = 4_000;

/// Some runs under one name.
pub struct Group {
    pub name: &'static str,
    pub runs: Vec<Vec<u8>>,
}

impl Group {
    fn new(name: &'static str, runs: Vec<Vec<u8>>) -> Group {
        Group { name, runs }
    }

    /// What the file of the group holds.
    pub fn bytes(&self) -> Vec<u8> {
        let entry = |run: &Vec<u8>| {
            let text = reading(run);
            let lengths = [run.len() as u32, text.len() as u32].map(u32::to_le_bytes).concat();
            [&lengths[..], run, &text].concat()
        };
        self.runs.iter().flat_map(entry).collect()
    }
}

/// All groups, in the order in which the program reads them.
pub fn groups() -> Vec<Group> {
    let named = |cases: Vec<Case>| cases.into_iter().map(|case| case.run).collect();
    vec![
        Group::new("edges", named(cases::edges::edges())),
        Group::new("rules", named(cases::rules::rules())),
        Group::new("empty", named(cases::empty::empty())),
        Group::new("empty_views", named(cases::empty_views::views())),
        Group::new("share", named(cases::share::share())),
        Group::new("cut_off", named(cases::edges::truncations())),
        Group::new("sheets", named(cases::slips::of_the_sheet())),
        Group::new("slips", named(cases::slips::among_the_blocks())),
        Group::new("blocks", named(cases::blocks::blocks())),
        Group::new("refusals", refusals()),
        Group::new("limits", limits()),
        Group::new("generated", generated()),
    ]
}

/// For every refusal that `readrun` can print, 1 to 15 and 17, the first of
/// the named runs that meets it.
fn refusals() -> Vec<Vec<u8>> {
    let cases = cases::all();
    let meets = |number: u32| {
        let line = format!("refused {number} ");
        let met = |case: &&Case| case.text.lines().any(|text| text.starts_with(&line));
        cases.iter().find(met).map(|case| case.run.clone())
    };
    (1..=17).filter_map(meets).collect()
}

/// Empty input; sheets at the ends of their ranges; 65,536 bytes and more.
fn limits() -> Vec<Vec<u8>> {
    let full = full::bytes();
    let (mut one_more, mut last_cut) = (full.clone(), full.clone());
    one_more.push(0);
    last_cut.pop();
    vec![
        Vec::new(),
        no_transaction(),
        sixteen_instances(),
        no_register(),
        full,
        one_more,
        last_cut,
        vec![0; LONGEST_RUN],
        vec![255; LONGEST_RUN + 1],
        // 65,536 bytes, most of them in blocks that are refused.
        damage::filled(&generate::plain(&mut Random::new(1), Size::Tiny, 0)),
    ]
}

/// t 0: the sheet is complete after the starts, and the share is 1000.
fn no_transaction() -> Vec<u8> {
    let blocks = [block(1, 1, 1, &[0, 0], &[]), block(0, 1, 1, &[0, 1], &[])];
    run(&sheet(2, 3, &[7, 8], &[]), &blocks)
}

/// m 16: a payment from every account to the next, each block citing the one
/// of its instance and seeing all before it.
fn sixteen_instances() -> Vec<u8> {
    let payments: Vec<_> = (0..16)
        .map(|i| payment(&[(i, 1 + u32::from(i))], &[((i + 1) % 16, 1 + u32::from(i))]))
        .collect();
    let mut seen = [0; 16];
    let mut blocks: Vec<Block> = Vec::new();
    for (i, rank) in (0..16).zip(1..) {
        blocks.push(block(i, 1, rank, &seen, &[i]));
        seen[usize::from(i)] = 1;
    }
    run(&sheet(16, 2, &[1; 16], &payments), &blocks)
}

/// g 0: contracts without operations, and no `register` line.
fn no_register() -> Vec<u8> {
    let contracts = [contract(&[(0, 2)], &[(1, 2)], &[]), contract(&[(1, 3)], &[(0, 3)], &[])];
    let blocks = [
        block(0, 1, 1, &[0, 0], &[0]),
        block(1, 1, 2, &[1, 0], &[]),
        block(0, 2, 3, &[1, 1], &[]),
        block(1, 2, 4, &[2, 1], &[1]),
        block(0, 3, 5, &[2, 2], &[]),
    ];
    run(&sheet(2, 0, &[2, 1], &contracts), &blocks)
}

/// The usual runs of seeds.
fn generated() -> Vec<Vec<u8>> {
    (1..=SEEDS).map(generate::usual).filter(|run| run.len() <= MOST_BYTES).collect()
}

/// What the program has to print.
pub fn output(groups: &[Group]) -> String {
    let line = |count: usize| format!("{count} runs, {count} agree\n");
    let mut text: String =
        groups.iter().map(|group| format!("{}: {}", group.name, line(group.runs.len()))).collect();
    text.push_str(&line(groups.iter().map(|group| group.runs.len()).sum()));
    text
}

/// Writes the files `data/NAME` and `stdout` of the program's crate.
pub fn write(crate_folder: &Path) -> io::Result<()> {
    let groups = groups();
    let data = crate_folder.join("data");
    fs::create_dir_all(&data)?;
    for group in &groups {
        fs::write(data.join(group.name), group.bytes())?;
    }
    fs::write(crate_folder.join("stdout"), output(&groups))
}
