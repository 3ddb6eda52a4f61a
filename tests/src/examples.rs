//! The runs that ship with the repository in `examples/`.

use std::fs;
use std::io;
use std::path::Path;

use crate::cases::{block, run, worked_blocks, worked_sheet};
use crate::generate::random::Random;
use crate::generate::{self, full, Size};
use crate::reading;

/// A run with the name of its file.
pub struct Example {
    pub name: &'static str,
    pub run: Vec<u8>,
}

/// The seed of `group.run`: four instances, some transactions of each end,
/// some offers turned away.
const GROUP_SEED: u64 = 2_000;

/// All of them; `examples/README.md` says what each shows.
pub fn all() -> Vec<Example> {
    let mut unseen = worked_blocks();
    unseen[1] = block(0, 1, 2, &[0, 0], &[0, 1]);
    let worked = run(&worked_sheet(), &worked_blocks());
    let cut_short = worked[..worked.len() - 1].to_vec();
    let group = generate::plain(&mut Random::new(GROUP_SEED), Size::Small, 20);
    vec![
        Example { name: "unseen", run: run(&worked_sheet(), &unseen) },
        Example { name: "worked", run: worked },
        Example { name: "cut-short", run: cut_short },
        Example { name: "group", run: group.bytes() },
        Example { name: "full", run: full::bytes() },
    ]
}

/// Writes each run and its reading into a folder: `NAME.run`, `NAME.reading`.
pub fn write(folder: &Path) -> io::Result<()> {
    for Example { name, run } in all() {
        fs::write(folder.join(format!("{name}.run")), &run)?;
        fs::write(folder.join(format!("{name}.reading")), reading(&run))?;
    }
    Ok(())
}
