//! Prints a run's reading, as `readrun` does: `cargo run --example text FILE`

use std::error::Error;
use std::io::{self, Write};
use std::{env, fs};

fn main() -> Result<(), Box<dyn Error>> {
    let path = env::args_os().nth(1).ok_or("usage: text FILE")?;
    let text = rugxeni::text(&fs::read(path)?);
    io::stdout().write_all(text.as_bytes())?;
    Ok(())
}
