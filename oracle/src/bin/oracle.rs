//! Plays a script from standard input as `rehearse` does, by the meaning alone.

use std::io::{Read, Write};

fn main() -> std::io::Result<()> {
    let mut script = Vec::new();
    std::io::stdin().read_to_end(&mut script)?;
    std::io::stdout().write_all(oracle::rehearse::play(&script).as_bytes())
}
