//! A second implementation, written from docs/PROTOCOL.md and sharing nothing with the crates. It makes the files
//! that the programs are run on and those with what they must print. Run from the repository's root:
//!
//!     second write [SEED]    write the files
//!     second check           fail unless the files are those of the seed below

mod bits;
mod bridge;
mod cases;
mod frame;
mod inspect;
mod line;
mod random;
mod seal;

use std::error::Error;
use std::fs;

const SEED: u64 = 20;

fn main() -> Result<(), Box<dyn Error>> {
    let words: Vec<String> = std::env::args().skip(1).collect();
    match words.iter().map(String::as_str).collect::<Vec<_>>()[..] {
        ["write"] => write(SEED),
        ["write", seed] => write(seed.parse()?),
        ["check"] => check(),
        _ => Err("usage: second write [SEED] | second check".into()),
    }
}

/// Each file with its bytes.
fn files(seed: u64) -> Vec<(&'static str, Vec<u8>)> {
    println!("vectors of seed {seed}");
    let (bridge_stdin, bridge_stdout) = bridge::vectors(seed);
    let (inspect_stdin, inspect_stdout) = inspect::vectors(seed);
    vec![
        ("crates/bridge/stdin", bridge_stdin),
        ("crates/bridge/stdout", bridge_stdout),
        ("crates/inspect/args", inspect::ARGUMENTS.to_vec()),
        ("crates/inspect/stdin", inspect_stdin),
        ("crates/inspect/stdout", inspect_stdout),
    ]
}

fn write(seed: u64) -> Result<(), Box<dyn Error>> {
    for (path, bytes) in files(seed) {
        fs::write(path, bytes)?;
    }
    Ok(())
}

fn check() -> Result<(), Box<dyn Error>> {
    for (path, bytes) in files(SEED) {
        if fs::read(path)? != bytes {
            return Err(format!("{path} is not what the second implementation makes").into());
        }
    }
    Ok(())
}
