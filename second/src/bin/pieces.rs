//! Copies standard input to standard output in pieces of drawn sizes, each
//! of them written at once: `pieces SEED [N]`. Most pieces have 1 to 200
//! bytes, some have up to 100,000. With N, the program sleeps a little after
//! about one piece in N, so that a reader gets the pieces apart.

use second::chance::Chance;
use std::fs::File;
use std::io::{self, Read, Write};
use std::os::fd::AsFd;
use std::process::ExitCode;
use std::thread::sleep;
use std::time::Duration;

/// The size of the next piece.
fn size(chance: &mut Chance) -> u64 {
    let most = match chance.below(1_000) {
        0..=199 => 3,
        200..=993 => 200,
        994..=998 => 5_000,
        _ => 100_000,
    };
    1 + chance.below(most)
}

fn run(seed: u64, pause: u64) -> io::Result<()> {
    let mut input = io::stdin().lock();
    // A plain file: no buffer joins the pieces again.
    let mut output = File::from(io::stdout().as_fd().try_clone_to_owned()?);
    let mut chance = Chance::new(seed);
    let mut piece = Vec::new();
    loop {
        piece.clear();
        if input.by_ref().take(size(&mut chance)).read_to_end(&mut piece)? == 0 {
            return Ok(());
        }
        output.write_all(&piece)?;
        if pause > 0 && chance.below(pause) == 0 {
            sleep(Duration::from_micros(1 + chance.below(100)));
        }
    }
}

fn main() -> ExitCode {
    let numbers: Vec<Option<u64>> = std::env::args().skip(1).map(|a| a.parse().ok()).collect();
    let (seed, pause) = match numbers[..] {
        [Some(seed)] => (seed, 0),
        [Some(seed), Some(pause)] => (seed, pause),
        _ => {
            let _ = writeln!(io::stderr(), "use: pieces SEED [N]");
            return ExitCode::FAILURE;
        }
    };
    match run(seed, pause) {
        Ok(()) => ExitCode::SUCCESS,
        Err(error) => {
            let _ = writeln!(io::stderr(), "cannot read or write: {error}");
            ExitCode::FAILURE
        }
    }
}
