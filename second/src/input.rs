//! A small input, read whole, and its lines: for the tool postings.

use std::io::{self, ErrorKind, Read, Write};
use std::process::ExitCode;

pub use crate::lending::INPUT_MOST;

/// What was being done when an error came up, and the error.
pub type Fault = (&'static str, io::Error);

/// All of the input, if it isn't too long.
pub fn read_all(input: impl Read) -> Result<Vec<u8>, Fault> {
    let mut bytes = Vec::new();
    let most = u64::from(INPUT_MOST);
    input.take(most + 1).read_to_end(&mut bytes).map_err(|error| ("read", error))?;
    if bytes.len() as u64 > most {
        let text = format!("more than {most} bytes");
        return Err(("read", io::Error::new(ErrorKind::InvalidData, text)));
    }
    Ok(bytes)
}

/// The lines of an input, without their bytes 10.
pub fn lines(input: &[u8]) -> impl Iterator<Item = &[u8]> {
    let lines = input.split_inclusive(|&byte| byte == b'\n');
    lines.map(|line| line.strip_suffix(b"\n").unwrap_or(line))
}

/// Says on standard error what a tool found wrong or which error came up, and
/// gives its status.
pub fn report(tool: &str, told: Result<Option<String>, Fault>) -> ExitCode {
    let text = match told {
        Ok(None) => return ExitCode::SUCCESS,
        Ok(Some(wrong)) => format!("{tool}: {wrong}"),
        Err((doing, error)) => format!("cannot {doing}: {error}"),
    };
    let _ = writeln!(io::stderr(), "{text}");
    ExitCode::FAILURE
}
