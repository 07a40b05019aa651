//! `check` and `day` of the permit office as plain Rust with its standard library alone, to measure the proved program against.
//! It reads and writes the same bytes. Actors work at once, each on a thread of its own, and share all that is kept of trucks and
//! roads; so a day of several actors may have another journal each time, as that of the proved program may.
mod actors;
mod files;
mod finding;
mod limits;
mod office;
mod records;
mod report;
mod search;
mod text;
mod truck;

use files::Refusal;
use std::io::{Read, Write};
use std::process::ExitCode;

const USAGE: u8 = 2;
const CANNOT_READ: u8 = 3;
const CANNOT_WRITE: u8 = 4;
const CANNOT_TELL: u8 = 8;

fn check(data: &[u8]) -> Result<u8, Refusal> {
    let text = report::report(&files::read_check(data)?);
    Ok(if std::io::stdout().write_all(&text).is_ok() { 0 } else { CANNOT_WRITE })
}

fn day(data: &[u8]) -> Result<u8, Refusal> {
    let (told, is_written) = actors::run(files::read_day(data)?, std::io::stdout());
    if !is_written {
        return Ok(CANNOT_WRITE);
    }
    Ok(if std::io::stderr().write_all(&told).is_ok() { 0 } else { CANNOT_TELL })
}

fn main() -> ExitCode {
    let command = match std::env::args().nth(1).as_deref() {
        Some("check") => check,
        Some("day") => day,
        _ => {
            println!("usage: plain check|day");
            return ExitCode::from(USAGE);
        }
    };
    let mut data = Vec::new();
    if std::io::stdin().lock().read_to_end(&mut data).is_err() {
        return ExitCode::from(CANNOT_READ);
    }
    ExitCode::from(command(&data).unwrap_or_else(|Refusal(status, line)| {
        let is_written = writeln!(std::io::stdout(), "refused: {line}").is_ok();
        if is_written { status } else { CANNOT_WRITE }
    }))
}
