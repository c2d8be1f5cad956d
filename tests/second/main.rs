//! Reads records from standard input and prints what the fresh reckoning answers (01, The ledger
//! program). A failed read or write ends with a message, status 1 and no `E` line.

mod reckoning;

use reckoning::Ledger;
use std::fs::File;
use std::io::{self, ErrorKind, Read, Write};
use std::os::fd::AsFd;
use std::process::ExitCode;

const BLOCK: usize = 64 * 1024;

fn main() -> ExitCode {
    match run() {
        Ok(()) => ExitCode::SUCCESS,
        Err(error) => {
            let _ = writeln!(io::stderr(), "{error}");
            ExitCode::FAILURE
        }
    }
}

fn run() -> Result<(), String> {
    // As plain files: the standard handles take a bad descriptor for an empty one.
    let input = io::stdin().as_fd().try_clone_to_owned();
    let output = io::stdout().as_fd().try_clone_to_owned();
    let mut input = File::from(input.map_err(|e| format!("standard input: {e}"))?);
    let mut output = File::from(output.map_err(|e| format!("standard output: {e}"))?);

    let mut ledger = Ledger::new();
    let mut block = vec![0; BLOCK];
    let mut printed = Vec::with_capacity(2 * BLOCK);
    loop {
        let length = match input.read(&mut block) {
            Ok(length) => length,
            Err(error) if error.kind() == ErrorKind::Interrupted => continue,
            Err(error) => {
                write(&mut output, &mut printed)?;
                return Err(format!("standard input: {error}"));
            }
        };
        if length == 0 || !ledger.feed(&block[..length], &mut printed) {
            break;
        }
        if printed.len() >= BLOCK {
            write(&mut output, &mut printed)?;
        }
    }
    ledger.finish(&mut printed);
    write(&mut output, &mut printed)
}

/// Writes what was printed so far and empties it.
fn write(output: &mut File, printed: &mut Vec<u8>) -> Result<(), String> {
    output
        .write_all(printed)
        .map_err(|e| format!("standard output: {e}"))?;
    printed.clear();
    Ok(())
}
