//! One line for each test, and the count of both kinds at the end.

use crate::process::temporary;
use std::fs;

#[derive(Default)]
pub struct Report {
    passed: usize,
    failed: usize,
}

impl Report {
    pub fn note(&mut self, name: &str, result: Result<(), String>) {
        match result {
            Ok(()) => {
                self.passed += 1;
                println!("ok   {name}");
            }
            Err(reason) => {
                self.failed += 1;
                println!("FAIL {name}: {reason}");
            }
        }
    }

    /// Prints the last line; true if something was tested and nothing failed.
    pub fn close(self) -> bool {
        println!("{} passed, {} failed", self.passed, self.failed);
        self.failed == 0 && self.passed > 0
    }
}

/// Keeps a stream on which the programs differ, and says where.
pub fn keep(name: &str, stream: &[u8]) -> String {
    let path = temporary(&format!("streams-{}.bin", name.replace(|c: char| !c.is_ascii_alphanumeric(), "-")));
    match fs::write(&path, stream) {
        Ok(()) => format!("the stream is in {}", path.display()),
        Err(error) => format!("the stream was not kept: {error}"),
    }
}
