//! What the programs `frames` and `heaps` share: their arguments, and how they end.

use std::io::{self, Write};
use std::process::ExitCode;

/// Why a program ends early: crate and document part, or its own input or output broke.
pub enum Stop {
    Parted(String),
    Broken(io::Error),
}

impl From<io::Error> for Stop {
    fn from(error: io::Error) -> Stop {
        Stop::Broken(error)
    }
}

/// The words after the program's name; one that is no text is nothing.
pub fn arguments() -> Vec<Option<String>> {
    let words = std::env::args_os().skip(1);
    words.map(|word| word.into_string().ok()).collect()
}

/// Flushes the output and gives the exit status; says on standard error why the program stopped.
pub fn end(name: &str, result: Result<(), Stop>, output: &mut impl Write) -> ExitCode {
    match result.and_then(|()| Ok(output.flush()?)) {
        Ok(()) => ExitCode::SUCCESS,
        Err(Stop::Parted(text)) => {
            // Everything that was answered before comes first.
            let _ = output.flush();
            eprintln!("{name}: {text}");
            ExitCode::from(1)
        }
        Err(Stop::Broken(error)) => {
            eprintln!("{name}: {error}");
            ExitCode::from(2)
        }
    }
}
