// Reads a plan text from standard input and prints what 01's program prints, by the original's answers.

use std::io::{self, Read, Write};
use std::process::ExitCode;

use oracle::text;

fn main() -> ExitCode {
    let mut input = Vec::new();
    // One byte more than the limit is enough to see that there is more.
    let most = text::TEXT as u64 + 1;
    if io::stdin().lock().take(most).read_to_end(&mut input).is_err() {
        return ExitCode::from(2);
    }
    match text::run(&input) {
        Ok(output) => match io::stdout().write_all(&output) {
            Ok(()) => ExitCode::SUCCESS,
            Err(_) => ExitCode::from(2),
        },
        Err(stopped) => {
            eprintln!("the original panicked at line {}: {}", stopped.line, stopped.message);
            ExitCode::from(3)
        }
    }
}
