// Writes the stored cases anew: `cases DIR` makes cases.names, cases.in and cases.out there.

use std::path::Path;
use std::process::ExitCode;

use oracle::cases;

fn main() -> ExitCode {
    let words: Vec<String> = std::env::args().collect();
    let [_, folder] = words.as_slice() else {
        eprintln!("usage: cases DIR");
        return ExitCode::from(2);
    };
    let all = cases::all();
    match cases::write_all(&all, Path::new(folder)) {
        Ok(()) => {
            println!("{} cases", all.len());
            ExitCode::SUCCESS
        }
        Err(error) => {
            eprintln!("{folder}: {error}");
            ExitCode::FAILURE
        }
    }
}
