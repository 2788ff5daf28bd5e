// Writes random plan texts: `texts N SEED DIR` makes DIR/text-000000 and so on.

use std::process::ExitCode;
use std::{env, fs};

use oracle::gen;

fn main() -> ExitCode {
    let words: Vec<String> = env::args().collect();
    let [_, number, seed, folder] = words.as_slice() else {
        eprintln!("usage: texts N SEED DIR");
        return ExitCode::from(2);
    };
    let (Ok(number), Ok(seed)) = (number.parse::<u64>(), seed.parse::<u64>()) else {
        eprintln!("N and SEED are numbers");
        return ExitCode::from(2);
    };
    match write(number, seed, folder) {
        Ok(()) => ExitCode::SUCCESS,
        Err(error) => {
            eprintln!("{folder}: {error}");
            ExitCode::FAILURE
        }
    }
}

fn write(number: u64, seed: u64, folder: &str) -> std::io::Result<()> {
    fs::create_dir_all(folder)?;
    for index in 0..number {
        fs::write(format!("{folder}/text-{index:06}"), gen::text(seed, index))?;
    }
    Ok(())
}
