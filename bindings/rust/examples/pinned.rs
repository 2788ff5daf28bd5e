//! A stand whose plan is a text: planned, and written to a file with its answers. After a power dip the devices come back from that file, in another order and
//! without the kitchen printer, and get the numbers that they had.

use std::{env, error::Error, fs, process};
use thurgoleo::{pin_text, text, TEXT, TEXT_OUTPUT};

const PLAN: &str = include_str!("../../../examples/stand.plan");
const PRINTER: &str = "want\t31\t";

/// What the planner answers to a text.
fn planned(lines: &str) -> Result<String, Box<dyn Error>> {
    let mut out = vec![0; TEXT_OUTPUT];
    Ok(String::from_utf8(text(lines.as_bytes(), &mut out)?.into())?)
}

fn main() -> Result<(), Box<dyn Error>> {
    let file = env::temp_dir().join(format!("stand-{}.plan", process::id()));

    // the first start; the pinned text is what the stand keeps
    let first = planned(PLAN)?;
    fs::write(&file, pin_text(PLAN.as_bytes(), &mut [0; TEXT])?)?;

    // a power dip: the file is all that is left
    let kept = fs::read_to_string(&file)?;
    fs::remove_file(&file)?;
    let (wants, board): (Vec<&str>, Vec<&str>) = kept
        .split_inclusive('\n')
        .partition(|line| line.starts_with("want"));
    let back = wants.iter().rev().filter(|want| !want.starts_with(PRINTER));
    let again: String = board.iter().chain(back).copied().collect();

    // who came back has what it had
    let second = planned(&again)?;
    print!("{second}");
    let mut got: Vec<&str> = second.lines().collect();
    assert_eq!(got.pop(), Some("end\t7"));
    assert!(got.iter().all(|had| first.lines().any(|line| line == *had)));
    println!("after the dip the devices have the numbers that they had");
    Ok(())
}
