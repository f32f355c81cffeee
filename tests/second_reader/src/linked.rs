//! The commands that call the library.

use crate::report::Report;
use crate::{agree, kills, steps, Outcome, USAGE};
use std::path::Path;

pub fn run(words: &[&str]) -> Outcome {
    match words {
        ["agree", seed, count] => agree(seed.parse()?, count.parse()?),
        ["kills", seed, count, folder] => kills(seed.parse()?, count.parse()?, Path::new(folder)),
        ["steps", seed, count, folder] => steps(seed.parse()?, count.parse()?, Path::new(folder)),
        // The processes that `kills` and `steps` start.
        ["write", seed, number, file] => {
            kills::write(seed.parse()?, number.parse()?, Path::new(file))?;
            Ok(true)
        }
        ["write-traced", seed, number, file] => {
            steps::write_traced(seed.parse()?, number.parse()?, Path::new(file))?;
            Ok(true)
        }
        _ => Err(USAGE.into()),
    }
}

/// Compares the library with this reader over images in memory.
fn agree(seed: u64, count: u64) -> Outcome {
    println!("seed {seed}, {count} images");
    let mut report = Report::default();
    for number in 0..count {
        agree::compare(seed, number, &mut report);
    }
    agree::limits(&mut report);
    Ok(report.finish())
}

/// Kills processes that write through the library.
fn kills(seed: u64, count: u64, folder: &Path) -> Outcome {
    println!("seed {seed}, {count} kills");
    let mut report = Report::default();
    kills::kills(seed, count, folder, &mut report)?;
    Ok(report.finish())
}

/// Stops a process that writes through the library after each instruction.
fn steps(seed: u64, count: u64, folder: &Path) -> Outcome {
    println!("seed {seed}, {count} runs");
    let mut report = Report::default();
    steps::steps(seed, count, folder, &mut report)?;
    Ok(report.finish())
}
