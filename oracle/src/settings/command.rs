//! The command line of the judge of settings: `settings frames FILE` writes
//! the corpus, and `settings compare FRAMES OUTPUT` compares what a program
//! printed for it.

use std::fs;

use super::compare::compare;
use super::corpus::{families, SEED};
use super::frame::{decode, encode, Frame};
use super::reach::Reached;

const USAGE: &str = "usage: settings frames FILE | settings compare FRAMES OUTPUT";

/// The exit status: 0 all is well, 1 a difference, or frames that do not reach
/// all they must, 2 bad usage or a file that cannot be used.
pub fn settings() -> i32 {
    let arguments: Vec<String> = std::env::args().skip(1).collect();
    let words: Vec<&str> = arguments.iter().map(String::as_str).collect();
    let done = match words[..] {
        ["frames", file] => write_frames(file),
        ["compare", frames, output] => compare_files(frames, output),
        _ => Err(USAGE.to_string()),
    };
    match done {
        Ok(well) => i32::from(!well),
        Err(fault) => {
            eprintln!("settings: {}", fault);
            2
        }
    }
}

fn write_frames(file: &str) -> Result<bool, String> {
    let mut frames: Vec<Frame> = Vec::new();
    for (name, family) in families(SEED) {
        println!("{:<16} {:>8} settings lists", name, family.len());
        frames.extend(family);
    }
    fs::write(file, encode(&frames)).map_err(|fault| format!("{}: {}", file, fault))?;
    let reached = Reached::by(&frames);
    reached.print();
    let missing = reached.missing();
    missing.iter().for_each(|what| println!("not reached: {}", what));
    Ok(missing.is_empty())
}

fn compare_files(frames: &str, output: &str) -> Result<bool, String> {
    let asked = decode(&read(frames)?).map_err(|place| format!("{}: no frame at byte {}", frames, place))?;
    let comparison = compare(&asked, &read(output)?);
    if let Some(first) = &comparison.first {
        print!("{}", first);
    }
    println!("settings: {} lists, {} differences", comparison.lists, comparison.differences);
    Ok(comparison.differences == 0)
}

fn read(file: &str) -> Result<Vec<u8>, String> {
    fs::read(file).map_err(|fault| format!("{}: {}", file, fault))
}
