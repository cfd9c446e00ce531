//! The command line of a judge, for any subject.

use crate::run::{run, Options};
use crate::subject::Subject;

const USAGE: &str = "usage: judge/run [--seed N] [--count N] [--exhaustive DEPTH] [--long]";

fn options() -> Result<Options, String> {
    let mut options = Options::default();
    let mut arguments = std::env::args().skip(1).peekable();
    // A run of another size, or from another seed, reaches what it reaches.
    options.must_reach = arguments.peek().is_none();
    while let Some(argument) = arguments.next() {
        let mut number = || -> Result<u64, String> {
            let text = arguments.next().ok_or_else(|| format!("{} needs a number", argument))?;
            text.parse().map_err(|_| format!("{} is no number", text))
        };
        match argument.as_str() {
            "--seed" => options.seed = number()?,
            "--count" => options.count = number()? as usize,
            "--exhaustive" => options.exhaustive = number()? as usize,
            "--long" => options.long = true,
            other => return Err(format!("{} is not known", other)),
        }
    }
    Ok(options)
}

/// Judges the subject as the arguments say; the exit status: 0 no differences,
/// 1 some, or a default run that does not reach all it must, 2 bad usage.
pub fn judge(subject: &dyn Subject) -> i32 {
    match options() {
        Ok(options) => i32::from(!run(subject, &options)),
        Err(fault) => {
            eprintln!("judge/run: {}\n{}", fault, USAGE);
            2
        }
    }
}
