//! Prints a job with one scan of a foam: the walls of random balls, a hundred
//! where no number is given, in a cube of side N.

use std::env;
use std::error::Error;
use std::io::{self, Write};
use std::process::ExitCode;

use jobs::{foam, Job};

fn print_job() -> Result<(), Box<dyn Error>> {
    let arguments: Vec<String> = env::args().skip(1).collect();
    let (side, seed, balls) = match &arguments[..] {
        [side, seed] => (side.parse()?, seed.parse()?, 100),
        [side, seed, balls] => (side.parse()?, seed.parse()?, balls.parse()?),
        _ => return Err("usage: foam N SEED [BALLS]".into()),
    };
    if !(1..=1024).contains(&side) {
        return Err("N must be from 1 to 1024".into());
    }
    let mut job = Job::new();
    job.scan_case(&foam(side, seed, balls));
    write!(io::stdout().lock(), "{job}")?;
    Ok(())
}

fn main() -> ExitCode {
    match print_job() {
        Ok(()) => ExitCode::SUCCESS,
        Err(error) => {
            eprintln!("{error}");
            ExitCode::FAILURE
        }
    }
}
