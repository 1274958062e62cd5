//! Makes the long report of examples/ in a directory.

use std::path::Path;
use std::process::ExitCode;

const HELP: &str = "\
usage: long-report DIRECTORY

Makes a routine, a report on it of 100,000 steps, and the same report with a bad step near its end:
routine.bin, good.bin and bad.bin. Prints the number of steps and the place of the bad one.";

fn main() -> ExitCode {
    let words: Vec<String> = std::env::args().skip(1).collect();
    let directory = match &words[..] {
        [word] if word == "--help" => {
            println!("{HELP}");
            return ExitCode::SUCCESS;
        }
        [directory] => directory,
        _ => {
            eprintln!("{HELP}");
            return ExitCode::from(2);
        }
    };
    match examples::write_long_report(Path::new(directory)) {
        Ok((steps, place)) => {
            println!("steps {steps} bad place {place}");
            ExitCode::SUCCESS
        }
        Err(error) => {
            eprintln!("{directory}: {error}");
            ExitCode::from(2)
        }
    }
}
