//! Checks, runs and translates pick routines, and makes and judges reports on
//! them from the command line. Files are read, the library is called, and what
//! it answers is printed.

mod done;
mod help;
mod judging;
mod looking;
mod reporting;
mod words;

use done::Done;
use help::help;
use judging::{judge_all, judge_one};
use looking::{check, print_clauses, run, space};
use reporting::{propose_report, report_of_proof};
use std::io::{self, BufWriter, Write};
use std::process::ExitCode;
use words::{claim_of, parse_inputs, read};

fn main() -> ExitCode {
    let words: Vec<String> = std::env::args().skip(1).collect();
    let words: Vec<&str> = words.iter().map(String::as_str).collect();
    let done = match carry_out(&words) {
        Ok(done) => done,
        Err(message) => {
            eprintln!("{message}");
            return ExitCode::from(2);
        }
    };
    let code = u8::from(done.is_refused);
    let mut out = BufWriter::new(io::stdout().lock());
    match out.write_all(&done.printed).and_then(|()| out.flush()) {
        Ok(()) => ExitCode::from(code),
        // Whoever read the output has had enough of it.
        Err(error) if error.kind() == io::ErrorKind::BrokenPipe => ExitCode::from(code),
        Err(error) => {
            eprintln!("standard output: {error}");
            ExitCode::from(2)
        }
    }
}

fn carry_out(words: &[&str]) -> Result<Done, String> {
    let (&command, rest) = words.split_first().ok_or_else(|| help("").to_string())?;
    if ["--help", "-h", "help"].contains(&command) {
        let of = rest.first().copied().unwrap_or("");
        return Ok(Done::text(help(of), false));
    }
    if rest.iter().any(|word| ["--help", "-h"].contains(word)) {
        return Ok(Done::text(help(command), false));
    }
    match (command, rest) {
        ("check", [file]) => Ok(Done::new(check(&read(file)?))),
        ("run", [file, inputs @ ..]) => {
            let inputs = parse_inputs(inputs)?;
            Ok(Done::new(run(&read(file)?, &inputs)))
        }
        ("translate", claim) if claim.len() == 4 => print_clauses(&claim_of(claim)?),
        ("space", claim) if claim.len() == 4 => Ok(Done::new(space(&claim_of(claim)?))),
        ("judge", [file, report]) => judge_one(&read(file)?, &read(report)?),
        ("judge", [file, reports @ ..]) if !reports.is_empty() => judge_all(&read(file)?, reports),
        ("propose", words) => propose_report(words),
        ("from-lrat", words) => report_of_proof(words),
        _ => Err(help(command).to_string()),
    }
}
