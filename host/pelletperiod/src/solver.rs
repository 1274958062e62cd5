//! A SAT solver of the machine.

use crate::progress::during;
use crate::scratch::Scratch;
use crate::{dimacs, model, Translation};
use std::fs::{self, File};
use std::io::{self, BufWriter, Write};
use std::path::{Path, PathBuf};
use std::process::{Child, Command, ExitStatus, Stdio};
use std::thread::sleep;
use std::time::{Duration, Instant};

/// Blocked and covered clauses and conditioning are what makes cadical write
/// steps that do not follow by unit propagation.
pub const DEFAULT: &str = "cadical --no-block --no-cover --no-condition";

/// A program that takes a DIMACS file and the name of a proof to write, and ends
/// with 10 and a model or with 20, as cadical and kissat do.
pub struct Solver {
    pub command: String,
    /// How long it may take over one question.
    pub limit: Option<Duration>,
}

pub enum Answer {
    /// The values of the variables by their numbers.
    Model(Vec<bool>),
    /// The proof as the solver wrote it.
    Unsatisfiable(Vec<u8>),
}

struct Files {
    clauses: PathBuf,
    proof: PathBuf,
    output: PathBuf,
}

impl Solver {
    /// Asks about the first so many clauses.
    pub fn solve(
        &self,
        translation: &Translation,
        clauses: usize,
        what: &str,
    ) -> Result<Answer, String> {
        let scratch = Scratch::new().map_err(|e| format!("no directory for the solver: {e}"))?;
        let file = |name| scratch.path().join(name);
        let files = Files {
            clauses: file("clauses.cnf"),
            proof: file("proof.drat"),
            output: file("output"),
        };
        let wrong = |e: io::Error| format!("{}: {e}", files.clauses.display());
        write_file(&files.clauses, translation, clauses).map_err(wrong)?;
        let status = during(what, |_| self.run(&files))?;
        answer(&self.command, status, &files, translation.variables)
    }

    fn run(&self, files: &Files) -> Result<ExitStatus, String> {
        let output = File::create(&files.output).map_err(|e| format!("solver's output: {e}"))?;
        let mut words = self.command.split_ascii_whitespace();
        let program = words.next().ok_or("no solver is named")?;
        let child = Command::new(program)
            .args(words)
            .args(["-q", "--no-binary"])
            .args([&files.clauses, &files.proof])
            .stdin(Stdio::null())
            .stdout(output)
            .spawn()
            .map_err(|e| format!("{program}: {e}\n{INSTALL}"))?;
        self.wait(child)
    }

    fn wait(&self, mut child: Child) -> Result<ExitStatus, String> {
        let started = Instant::now();
        let mut pause = Duration::from_millis(1);
        loop {
            let status = child.try_wait().map_err(|e| format!("the solver: {e}"))?;
            if let Some(status) = status {
                return Ok(status);
            }
            if self.limit.map_or(false, |limit| started.elapsed() >= limit) {
                let ended = child.kill().and_then(|()| child.wait());
                ended.map_err(|e| format!("the solver: {e}"))?;
                return Err(format!("{}: {OUT_OF_TIME}", self.command));
            }
            sleep(pause);
            pause = (2 * pause).min(Duration::from_millis(50));
        }
    }
}

const INSTALL: &str = "\
A SAT solver is needed for this: on Debian `apt-get install cadical`, or name another one that is \
called alike with --solver.";

/// How a message ends where the limit was too short.
pub const OUT_OF_TIME: &str = "no answer in the time given";

fn write_file(path: &Path, translation: &Translation, clauses: usize) -> io::Result<()> {
    let mut out = BufWriter::new(File::create(path)?);
    dimacs::write_clauses(translation, clauses, &mut out)?;
    out.flush()
}

fn answer(
    command: &str,
    status: ExitStatus,
    files: &Files,
    variables: u32,
) -> Result<Answer, String> {
    let wrong = |e: io::Error| format!("{command}: {e}");
    match status.code() {
        Some(10) => {
            let output = fs::read_to_string(&files.output).map_err(wrong)?;
            Ok(Answer::Model(model::parse(&output, variables)?))
        }
        Some(20) => {
            let proof = fs::read(&files.proof).map_err(wrong)?;
            Ok(Answer::Unsatisfiable(proof))
        }
        _ => {
            let output = fs::read_to_string(&files.output).unwrap_or_default();
            Err(format!("{command}: no answer ({status})\n{output}"))
        }
    }
}
