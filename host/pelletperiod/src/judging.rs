//! The command that judges reports.

use crate::done::Done;
use crate::words::read;
use pelletperiod::judge;
use pelletperiod::progress::during;

pub fn judge_one(routine: &[u8], report: &[u8]) -> Result<Done, String> {
    Ok(Done::new(during("judging", |_| judge(routine, report))))
}

/// Judges several reports: their lines begin with the files' names. No line is
/// printed where a file cannot be read.
pub fn judge_all(routine: &[u8], files: &[&str]) -> Result<Done, String> {
    let mut lines = Vec::new();
    let mut is_refused = false;
    for file in files {
        let report = read(file)?;
        let verdict = during(&format!("judging {file}"), |_| judge(routine, &report));
        is_refused |= verdict.is_err();
        let line = verdict.unwrap_or_else(|refused| refused.to_string());
        lines.push(format!("{file}: {line}"));
    }
    Ok(Done::text(&lines.join("\n"), is_refused))
}
