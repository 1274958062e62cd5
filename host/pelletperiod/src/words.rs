//! The words of the command line.

use pelletperiod::Claim;
use std::time::Duration;

/// Words that begin with two dashes, each with the word behind it; the rest
/// stays in order.
pub struct Words<'a> {
    pub plain: Vec<&'a str>,
    options: Vec<(&'a str, &'a str)>,
}

impl<'a> Words<'a> {
    /// Takes the named options out; any other is wrong.
    pub fn split(words: &[&'a str], known: &[&str]) -> Result<Self, String> {
        let (mut plain, mut options) = (Vec::new(), Vec::new());
        let mut rest = words.iter();
        while let Some(&word) = rest.next() {
            if !word.starts_with("--") {
                plain.push(word);
                continue;
            }
            if !known.contains(&word) {
                return Err(format!("{word}: no such option"));
            }
            let value = rest
                .next()
                .ok_or_else(|| format!("{word}: its value is missing"))?;
            options.push((word, *value));
        }
        Ok(Words { plain, options })
    }

    /// The value of an option, the last one where it is given twice.
    pub fn option(&self, name: &str) -> Option<&'a str> {
        let mut given = self.options.iter().rev();
        given.find(|option| option.0 == name).map(|option| option.1)
    }
}

pub fn read(file: &str) -> Result<Vec<u8>, String> {
    std::fs::read(file).map_err(|e| format!("{file}: {e}"))
}

/// The claim of the four words ROUTINE ACCESS SIDE DECISIONS.
pub fn claim_of(words: &[&str]) -> Result<Claim, String> {
    Ok(Claim {
        access: parse_byte("access", words[1])?,
        side: parse_byte("side", words[2])?,
        decisions: parse_decisions(words[3])?,
        routine: read(words[0])?,
    })
}

pub fn parse_inputs(words: &[&str]) -> Result<Vec<u32>, String> {
    words.iter().map(|word| parse_input(word)).collect()
}

/// Inputs with commas between them.
pub fn parse_witness(word: &str) -> Result<Vec<u32>, String> {
    parse_inputs(&word.split(',').collect::<Vec<_>>())
}

fn parse_input(word: &str) -> Result<u32, String> {
    let parsed = match word.strip_prefix("0x") {
        Some(digits) => u32::from_str_radix(digits, 16),
        None => word.parse(),
    };
    parsed.map_err(|e| format!("input word {word}: {e}"))
}

fn parse_byte(what: &str, word: &str) -> Result<u8, String> {
    word.parse().map_err(|e| format!("{what} {word}: {e}"))
}

pub fn parse_seconds(word: &str) -> Result<Duration, String> {
    let seconds = word.parse().map_err(|e| format!("seconds {word}: {e}"))?;
    Ok(Duration::from_secs(seconds))
}

/// Any digit is handed on: which of them are decisions is the library's to say.
fn parse_decisions(word: &str) -> Result<Vec<u8>, String> {
    let digits = if word == "-" { "" } else { word };
    let digit = |c: char| c.to_digit(10).map(|digit| digit as u8);
    digits
        .chars()
        .map(|c| digit(c).ok_or_else(|| format!("decisions {word}: {c} is not a digit")))
        .collect()
}
