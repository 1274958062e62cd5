//! A solver's proof as text: DRAT, which has the clauses alone, or LRAT, which
//! has the hints too.

use crate::dimacs::literal;

/// A line of a DRAT proof.
#[derive(Debug, PartialEq, Eq)]
pub enum Drat {
    Add(Vec<u32>),
    Delete(Vec<u32>),
}

/// A step of an LRAT proof; deletions are left out, for the judge keeps every
/// clause.
#[derive(Debug, PartialEq, Eq)]
pub struct Lrat {
    pub number: u64,
    pub literals: Vec<u32>,
    pub hints: Vec<u64>,
    /// Where the step stands in the file, for messages.
    pub line: usize,
}

#[derive(Debug, PartialEq, Eq)]
pub enum SolverProof {
    Drat(Vec<Drat>),
    Lrat(Vec<Lrat>),
}

/// Reads a proof and tells by its first line which of the two it is: a line of
/// LRAT begins with a number of its own and has two lists.
pub fn parse(bytes: &[u8], variables: u32) -> Result<SolverProof, String> {
    let text = std::str::from_utf8(bytes)
        .ok()
        .filter(|text| !text.contains('\0'))
        .ok_or("the proof is not text: have the solver write it so (cadical --no-binary)")?;
    let lines = || {
        let numbered = text.lines().enumerate();
        let words = numbered.map(|(k, line)| (k + 1, line.split_ascii_whitespace().collect()));
        words.filter(|(_, words): &(usize, Vec<&str>)| !matches!(words.first(), None | Some(&"c")))
    };
    let is_lrat = lines()
        .next()
        .map_or(false, |(_, words)| looks_lrat(&words));
    if is_lrat {
        let steps = lines().filter(|(_, words)| words.get(1) != Some(&"d"));
        let parsed = steps.map(|(line, words)| parse_lrat(line, &words, variables));
        return Ok(SolverProof::Lrat(parsed.collect::<Result<_, _>>()?));
    }
    let parsed = lines().map(|(line, words)| parse_drat(line, &words, variables));
    Ok(SolverProof::Drat(parsed.collect::<Result<_, _>>()?))
}

fn looks_lrat(words: &[&str]) -> bool {
    words.get(1) == Some(&"d") || words.iter().filter(|&&word| word == "0").count() == 2
}

fn parse_drat(line: usize, words: &[&str], variables: u32) -> Result<Drat, String> {
    let (is_deletion, rest) = match words {
        ["d", rest @ ..] => (true, rest),
        _ => (false, words),
    };
    match rest.split_last() {
        Some((&"0", literals)) => {
            let clause = parse_literals(line, literals, variables)?;
            Ok(match is_deletion {
                true => Drat::Delete(clause),
                false => Drat::Add(clause),
            })
        }
        _ => Err(format!("proof line {line}: no 0 at its end")),
    }
}

fn parse_lrat(line: usize, words: &[&str], variables: u32) -> Result<Lrat, String> {
    let wrong = || format!("proof line {line}: not a number, literals, 0, hints, 0");
    let lists: Vec<&[&str]> = words.split(|&word| word == "0").collect();
    match lists[..] {
        [[number, literals @ ..], hints, []] => Ok(Lrat {
            number: number.parse().map_err(|_| wrong())?,
            literals: parse_literals(line, literals, variables)?,
            hints: hints
                .iter()
                .map(|hint| parse_hint(line, hint))
                .collect::<Result<_, _>>()?,
            line,
        }),
        _ => Err(wrong()),
    }
}

fn parse_hint(line: usize, word: &str) -> Result<u64, String> {
    let negative = || format!("proof line {line}: {}", crate::elaborate::RAT);
    let wrong = || format!("proof line {line}: {word} is not a hint");
    match word.parse::<i64>() {
        Ok(hint) if hint < 0 => Err(negative()),
        Ok(hint) => Ok(hint.unsigned_abs()),
        Err(_) => Err(wrong()),
    }
}

fn parse_literals(line: usize, words: &[&str], variables: u32) -> Result<Vec<u32>, String> {
    let parsed = |word: &&str| {
        let number = word.parse().ok();
        number
            .and_then(|number| literal(number, variables))
            .ok_or_else(|| {
                format!("proof line {line}: {word} is not a literal of the {variables} variables")
            })
    };
    words.iter().map(parsed).collect()
}

#[cfg(test)]
mod tests {
    use super::*;

    #[test]
    fn tells_the_two_apart() {
        let drat = SolverProof::Drat(vec![
            Drat::Add(vec![2, 5]),
            Drat::Delete(vec![2, 5]),
            Drat::Add(vec![]),
        ]);
        assert_eq!(parse(b"c x\n1 -2 0\nd 1 -2 0\n0\n", 2), Ok(drat));
        let step = |number, literals: &[u32], hints: &[u64], line| Lrat {
            number,
            literals: literals.to_vec(),
            hints: hints.to_vec(),
            line,
        };
        let lrat = SolverProof::Lrat(vec![step(9, &[5], &[1, 3], 1), step(12, &[], &[9, 2], 3)]);
        assert_eq!(parse(b"9 -2 0 1 3 0\n9 d 1 0\n12 0 9 2 0\n", 2), Ok(lrat));
        assert_eq!(parse(b"", 2), Ok(SolverProof::Drat(vec![])));
    }

    #[test]
    fn wrong_lines_are_named() {
        for (text, message) in [
            ("1 0\n3 0\n", "proof line 2: 3 is not a literal"),
            ("1 0\n1 2\n", "proof line 2: no 0"),
            ("5 1 0 1 0\n6 0 -1 2 0\n", "proof line 2: "),
            ("5 1 0 1 0\n6 1 0\n", "proof line 2: not a number"),
            ("a\0b", "the proof is not text"),
        ] {
            let error = parse(text.as_bytes(), 2).expect_err("it is wrong");
            assert!(error.starts_with(message), "{error}");
        }
    }
}
