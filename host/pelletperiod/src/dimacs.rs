//! A translation in the DIMACS CNF format that SAT solvers read. Variables keep
//! their numbers.

use crate::claim::{Claim, Translation};
use crate::inputs::Input;
use std::io::{self, Write};

/// How DIMACS writes a literal.
pub fn number(literal: u32) -> i64 {
    let variable = i64::from(literal / 2);
    if literal % 2 == 1 {
        -variable
    } else {
        variable
    }
}

/// The literal that DIMACS writes so, if there is a variable of that number.
pub fn literal(number: i64, variables: u32) -> Option<u32> {
    let variable = number.unsigned_abs();
    if variable == 0 || variable > u64::from(variables) {
        return None;
    }
    Some(2 * variable as u32 + u32::from(number < 0))
}

/// Writes comments that say what the clauses are about, the problem line, and
/// a line for each clause.
pub fn write(
    claim: &Claim,
    translation: &Translation,
    inputs: &[Input],
    out: &mut impl Write,
) -> io::Result<()> {
    write_comments(claim, translation, inputs, out)?;
    write_clauses(translation, translation.clauses, out)
}

/// Writes the first so many clauses, and the problem line before them.
pub fn write_clauses(
    translation: &Translation,
    clauses: usize,
    out: &mut impl Write,
) -> io::Result<()> {
    writeln!(out, "p cnf {} {clauses}", translation.variables)?;
    for clause in translation.iter().take(clauses) {
        for &literal in clause {
            write!(out, "{} ", number(literal))?;
        }
        writeln!(out, "0")?;
    }
    Ok(())
}

fn write_comments(
    claim: &Claim,
    translation: &Translation,
    inputs: &[Input],
    out: &mut impl Write,
) -> io::Result<()> {
    let Translation {
        words,
        clauses,
        variables,
    } = translation;
    let counts = format!(
        "clauses {clauses} words {} variables {variables}",
        words.len()
    );
    writeln!(out, "c {counts}")?;
    for Input { name, variables } in inputs {
        if variables.is_empty() {
            writeln!(
                out,
                "c {name}: no bits, it does not stand before the access"
            )?;
            continue;
        }
        let bits: Vec<String> = variables.iter().map(u32::to_string).collect();
        writeln!(out, "c {name}, lowest bit first: {}", bits.join(" "))?;
    }
    let arrival = number(translation.arrival());
    writeln!(out, "c comes to access {}: {arrival}", claim.access)?;
    let side = number(translation.side());
    writeln!(out, "c index {}: {side}", claim.side_name())
}
