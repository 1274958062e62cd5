//! The model that a solver prints.

use crate::dimacs::literal;

/// The values of the variables by their numbers, from lines that begin with v;
/// false where they say nothing.
pub fn parse(text: &str, variables: u32) -> Result<Vec<bool>, String> {
    let mut model = vec![false; variables as usize + 1];
    let mut is_there = false;
    for line in text.lines() {
        let mut words = line.split_ascii_whitespace();
        if words.next() != Some("v") {
            continue;
        }
        is_there = true;
        for word in words.filter(|&word| word != "0") {
            let wrong =
                || format!("{word} in a model is not a literal of the {variables} variables");
            let number = word.parse().ok();
            let literal = number
                .and_then(|n| literal(n, variables))
                .ok_or_else(wrong)?;
            model[literal as usize / 2] = literal % 2 == 0;
        }
    }
    match is_there {
        true => Ok(model),
        false => Err("no model there: no line begins with v".to_string()),
    }
}
