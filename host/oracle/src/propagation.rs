//! Unit propagation over a list of clauses.

use crate::clauses::Literal;

/// What is decided about each variable so far.
#[derive(Clone, Debug, PartialEq, Eq)]
pub struct Assignment {
    /// By the variable's number; nothing is ever said of variable 0.
    values: Vec<Option<bool>>,
}

impl Assignment {
    /// Nothing decided about the variables 1 to this count.
    pub fn undecided(variables: usize) -> Self {
        Assignment {
            values: vec![None; variables + 1],
        }
    }

    pub fn decide(&mut self, variable: u32, value: bool) {
        self.values[variable as usize] = Some(value);
    }

    pub fn value(&self, literal: Literal) -> Option<bool> {
        let value = self.values[literal.variable() as usize];
        value.map(|value| value != literal.is_opposite())
    }

    /// The first variable about which nothing is decided.
    pub fn first_undecided(&self) -> Option<usize> {
        let after = self.values.iter().skip(1).position(Option::is_none);
        after.map(|position| 1 + position)
    }
}

/// What a clause says where some variables are decided.
enum Status {
    /// One of its literals is true, or two distinct ones are undecided.
    Silent,
    /// All are false but this one, which is undecided.
    Unit(Literal),
    Conflict,
}

/// Goes through the clauses until they decide nothing more; breaks off with
/// the number of a clause whose literals are all false.
pub fn propagate<'a, I>(clauses: I, assignment: &mut Assignment) -> Result<(), usize>
where
    I: Iterator<Item = &'a [Literal]> + Clone,
{
    let mut changed = true;
    while changed {
        changed = false;
        for (number, clause) in clauses.clone().enumerate() {
            match status(clause, assignment) {
                Status::Silent => {}
                Status::Unit(literal) => {
                    assignment.decide(literal.variable(), !literal.is_opposite());
                    changed = true;
                }
                Status::Conflict => return Err(number),
            }
        }
    }
    Ok(())
}

fn status(clause: &[Literal], assignment: &Assignment) -> Status {
    let mut open = None;
    let mut several = false;
    for &literal in clause {
        match assignment.value(literal) {
            Some(true) => return Status::Silent,
            Some(false) => {}
            // A literal that stands in the clause twice is still one.
            None => several |= *open.get_or_insert(literal) != literal,
        }
    }
    match open {
        None => Status::Conflict,
        Some(literal) if !several => Status::Unit(literal),
        Some(_) => Status::Silent,
    }
}

#[cfg(test)]
mod tests {
    use super::*;

    fn propagated(clauses: &[&[u32]], variables: usize) -> Result<Vec<Option<bool>>, usize> {
        let clauses: Vec<Vec<Literal>> = clauses
            .iter()
            .map(|clause| clause.iter().map(|&number| Literal(number)).collect())
            .collect();
        let mut assignment = Assignment::undecided(variables);
        propagate(clauses.iter().map(Vec::as_slice), &mut assignment)?;
        Ok(assignment.values.split_off(1))
    }

    #[test]
    fn goes_on_until_nothing_changes() {
        // The second clause decides only once the third has.
        let decided = propagated(&[&[2], &[3, 7, 4], &[6, 3]], 3);
        assert_eq!(decided, Ok(vec![Some(true), Some(true), Some(true)]));
    }

    #[test]
    fn a_doubled_literal_is_one() {
        assert_eq!(propagated(&[&[4, 4]], 2), Ok(vec![None, Some(true)]));
        assert_eq!(propagated(&[&[4, 5]], 2), Ok(vec![None, None]));
        assert_eq!(propagated(&[&[2, 4]], 2), Ok(vec![None, None]));
    }

    #[test]
    fn conflict_names_its_clause() {
        assert_eq!(propagated(&[&[2], &[4, 3], &[5, 3]], 2), Err(2));
        assert_eq!(propagated(&[&[]], 1), Err(0));
    }
}
