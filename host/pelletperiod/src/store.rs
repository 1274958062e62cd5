//! Clauses by their numbers, each literal once, and the values of variables.

/// The number of no clause.
pub const NONE: u32 = u32::MAX;

/// Literals one behind the other, and where those of each clause begin.
#[derive(Default)]
pub struct Store {
    literals: Vec<u32>,
    starts: Vec<usize>,
}

impl Store {
    /// Takes a clause and hands back its number.
    pub fn push(&mut self, literals: &[u32]) -> u32 {
        self.starts.push(self.literals.len());
        self.literals.extend(literals);
        self.starts.len() as u32 - 1
    }

    pub fn get(&self, number: u32) -> &[u32] {
        let (first, end) = self.range(number);
        &self.literals[first..end]
    }

    pub fn get_mut(&mut self, number: u32) -> &mut [u32] {
        let (first, end) = self.range(number);
        &mut self.literals[first..end]
    }

    fn range(&self, number: u32) -> (usize, usize) {
        let number = number as usize;
        let end = self.starts.get(number + 1);
        (
            self.starts[number],
            end.copied().unwrap_or(self.literals.len()),
        )
    }
}

/// A clause with each literal once; none where it has a variable both ways, so
/// that it says nothing.
pub fn distinct(clause: &[u32]) -> Option<Vec<u32>> {
    let mut literals = clause.to_vec();
    literals.sort_unstable();
    literals.dedup();
    let says_nothing = literals.windows(2).any(|pair| pair[0] ^ 1 == pair[1]);
    (!says_nothing).then_some(literals)
}

/// The literals made true, in order, each with the clause that made it so.
pub struct Trail {
    /// For each literal: whether it is true, false, or neither.
    values: Vec<Option<bool>>,
    /// For each variable.
    reasons: Vec<u32>,
    pub made: Vec<u32>,
}

impl Trail {
    pub fn new(variables: u32) -> Self {
        let count = variables as usize + 1;
        Trail {
            values: vec![None; 2 * count],
            reasons: vec![NONE; count],
            made: Vec::new(),
        }
    }

    pub fn value(&self, literal: u32) -> Option<bool> {
        self.values[literal as usize]
    }

    pub fn reason(&self, literal: u32) -> u32 {
        self.reasons[literal as usize / 2]
    }

    pub fn make_true(&mut self, literal: u32, reason: u32) {
        self.values[literal as usize] = Some(true);
        self.values[literal as usize ^ 1] = Some(false);
        self.reasons[literal as usize / 2] = reason;
        self.made.push(literal);
    }

    /// Takes back all but the first so many.
    pub fn undo(&mut self, keep: usize) {
        for literal in self.made.drain(keep..) {
            self.values[literal as usize] = None;
            self.values[literal as usize ^ 1] = None;
        }
    }
}
