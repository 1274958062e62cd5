//! Literals and clauses, and where the clauses of a translation go.

use std::ops::Neg;

/// A literal by its number: 2v is variable v, 2v + 1 its opposite.
#[derive(Clone, Copy, Debug, PartialEq, Eq)]
pub struct Literal(pub u32);

impl Literal {
    /// Variable 1 is true, so its two literals are the constants.
    pub const TRUE: Literal = Literal(2);
    pub const FALSE: Literal = Literal(3);

    pub fn constant(value: bool) -> Self {
        if value {
            Literal::TRUE
        } else {
            Literal::FALSE
        }
    }

    pub fn of_variable(variable: u32) -> Self {
        Literal(2 * variable)
    }

    pub fn variable(self) -> u32 {
        self.0 / 2
    }

    /// Whether this is the opposite of its variable.
    pub fn is_opposite(self) -> bool {
        self.0 % 2 == 1
    }
}

/// The opposite.
impl Neg for Literal {
    type Output = Literal;

    fn neg(self) -> Literal {
        Literal(self.0 ^ 1)
    }
}

/// What takes the clauses of a translation, one by one in their order. The
/// longest translations have tens of millions of words, so whoever only wants
/// to count or to compare need not store them.
pub trait Sink {
    fn clause(&mut self, literals: &[Literal]);
}

/// Takes clauses and keeps none.
pub struct Discard;

impl Sink for Discard {
    fn clause(&mut self, _literals: &[Literal]) {}
}

/// A list of clauses, one behind the other.
#[derive(Clone, Debug, Default, PartialEq, Eq)]
pub struct Clauses {
    literals: Vec<Literal>,
    /// For each clause, where it ends among the literals.
    ends: Vec<usize>,
}

impl Clauses {
    pub fn len(&self) -> usize {
        self.ends.len()
    }

    pub fn is_empty(&self) -> bool {
        self.ends.is_empty()
    }

    /// The clause of this number.
    pub fn get(&self, number: usize) -> &[Literal] {
        let from = match number {
            0 => 0,
            _ => self.ends[number - 1],
        };
        &self.literals[from..self.ends[number]]
    }

    /// The first so many clauses, in their order.
    pub fn first(&self, count: usize) -> impl Iterator<Item = &[Literal]> + Clone {
        (0..count).map(move |number| self.get(number))
    }

    /// All clauses as lists of the literals' numbers.
    pub fn numbers(&self) -> Vec<Vec<u32>> {
        let numbers = |clause: &[Literal]| clause.iter().map(|literal| literal.0).collect();
        self.first(self.len()).map(numbers).collect()
    }
}

impl Sink for Clauses {
    fn clause(&mut self, literals: &[Literal]) {
        self.literals.extend_from_slice(literals);
        self.ends.push(self.literals.len());
    }
}
