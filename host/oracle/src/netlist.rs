//! The four gates. Each takes the next variable and adds its clauses in the
//! order in which the scope document lists them; nothing is simplified.

use crate::clauses::{Literal, Sink};

/// A netlist in the making: its clauses go to the sink, its counts are kept.
pub struct Netlist<'a, S> {
    sink: &'a mut S,
    /// Variables are numbered from 1; this is the last one taken.
    variables: u32,
    clauses: usize,
    words: usize,
}

impl<'a, S: Sink> Netlist<'a, S> {
    /// A netlist of variable 1 alone, which clause 0 makes true.
    pub fn new(sink: &'a mut S) -> Self {
        let mut netlist = Netlist {
            sink,
            variables: 0,
            clauses: 0,
            words: 0,
        };
        let always = netlist.variable();
        netlist.clause(&[always]);
        netlist
    }

    pub fn variables(&self) -> usize {
        self.variables as usize
    }

    pub fn clauses(&self) -> usize {
        self.clauses
    }

    /// How many words the clauses so far take: for each its count and its
    /// literals.
    pub fn words(&self) -> usize {
        self.words
    }

    /// Takes the next variable.
    pub fn variable(&mut self) -> Literal {
        self.variables += 1;
        Literal::of_variable(self.variables)
    }

    pub fn clause(&mut self, literals: &[Literal]) {
        self.clauses += 1;
        self.words += 1 + literals.len();
        self.sink.clause(literals);
    }

    pub fn and(&mut self, a: Literal, b: Literal) -> Literal {
        let g = self.variable();
        self.clause(&[-g, a]);
        self.clause(&[-g, b]);
        self.clause(&[g, -a, -b]);
        g
    }

    pub fn xor(&mut self, a: Literal, b: Literal) -> Literal {
        let g = self.variable();
        self.clause(&[-g, a, b]);
        self.clause(&[-g, -a, -b]);
        self.clause(&[g, -a, b]);
        self.clause(&[g, a, -b]);
        g
    }

    /// True where at least two of the three are.
    pub fn majority(&mut self, a: Literal, b: Literal, c: Literal) -> Literal {
        let g = self.variable();
        self.clause(&[-a, -b, g]);
        self.clause(&[-a, -c, g]);
        self.clause(&[-b, -c, g]);
        self.clause(&[a, b, -g]);
        self.clause(&[a, c, -g]);
        self.clause(&[b, c, -g]);
        g
    }

    /// `a` where `c` is true, `b` where it is false.
    pub fn mux(&mut self, c: Literal, a: Literal, b: Literal) -> Literal {
        let g = self.variable();
        self.clause(&[-c, -a, g]);
        self.clause(&[-c, a, -g]);
        self.clause(&[c, -b, g]);
        self.clause(&[c, b, -g]);
        g
    }
}

#[cfg(test)]
mod tests {
    use super::*;
    use crate::clauses::Clauses;

    /// The clauses of one gate over variables 2, 3 and 4, whose own is 5.
    fn gate(make: impl Fn(&mut Netlist<Clauses>, [Literal; 3]) -> Literal) -> Vec<Vec<u32>> {
        let mut clauses = Clauses::default();
        let mut netlist = Netlist::new(&mut clauses);
        let operands = [(); 3].map(|()| netlist.variable());
        assert_eq!(make(&mut netlist, operands), Literal(10));
        let numbers = |clause: &[Literal]| clause.iter().map(|literal| literal.0).collect();
        assert_eq!(clauses.get(0), [Literal::TRUE]);
        clauses.first(clauses.len()).skip(1).map(numbers).collect()
    }

    #[test]
    fn gates_to_the_last_literal() {
        let and = [vec![11, 4], vec![11, 6], vec![10, 5, 7]];
        assert_eq!(gate(|n, [a, b, _]| n.and(a, b)), and);
        let xor = [[11, 4, 6], [11, 5, 7], [10, 5, 6], [10, 4, 7]];
        assert_eq!(gate(|n, [a, b, _]| n.xor(a, b)), xor);
        let majority = [
            [5, 7, 10],
            [5, 9, 10],
            [7, 9, 10],
            [4, 6, 11],
            [4, 8, 11],
            [6, 8, 11],
        ];
        assert_eq!(gate(|n, [a, b, c]| n.majority(a, b, c)), majority);
        let mux = [[5, 7, 10], [5, 6, 11], [4, 9, 10], [4, 8, 11]];
        assert_eq!(gate(|n, [c, a, b]| n.mux(c, a, b)), mux);
    }
}
