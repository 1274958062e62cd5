//! What the ifs, accesses and divisions of a routine look like, in text order.

use oracle::arithmetic::{Operation, Relation};
use oracle::{Branch, Command, Routine};

pub struct IfSite {
    /// How many ifs are open with this one.
    pub depth: usize,
    pub relation: Relation,
    pub first_is_empty: bool,
    pub else_is_empty: bool,
    pub reads_in_both_arms: bool,
}

pub struct AccessSite {
    /// How many ifs are open around it.
    pub depth: usize,
    pub is_read: bool,
    pub index_width: u32,
    pub size: u32,
}

impl AccessSite {
    /// Whether the index variable is too narrow ever to reach the size.
    pub fn never_above(&self) -> bool {
        u64::from(self.size) > (1 << (self.index_width - 1)) - 1
    }
}

pub struct DivisionSite {
    /// Quotient or remainder.
    pub operation: Operation,
    pub d: usize,
    pub s: usize,
    pub t: usize,
    /// How many accesses stand before it.
    pub accesses_before: usize,
}

#[derive(Default)]
pub struct Survey {
    pub ifs: Vec<IfSite>,
    pub accesses: Vec<AccessSite>,
    pub divisions: Vec<DivisionSite>,
}

impl Survey {
    pub fn of(routine: &Routine) -> Self {
        let mut survey = Survey::default();
        survey.list(routine, &routine.commands, 0);
        survey
    }

    /// The greatest depth of an if, 0 without ifs.
    pub fn depth(&self) -> usize {
        self.ifs.iter().map(|site| site.depth).max().unwrap_or(0)
    }

    fn list(&mut self, routine: &Routine, commands: &[Command], depth: usize) {
        for command in commands {
            match *command {
                Command::Operate { operation, d, s, t } => self.operation(operation, d, s, t),
                Command::Read { array, i, .. } => self.access(routine, depth, true, array, i),
                Command::Write { array, i, .. } => self.access(routine, depth, false, array, i),
                Command::If(ref branch) => self.branch(routine, branch, depth + 1),
                _ => {}
            }
        }
    }

    fn operation(&mut self, operation: Operation, d: usize, s: usize, t: usize) {
        if let Operation::Quotient | Operation::Remainder = operation {
            self.divisions.push(DivisionSite {
                operation,
                d,
                s,
                t,
                accesses_before: self.accesses.len(),
            });
        }
    }

    fn access(&mut self, routine: &Routine, depth: usize, is_read: bool, array: usize, i: usize) {
        self.accesses.push(AccessSite {
            depth,
            is_read,
            index_width: routine.header.widths[i],
            size: routine.header.sizes[array],
        });
    }

    fn branch(&mut self, routine: &Routine, branch: &Branch, depth: usize) {
        let number = self.ifs.len();
        self.ifs.push(IfSite {
            depth,
            relation: branch.relation,
            first_is_empty: branch.first.is_empty(),
            else_is_empty: branch.other.is_empty(),
            reads_in_both_arms: false,
        });
        let before = self.reads();
        self.list(routine, &branch.first, depth);
        let between = self.reads();
        self.list(routine, &branch.other, depth);
        self.ifs[number].reads_in_both_arms = before < between && between < self.reads();
    }

    fn reads(&self) -> usize {
        self.accesses.iter().filter(|site| site.is_read).count()
    }
}
