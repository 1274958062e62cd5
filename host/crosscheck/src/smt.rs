//! A claim as SMT-LIB bit vectors, written from the routine's tree. It shares
//! nothing with the clauses.

use oracle::arithmetic::{Operation, Relation, Resize};
use oracle::{Branch, Command, Routine};
use pelletperiod::Claim;
use std::fmt::Write;

/// Wider than any index and any size, so that both are whole numbers in it.
const WHOLE: u32 = 40;

/// Asks z3 two things: whether a run comes to the access by the decisions, and
/// whether one does so with its index not on the side.
pub fn questions(claim: &Claim, routine: &Routine) -> String {
    let mut script = Script {
        claim,
        routine,
        text: "(set-logic QF_BV)\n".to_string(),
        defined: 0,
        named: None,
    };
    for (k, width) in routine.input_widths().iter().enumerate() {
        let _ = writeln!(script.text, "(declare-const in{k} (_ BitVec {width}))");
    }
    let start = script.start();
    script.arm(&routine.commands, start);
    let (arrival, on_side) = script.named.expect("the access is there");
    let first = format!("(assert {arrival})\n(check-sat)\n");
    let second = format!("(assert (not {on_side}))\n(check-sat)\n");
    script.text + &first + &second
}

/// The names of the values of all variables, and of whether a run comes here.
#[derive(Clone)]
struct State {
    values: Vec<String>,
    arrival: String,
}

struct Script<'a> {
    claim: &'a Claim,
    routine: &'a Routine,
    text: String,
    defined: usize,
    /// Whether a run comes to the named access, and whether its index is on
    /// the side.
    named: Option<(String, String)>,
}

impl Script<'_> {
    /// Every variable begins with its own word, which may be anything, be it a
    /// parameter or not.
    fn start(&self) -> State {
        let value = |k: usize| format!("in{k}");
        State {
            values: (0..self.variables()).map(value).collect(),
            arrival: "true".to_string(),
        }
    }

    fn variables(&self) -> usize {
        self.routine.header.widths.len()
    }

    fn width(&self, variable: usize) -> u32 {
        self.routine.header.widths[variable]
    }

    fn define(&mut self, sort: &str, term: &str) -> String {
        self.defined += 1;
        let name = format!("x{}", self.defined);
        let _ = writeln!(self.text, "(define-fun {name} () {sort} {term})");
        name
    }

    fn define_value(&mut self, state: &mut State, d: usize, term: &str) {
        let sort = format!("(_ BitVec {})", self.width(d));
        state.values[d] = self.define(&sort, term);
    }

    /// The state behind an arm; what lies behind the named access is left out.
    fn arm(&mut self, commands: &[Command], mut state: State) -> State {
        for command in commands {
            if self.named.is_some() {
                break;
            }
            state = self.command(command, state);
        }
        state
    }

    fn command(&mut self, command: &Command, mut state: State) -> State {
        match command {
            Command::Set { d, c } => {
                let term = format!("(_ bv{c} {})", self.width(*d));
                self.define_value(&mut state, *d, &term);
            }
            Command::Copy { d, s } => state.values[*d] = state.values[*s].clone(),
            Command::Operate { operation, d, s, t } => {
                let name = operator(*operation);
                let term = format!("({name} {} {})", state.values[*s], state.values[*t]);
                self.define_value(&mut state, *d, &term);
            }
            Command::Resize { kind, d, s } => {
                let term = self.resized(*kind, *d, *s, &state.values[*s]);
                self.define_value(&mut state, *d, &term);
            }
            Command::Read {
                d,
                array,
                i,
                access,
                read,
            } => {
                state = self.access(*access, *array, *i, state);
                state.values[*d] = format!("in{}", self.variables() + read);
            }
            Command::Write {
                array, i, access, ..
            } => state = self.access(*access, *array, *i, state),
            Command::If(branch) => state = self.branch(branch, state),
        }
        state
    }

    fn resized(&self, kind: Resize, d: usize, s: usize, value: &str) -> String {
        let (to, from) = (self.width(d), self.width(s));
        match kind {
            Resize::Cut => format!("((_ extract {} 0) {value})", to - 1),
            Resize::ZeroExtend => format!("((_ zero_extend {}) {value})", to - from),
            Resize::SignExtend => format!("((_ sign_extend {}) {value})", to - from),
        }
    }

    fn access(&mut self, access: usize, array: usize, i: usize, mut state: State) -> State {
        let (value, size) = (&state.values[i], self.routine.header.sizes[array]);
        let index = format!("((_ sign_extend {}) {value})", WHOLE - self.width(i));
        let below = self.define("Bool", &format!("(bvslt {index} (_ bv0 {WHOLE}))"));
        let above = self.define("Bool", &format!("(bvsge {index} (_ bv{size} {WHOLE}))"));
        if access == usize::from(self.claim.access) {
            let on_side = if self.claim.side == 0 { below } else { above };
            self.named = Some((state.arrival.clone(), on_side));
            return state;
        }
        let inside = format!("(and {} (not {below}) (not {above}))", state.arrival);
        state.arrival = self.define("Bool", &inside);
        state
    }

    fn branch(&mut self, branch: &Branch, state: State) -> State {
        let (s, t) = (&state.values[branch.s], &state.values[branch.t]);
        let term = format!("({} {s} {t})", name(branch.relation));
        let condition = self.define("Bool", &term);
        let mut into = |decided_away: u8, taken: &str| {
            let term = match self.claim.decisions[branch.number] == decided_away {
                true => "false".to_string(),
                false => format!("(and {} {taken})", state.arrival),
            };
            let arrival = self.define("Bool", &term);
            let values = state.values.clone();
            State { values, arrival }
        };
        let first = into(1, &condition);
        let other = into(0, &format!("(not {condition})"));
        let first = self.arm(&branch.first, first);
        let other = self.arm(&branch.other, other);
        if self.named.is_some() {
            return state;
        }
        self.join(&condition, first, other)
    }

    fn join(&mut self, condition: &str, first: State, other: State) -> State {
        let both = format!("(or {} {})", first.arrival, other.arrival);
        let mut state = State {
            values: Vec::new(),
            arrival: self.define("Bool", &both),
        };
        for (k, (a, b)) in first.values.into_iter().zip(other.values).enumerate() {
            let is_same = a == b;
            let term = format!("(ite {condition} {a} {b})");
            state.values.push(a);
            if !is_same {
                self.define_value(&mut state, k, &term);
            }
        }
        state
    }
}

fn operator(operation: Operation) -> &'static str {
    match operation {
        Operation::Add => "bvadd",
        Operation::Subtract => "bvsub",
        Operation::Multiply => "bvmul",
        Operation::Quotient => "bvudiv",
        Operation::Remainder => "bvurem",
    }
}

fn name(relation: Relation) -> &'static str {
    match relation {
        Relation::Equal => "=",
        Relation::NotEqual => "distinct",
        Relation::LessUnsigned => "bvult",
        Relation::LessEqualUnsigned => "bvule",
        Relation::GreaterUnsigned => "bvugt",
        Relation::GreaterEqualUnsigned => "bvuge",
        Relation::LessSigned => "bvslt",
        Relation::LessEqualSigned => "bvsle",
        Relation::GreaterSigned => "bvsgt",
        Relation::GreaterEqualSigned => "bvsge",
    }
}

#[cfg(test)]
mod tests {
    use super::*;

    /// A 1-bit parameter, a 2-bit leftover, an array of 1. A write at the
    /// leftover, a read into it at the parameter, and another write at it.
    const ROUTINE: &[u8] = &[
        1, 2, 1, 2, 1, 1, 1, 0, 0x0A, 0, 1, 0, 0x09, 1, 0, 0, 0x0A, 0, 1, 0, 0,
    ];

    fn asked(routine: &[u8], access: u8, side: u8) -> String {
        let claim = Claim {
            routine: routine.to_vec(),
            access,
            side,
            decisions: Vec::new(),
        };
        questions(&claim, &oracle::parse(routine).expect("a valid routine"))
    }

    const INPUTS: &str = "\
(set-logic QF_BV)
(declare-const in0 (_ BitVec 1))
(declare-const in1 (_ BitVec 2))
(declare-const in2 (_ BitVec 2))
";

    /// The index of the first write is the leftover's own word.
    const LEFTOVER: &str = "\
(define-fun x1 () Bool (bvslt ((_ sign_extend 38) in1) (_ bv0 40)))
(define-fun x2 () Bool (bvsge ((_ sign_extend 38) in1) (_ bv1 40)))
";

    /// That of the second is what was read, the word behind it.
    const READ: &str = "\
(define-fun x3 () Bool (and true (not x1) (not x2)))
(define-fun x4 () Bool (bvslt ((_ sign_extend 39) in0) (_ bv0 40)))
(define-fun x5 () Bool (bvsge ((_ sign_extend 39) in0) (_ bv1 40)))
(define-fun x6 () Bool (and x3 (not x4) (not x5)))
(define-fun x7 () Bool (bvslt ((_ sign_extend 38) in2) (_ bv0 40)))
(define-fun x8 () Bool (bvsge ((_ sign_extend 38) in2) (_ bv1 40)))
";

    fn questions_of(arrival: &str, on_side: &str) -> String {
        format!("(assert {arrival})\n(check-sat)\n(assert (not {on_side}))\n(check-sat)\n")
    }

    #[test]
    fn every_word_is_free() {
        let first = [INPUTS, LEFTOVER, &questions_of("true", "x1")].concat();
        assert_eq!(asked(ROUTINE, 0, 0), first);
        let last = [INPUTS, LEFTOVER, READ, &questions_of("x6", "x8")].concat();
        assert_eq!(asked(ROUTINE, 2, 1), last);
    }

    #[test]
    fn parameters_change_nothing() {
        for parameters in 0..=2 {
            let mut routine = ROUTINE.to_vec();
            routine[4] = parameters;
            for (access, side) in [(0, 0), (1, 1), (2, 0)] {
                assert_eq!(asked(&routine, access, side), asked(ROUTINE, access, side));
            }
        }
    }
}
