//! A proof to be checked: a report, the clauses it is about, and the buffers
//! that hold them and are lent with room for the steps.

use crate::case::draw_answer_len;
use crate::compare::hex;
use crate::damage::damage;
use crate::lent::Lent;
use crate::proof_damage::{Attempt, AIMS};
use crate::proof_draft::Refutation;
use crate::refutations::draw_refutation;
use crate::rng::Rng;
use pellet::ANSWER_LEN;
use std::fmt;

pub struct ProofCase {
    pub report: Lent<u8>,
    /// Where the proof begins in the report.
    pub from: usize,
    pub clauses: u32,
    pub variables: u32,
    pub words: Lent<u32>,
    pub starts: Lent<u32>,
    pub marks: Lent<u8>,
    pub answer: Lent<u64>,
}

impl ProofCase {
    /// Draws a case of any kind.
    pub fn draw(rng: &mut Rng) -> Self {
        let refutation = draw_refutation(rng);
        let attempt = draw_attempt(rng, &refutation);
        let mut parts = Parts::new(&refutation, attempt);
        parts.vary(rng);
        if rng.chance(8) {
            parts.misuse(rng);
        }
        let answer = draw_answer_len(rng);
        parts.lend(rng, answer)
    }

    /// Draws a case with at least so many words, whatever the proof needs.
    pub fn draw_roomy(rng: &mut Rng, words: usize) -> Self {
        let refutation = draw_refutation(rng);
        let attempt = draw_attempt(rng, &refutation);
        let mut parts = Parts::new(&refutation, attempt);
        parts.words = parts.words.max(words);
        parts.lend(rng, ANSWER_LEN)
    }

    /// This proof with just so much room.
    pub fn lending(rng: &mut Rng, refutation: &Refutation, attempt: Attempt) -> Self {
        Parts::new(refutation, attempt).lend(rng, ANSWER_LEN)
    }
}

fn draw_attempt(rng: &mut Rng, refutation: &Refutation) -> Attempt {
    match rng.below(20) {
        0..=5 => Attempt::good(refutation),
        6 | 7 => {
            let mut attempt = Attempt::good(refutation);
            damage(rng, &mut attempt.text);
            attempt
        }
        _ => {
            let aim = rng.within(*AIMS.start(), *AIMS.end());
            Attempt::damaged(rng, refutation, aim)
        }
    }
}

/// What a case is made of, before its buffers are.
struct Parts {
    report: Vec<u8>,
    beyond: Vec<u8>,
    from: usize,
    clauses: u32,
    variables: u32,
    given_words: Vec<u32>,
    given_starts: Vec<u32>,
    words: usize,
    starts: usize,
    marks: usize,
}

impl Parts {
    fn new(refutation: &Refutation, attempt: Attempt) -> Self {
        let (mut given_words, mut given_starts) = (Vec::new(), Vec::new());
        for clause in &refutation.clauses {
            given_starts.push(given_words.len() as u32);
            given_words.push(clause.len() as u32);
            given_words.extend(clause);
        }
        Parts {
            report: [&refutation.lead[..], &attempt.text.bytes].concat(),
            beyond: attempt.text.beyond,
            from: refutation.lead.len(),
            clauses: refutation.clauses.len() as u32,
            variables: refutation.variables,
            given_words,
            given_starts,
            words: attempt.words,
            starts: attempt.starts,
            marks: refutation.variables as usize + 1,
        }
    }

    /// More room, or fewer clauses than stand there: the steps then have the
    /// numbers of the others.
    fn vary(&mut self, rng: &mut Rng) {
        if rng.chance(20) {
            self.words += rng.within(1, 30);
        }
        if rng.chance(20) {
            self.starts += rng.within(1, 30);
        }
        if rng.chance(20) {
            self.marks += rng.within(1, 30);
        }
        if rng.chance(3) {
            self.clauses = rng.below(self.clauses as usize + 1) as u32;
        }
    }

    /// Buffers that do not hold such clauses, or not surely.
    fn misuse(&mut self, rng: &mut Rng) {
        let variables = self.variables;
        let clause = rng.below(self.given_starts.len());
        let start = self.given_starts[clause] as usize;
        let word = rng.below(self.given_words.len());
        match rng.below(10) {
            0 => self.from = self.report.len() + rng.pick(&[0, 1, 1, 7]),
            1 => self.from = usize::MAX - rng.below(6),
            2 => self.marks = rng.pick(&[variables as usize, variables as usize, 0]),
            3 => self.given_starts[clause] = rng.pick(&[0, 1, start as u32 + 1, u32::MAX]),
            4 => {
                let count = self.given_words[start];
                self.given_words[start] = rng.pick(&[0, count + 1, count + 2, u32::MAX]);
            }
            5 => {
                let first = 2 * variables + 2;
                self.given_words[word] = rng.pick(&[0, 1, first, first + 1, u32::MAX]);
            }
            6 => self.clauses += rng.pick(&[1, 1, 2, 1 << 30, u32::MAX / 2]),
            7 => self.words = rng.pick(&[self.given_words.len() - 1, word]),
            8 => self.starts = rng.pick(&[self.given_starts.len() - 1, clause]),
            _ => {
                let fewer = variables - rng.pick(&[0, 1]);
                self.variables = rng.pick(&[fewer, variables + 1, 1 << 30, u32::MAX]);
            }
        }
    }

    fn lend(self, rng: &mut Rng, answer: usize) -> ProofCase {
        ProofCase {
            report: Lent::holding(rng, &self.report, &self.beyond),
            from: self.from,
            clauses: self.clauses,
            variables: self.variables,
            words: beginning(rng, &self.given_words, self.words),
            starts: beginning(rng, &self.given_starts, self.starts),
            marks: Lent::noise(rng, self.marks),
            answer: Lent::noise(rng, answer),
        }
    }
}

/// A buffer of this length that begins with the content; what of it does not
/// fit lies right behind.
fn beginning(rng: &mut Rng, content: &[u32], len: usize) -> Lent<u32> {
    let (inside, beyond) = content.split_at(len.min(content.len()));
    if !beyond.is_empty() {
        return Lent::holding(rng, inside, beyond);
    }
    let mut lent = Lent::noise(rng, len);
    lent.fill(inside);
    lent
}

impl fmt::Display for ProofCase {
    fn fmt(&self, f: &mut fmt::Formatter<'_>) -> fmt::Result {
        // A long proof would fill the screen.
        let report = self.report.slice();
        let shown = &report[..report.len().min(2000)];
        writeln!(f, "report ({} bytes): {}", report.len(), hex(shown))?;
        writeln!(
            f,
            "from {}, {} clauses over {} variables",
            self.from, self.clauses, self.variables
        )?;
        writeln!(
            f,
            "lent: words {}, starts {}, marks {}, answer {}",
            self.words.len(),
            self.starts.len(),
            self.marks.len(),
            self.answer.len()
        )?;
        let words = self.words.slice();
        writeln!(f, "words: {:?}", &words[..words.len().min(400)])
    }
}
