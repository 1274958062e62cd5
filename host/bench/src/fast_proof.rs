//! The check of a proof, step by step: where a step stands is where the code
//! stands. The clauses of the steps go into a list of their own, and what a
//! step's hints decided is kept in another and undone from it.

use crate::fast_refusal::Refusal;

const COMMAND: u8 = 17;
const LITERAL: u8 = 18;
const NO_CLAUSE: u8 = 19;
const NEITHER: u8 = 20;
const NO_CONFLICT: u8 = 21;
const AFTER_CONFLICT: u8 = 22;
const OUT_OF_PLACE: u8 = 23;
const TRAILING: u8 = 24;
const FULL: u8 = 25;

/// Fewer words than these lie in the caches.
const MANY_WORDS: usize = 8_388_608;
/// Hints that are looked at beforehand.
const AHEAD: usize = 32;

enum Command {
    Literal(u32),
    Hint(u32),
    Close,
    End,
}

/// The given clauses: how many there are, and how many words they take.
#[derive(Clone, Copy)]
pub struct Given {
    pub clauses: usize,
    pub words: usize,
}

/// Checks the proof from an offset on; hands back the steps and the hints.
/// The marks, one for each variable and one more, begin as 0. The start of a
/// step's clause is its offset in the list.
pub fn check(
    report: &[u8],
    from: usize,
    given: Given,
    words: &[u32],
    starts: &mut [u32],
    marks: &mut [u8],
) -> Result<(u64, u64), Refusal> {
    let (mut steps, mut hints) = (0, 0);
    // The words that are left for the clauses of the steps.
    let room = words.len() - given.words;
    let mut closed = Vec::new();
    let mut count = given.clauses;
    let mut decided = Vec::new();
    let mut at = from;
    let mut ahead = from;
    loop {
        if words.len() >= MANY_WORDS && ahead <= at {
            ahead = look_ahead(report, at, words, &starts[..given.clauses]);
        }
        let start = closed.len();
        closed.push(0);
        read_literals(report, &mut at, room, &mut closed, marks)?;
        let clauses = Clauses {
            given: given.clauses,
            words,
            closed: &closed,
            starts: &starts[..count],
        };
        hints += follow_hints(report, &mut at, clauses, marks, &mut decided)?;
        expect_close(report, at, count)?;
        if closed.len() > room || starts.len() <= count {
            return Err(Refusal(FULL, at));
        }
        let literals = closed.len() - start - 1;
        closed[start] = literals as u32;
        starts[count] = start as u32;
        undo(&closed[start + 1..], &mut decided, marks);
        count += 1;
        steps += 1;
        at += 1;
        if literals == 0 {
            return expect_end(report, at).map(|()| (steps, hints));
        }
    }
}

/// Has the given clauses of the next hints fetched all at once, since each of
/// them has to be waited for otherwise; hands back the offset as far as it looked.
#[inline(never)]
fn look_ahead(report: &[u8], mut at: usize, words: &[u32], starts: &[u32]) -> usize {
    let mut cited = [0; AHEAD];
    let mut count = 0;
    while count < AHEAD {
        match read(report, at) {
            Ok(Command::Hint(number)) => {
                cited[count] = starts.get(number as usize).copied().unwrap_or(0);
                count += 1;
                at += 5;
            }
            Ok(Command::Literal(_)) => at += 5,
            Ok(Command::Close) => at += 1,
            Ok(Command::End) | Err(_) => break,
        }
    }
    let words = cited[..count].iter().map(|&start| words[start as usize]);
    std::hint::black_box(words.fold(0, |sum, word| sum ^ word));
    at
}

/// The mark of a variable where this literal is false: 1 where the variable is
/// true, 2 where it is false.
#[inline]
fn false_mark(literal: u32) -> u8 {
    2 >> (literal & 1)
}

#[inline]
fn read(report: &[u8], at: usize) -> Result<Command, Refusal> {
    let rest = report.get(at..).unwrap_or(&[]);
    match *rest {
        [2, a, b, c, d, ..] => Ok(Command::Hint(u32::from_le_bytes([a, b, c, d]))),
        [1, a, b, c, d, ..] => Ok(Command::Literal(u32::from_le_bytes([a, b, c, d]))),
        [3, ..] => Ok(Command::Close),
        [0, ..] => Ok(Command::End),
        _ => Err(Refusal(COMMAND, at)),
    }
}

/// Takes a step's literals as false and puts them behind the word for their
/// count, up to the first hint.
#[inline]
fn read_literals(
    report: &[u8],
    at: &mut usize,
    room: usize,
    closed: &mut Vec<u32>,
    marks: &mut [u8],
) -> Result<(), Refusal> {
    loop {
        let literal = match read(report, *at)? {
            Command::Literal(literal) => literal,
            Command::Hint(_) => return Ok(()),
            Command::Close => return Err(Refusal(NO_CONFLICT, *at)),
            Command::End => return Err(Refusal(OUT_OF_PLACE, *at)),
        };
        let mark = match marks.get_mut(literal as usize / 2) {
            Some(mark) if literal >= 2 && *mark == 0 => mark,
            _ => return Err(Refusal(LITERAL, *at)),
        };
        if closed.len() >= room {
            return Err(Refusal(FULL, *at));
        }
        closed.push(literal);
        *mark = false_mark(literal);
        *at = at.wrapping_add(5);
    }
}

/// The clauses so far, given and closed.
#[derive(Clone, Copy)]
struct Clauses<'a> {
    given: usize,
    words: &'a [u32],
    closed: &'a [u32],
    starts: &'a [u32],
}

impl<'a> Clauses<'a> {
    /// The literals of a clause, where there is one of this number.
    #[inline]
    fn get(&self, number: usize) -> Option<&'a [u32]> {
        let start = *self.starts.get(number)? as usize;
        let words = if number < self.given {
            self.words
        } else {
            self.closed
        };
        let count = words[start] as usize;
        Some(&words[start..][1..=count])
    }
}

/// Follows hints as far as the conflict; hands back how many there were.
#[inline]
fn follow_hints(
    report: &[u8],
    at: &mut usize,
    clauses: Clauses,
    marks: &mut [u8],
    decided: &mut Vec<u32>,
) -> Result<u64, Refusal> {
    let mut hints = 0;
    loop {
        let number = match read(report, *at)? {
            Command::Hint(number) => number,
            Command::Literal(_) => return Err(Refusal(LITERAL, *at)),
            Command::Close => return Err(Refusal(NO_CONFLICT, *at)),
            Command::End => return Err(Refusal(OUT_OF_PLACE, *at)),
        };
        let clause = match clauses.get(number as usize) {
            Some(clause) => clause,
            None => return Err(Refusal(NO_CLAUSE, *at)),
        };
        let literal = match scan(clause, marks) {
            Some(literal) => literal,
            None => return Err(Refusal(NEITHER, *at)),
        };
        hints += 1;
        *at = at.wrapping_add(5);
        if literal == 0 {
            return Ok(hints);
        }
        let mark = &mut marks[literal as usize / 2];
        if *mark != 0 {
            return Err(Refusal(NEITHER, at.wrapping_sub(5)));
        }
        *mark = false_mark(literal ^ 1);
        decided.push(literal / 2);
    }
}

/// The one distinct literal that is not false, or 0 where all are; none where
/// there are several. How many are not false and the last of them tell it, but
/// for doubled literals; no jump depends on which are.
#[inline]
fn scan(clause: &[u32], marks: &[u8]) -> Option<u32> {
    let (mut left, mut found) = (0, 0);
    for &literal in clause {
        let is_left = marks[literal as usize / 2] != false_mark(literal);
        left += u32::from(is_left);
        found = if is_left { literal } else { found };
    }
    if left < 2 {
        Some(found)
    } else {
        compare(clause, marks)
    }
}

/// The same, where several literals are not false.
fn compare(clause: &[u32], marks: &[u8]) -> Option<u32> {
    let mut found = 0;
    for &literal in clause {
        if marks[literal as usize / 2] != false_mark(literal) {
            if found != 0 && found != literal {
                return None;
            }
            found = literal;
        }
    }
    Some(found)
}

/// Every variable that the step decided is undecided again.
#[inline]
fn undo(literals: &[u32], decided: &mut Vec<u32>, marks: &mut [u8]) {
    for &literal in literals {
        marks[literal as usize / 2] = 0;
    }
    for variable in decided.drain(..) {
        marks[variable as usize] = 0;
    }
}

/// After the conflict there is only the close.
#[inline]
fn expect_close(report: &[u8], at: usize, clauses: usize) -> Result<(), Refusal> {
    match read(report, at)? {
        Command::Close => Ok(()),
        Command::Literal(_) => Err(Refusal(LITERAL, at)),
        Command::Hint(number) if number as usize >= clauses => Err(Refusal(NO_CLAUSE, at)),
        Command::Hint(_) => Err(Refusal(AFTER_CONFLICT, at)),
        Command::End => Err(Refusal(OUT_OF_PLACE, at)),
    }
}

/// After the empty clause there is only the end, and nothing behind it.
fn expect_end(report: &[u8], at: usize) -> Result<(), Refusal> {
    match read(report, at)? {
        Command::End if at + 1 < report.len() => Err(Refusal(TRAILING, at + 1)),
        Command::End => Ok(()),
        _ => Err(Refusal(OUT_OF_PLACE, at)),
    }
}
