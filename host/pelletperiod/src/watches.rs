//! Unit propagation by two watched literals.

use crate::store::{Store, Trail, NONE};

/// A clause that is to be looked at when the literal is false at which it is
/// kept; not where the other literal is true.
#[derive(Clone, Copy)]
struct Watch {
    clause: u32,
    other: u32,
}

/// For each literal, the clauses that watch it: of the first two literals of a
/// clause neither is false, or the other one is true.
pub struct Watches {
    of: Vec<Vec<Watch>>,
    /// Whether a clause was taken out.
    is_out: Vec<bool>,
}

/// What became of a watch.
enum Moved {
    Stays,
    Leaves,
    Conflict,
}

impl Watches {
    pub fn new(variables: u32) -> Self {
        Watches {
            of: vec![Vec::new(); 2 * (variables as usize + 1)],
            is_out: Vec::new(),
        }
    }

    /// Puts a clause of two literals or more in.
    pub fn put(&mut self, store: &Store, clause: u32) {
        let literals = store.get(clause);
        for (literal, other) in [(literals[0], literals[1]), (literals[1], literals[0])] {
            self.of[literal as usize].push(Watch { clause, other });
        }
    }

    /// Takes a clause out; it makes nothing true any more.
    pub fn take_out(&mut self, clause: u32) {
        let clause = clause as usize;
        if self.is_out.len() <= clause {
            self.is_out.resize(clause + 1, false);
        }
        self.is_out[clause] = true;
    }

    /// Makes true what follows from the literals made true from this one on;
    /// hands back the clause of which every literal is false, or none.
    pub fn propagate(&mut self, store: &mut Store, trail: &mut Trail, from: usize) -> u32 {
        let mut next = from;
        while next < trail.made.len() {
            let conflict = self.visit(store, trail, trail.made[next] ^ 1);
            if conflict != NONE {
                return conflict;
            }
            next += 1;
        }
        NONE
    }

    /// Looks at all clauses that watch a literal that has become false.
    fn visit(&mut self, store: &mut Store, trail: &mut Trail, literal: u32) -> u32 {
        let mut watches = std::mem::take(&mut self.of[literal as usize]);
        let (mut kept, mut conflict) = (0, NONE);
        for k in 0..watches.len() {
            let mut watch = watches[k];
            let moved = match conflict {
                NONE => self.look(store, trail, literal, &mut watch),
                _ => Moved::Stays,
            };
            if let Moved::Conflict = moved {
                conflict = watch.clause;
            }
            if !matches!(moved, Moved::Leaves) {
                watches[kept] = watch;
                kept += 1;
            }
        }
        watches.truncate(kept);
        self.of[literal as usize] = watches;
        conflict
    }

    fn look(
        &mut self,
        store: &mut Store,
        trail: &mut Trail,
        literal: u32,
        watch: &mut Watch,
    ) -> Moved {
        if trail.value(watch.other) == Some(true) {
            return Moved::Stays;
        }
        let clause = watch.clause;
        if self.is_out.get(clause as usize) == Some(&true) {
            return Moved::Leaves;
        }
        let literals = store.get_mut(clause);
        if literals[0] == literal {
            literals.swap(0, 1);
        }
        watch.other = literals[0];
        if trail.value(watch.other) == Some(true) {
            return Moved::Stays;
        }
        let is_left = |&k: &usize| trail.value(literals[k]) != Some(false);
        if let Some(k) = (2..literals.len()).find(is_left) {
            literals.swap(1, k);
            self.of[literals[1] as usize].push(*watch);
            return Moved::Leaves;
        }
        if trail.value(watch.other) == Some(false) {
            return Moved::Conflict;
        }
        trail.make_true(watch.other, clause);
        Moved::Stays
    }
}
