//! How large a routine is by its text, and the most that a translation of it
//! takes: note 2's bound, known before anything is translated.

use crate::routine::{Command, Routine};

/// What the bound goes by.
#[derive(Clone, Copy, Debug, PartialEq, Eq)]
pub struct Extent {
    /// The greatest width of a variable, in bits.
    pub width: usize,
    /// How many commands the text has. Every command byte begins one: an if,
    /// its else and its end of if are three, and the end is one too.
    pub commands: usize,
    pub ifs: usize,
}

/// The most that a translation takes, whatever access, side and decisions it
/// is about.
#[derive(Clone, Copy, Debug, PartialEq, Eq)]
pub struct Most {
    pub clauses: usize,
    pub words: usize,
    pub variables: usize,
}

/// The extent of a routine. All of its variables count for the width, also
/// those that no command names.
pub fn extent_of(routine: &Routine) -> Extent {
    let widths = routine.header.widths.iter();
    let width = *widths.max().expect("a routine has variables");
    Extent {
        width: width as usize,
        commands: count(&routine.commands) + 1,
        ifs: routine.ifs,
    }
}

/// How many commands stand in a list, those in the arms of its ifs included.
fn count(commands: &[Command]) -> usize {
    let own = |command: &Command| match command {
        Command::If(branch) => 3 + count(&branch.first) + count(&branch.other),
        _ => 1,
    };
    commands.iter().map(own).sum()
}

impl Extent {
    /// Variable 1 and the bits of 32 variables; for each command the gates of
    /// a division, as none makes more; for each if all bits joined, and the
    /// arrival. No gate has more than 6 clauses or 24 words.
    pub fn most(&self) -> Most {
        let bits = 32 * self.width;
        let gates = 4 * self.width * (self.width + 1) * self.commands;
        let variables = 1 + bits + gates + (bits + 1) * self.ifs;
        Most {
            clauses: 6 * variables,
            words: 24 * variables,
            variables,
        }
    }
}

#[cfg(test)]
mod tests {
    use super::*;
    use crate::routine::parse;

    fn extent(bytes: &[u8]) -> (usize, usize, usize) {
        let extent = extent_of(&parse(bytes).expect("a valid routine"));
        (extent.width, extent.commands, extent.ifs)
    }

    fn most(width: usize, commands: usize, ifs: usize) -> [usize; 3] {
        let extent = Extent {
            width,
            commands,
            ifs,
        };
        let most = extent.most();
        [most.variables, most.clauses, most.words]
    }

    /// Write, end; and set, write, end.
    #[test]
    fn bench_routines() {
        let write_at_parameter = [1, 1, 8, 1, 1, 100, 0, 0x0A, 0, 0, 0, 0];
        assert_eq!(extent(&write_at_parameter), (8, 2, 0));
        // 1 + 256 + 288 times 2.
        assert_eq!(most(8, 2, 0), [833, 4998, 19_992]);
        let write_at_one_bit = [1, 1, 1, 0, 1, 1, 0, 0x01, 0, 1, 0, 0, 0, 0x0A, 0, 0, 0, 0];
        assert_eq!(extent(&write_at_one_bit), (1, 3, 0));
        // 1 + 32 + 8 times 3.
        assert_eq!(most(1, 3, 0), [57, 342, 1368]);
    }

    /// The bench's routines for arithmetic have a command and the end, that for
    /// the relations an if, its else, its end of if and the end.
    #[test]
    fn bench_arithmetic() {
        for code in 3..=5 {
            let routine = [1, 3, 8, 8, 8, 2, 0, code, 2, 0, 1, 0];
            assert_eq!(extent(&routine), (8, 2, 0));
        }
        assert_eq!(extent(&[1, 2, 4, 8, 1, 0, 0x08, 1, 0, 0]), (8, 2, 0));
        assert_eq!(extent(&[1, 2, 9, 8, 1, 0, 0x06, 1, 0, 0]), (9, 2, 0));
        let relation = [1, 2, 8, 8, 2, 0, 0x0B, 6, 0, 1, 0x0C, 0x0D, 0];
        assert_eq!(extent(&relation), (8, 4, 1));
        // 1 + 256 + 288 times 4 + 257.
        assert_eq!(most(8, 4, 1), [1666, 9996, 39_984]);
    }

    #[test]
    fn ends_of_all_kinds_are_commands() {
        // Nothing but the end.
        assert_eq!(extent(&[1, 1, 32, 0, 0, 0]), (32, 1, 0));
        #[rustfmt::skip]
        let nested = [
            1, 1, 1, 0, 0,
            0x0B, 0, 0, 0, // if
            0x0B, 0, 0, 0, 0x0C, 0x0D, // if, else, end of if
            0x0C, // else
            0x02, 0, 0, // copy
            0x0D, 0x00, // end of if, end
        ];
        assert_eq!(extent(&nested), (1, 8, 2));
    }

    /// Operands and constants are none, though their bytes look like commands.
    #[test]
    fn operands_are_no_commands() {
        let routine = [1, 2, 32, 32, 0, 0, 0x01, 1, 0x0B, 0x0C, 0x0D, 0x0E, 0];
        assert_eq!(extent(&routine), (32, 2, 0));
    }

    #[test]
    fn widest_variable_counts_unused_or_not() {
        for widths in [[31, 5, 5], [5, 31, 5], [5, 5, 31]] {
            let [a, b, c] = widths;
            assert_eq!(extent(&[1, 3, a, b, c, 0, 0, 0]), (31, 1, 0));
        }
    }

    /// No routine has more commands than bytes, so the numbers stay far below
    /// what a `usize` of 32 bits holds.
    #[test]
    fn greatest_extent_stays_small() {
        // 1 + 1,024 + 4,224 times 4,096 + 1,025 times 32.
        let expected = [17_335_329, 104_011_974, 416_047_896];
        assert_eq!(most(32, 4096, 32), expected);
    }
}
