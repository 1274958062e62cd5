//! Where an access stands in the text of its routine.

use crate::routine::{Command, Routine};

/// What the text says about one access.
#[derive(Clone, Copy, Debug, PartialEq, Eq)]
pub struct Site {
    pub array: usize,
    pub size: u32,
    /// How many ifs stand before it; those around it are among them. As ifs
    /// are numbered in text order, they are the ones of lower numbers.
    pub ifs_before: usize,
}

/// The site of the access of this number, which the routine has.
pub fn site_of(routine: &Routine, access: usize) -> Site {
    let mut ifs_before = 0;
    let array = find(&routine.commands, access, &mut ifs_before).expect("an access of the routine");
    Site {
        array,
        size: routine.header.sizes[array],
        ifs_before,
    }
}

/// Goes through commands in text order up to the access, counting the ifs, and
/// hands back its array; none where it is not among them.
fn find(commands: &[Command], wanted: usize, ifs: &mut usize) -> Option<usize> {
    commands.iter().find_map(|command| match *command {
        Command::Read { array, access, .. } | Command::Write { array, access, .. } => {
            (access == wanted).then_some(array)
        }
        Command::If(ref branch) => {
            *ifs += 1;
            find(&branch.first, wanted, ifs).or_else(|| find(&branch.other, wanted, ifs))
        }
        _ => None,
    })
}
