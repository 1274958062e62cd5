//! The shapes of runs that were carried out, and how many of each there must be.

use crate::case::Case;
use crate::leftovers::leaves_something;
use crate::survey::{AccessSite, IfSite, Survey};
use oracle::{Arm, Counts, Outcome, Routine, Run};

/// A run that was carried out and its routine, as the shapes below look at it.
pub(crate) struct Facts<'a> {
    pub case: &'a Case,
    pub routine: &'a Routine,
    pub counts: Counts,
    pub survey: &'a Survey,
    pub run: &'a Run,
    /// The run with 0 for each leftover.
    pub cleared: Run,
    /// The access that stopped the run, if one did.
    pub stop: Option<&'a AccessSite>,
}

impl Facts<'_> {
    fn has_leftovers(&self) -> bool {
        self.counts.parameters < self.counts.variables
    }

    /// Whether the run carries out a read whose word is another than the one
    /// that stands as far behind the parameters' words alone.
    fn reads_behind_leftovers(&self) -> bool {
        let inputs = self.case.inputs.slice();
        let Counts {
            variables,
            parameters,
            ..
        } = self.counts;
        let differs = |&read: &usize| inputs[variables + read] != inputs[parameters + read];
        self.reads_done().iter().any(differs)
    }

    /// The numbers of the reads that the run carries out.
    fn reads_done(&self) -> Vec<usize> {
        let sites = self.survey.accesses.iter().enumerate();
        let reads = sites.filter(|(_, site)| site.is_read);
        let numbered = reads.enumerate().map(|(read, (access, _))| (read, access));
        let stop = match self.run.outcome {
            Outcome::Stopped { access, .. } => Some(access),
            Outcome::Ended => None,
        };
        let is_done = |number: usize| {
            let event = oracle::Event::Access { number };
            self.run.events.contains(&event) && stop != Some(number)
        };
        let done = numbered.filter(|&(_, access)| is_done(access));
        done.map(|(read, _)| read).collect()
    }

    /// The index that stopped the run, and the size of the array.
    fn stop_index(&self) -> Option<(i64, i64)> {
        match (self.run.outcome, self.stop) {
            (Outcome::Stopped { index, .. }, Some(site)) => Some((index, i64::from(site.size))),
            _ => None,
        }
    }

    fn any_if(&self, holds: impl Fn(&IfSite) -> bool) -> bool {
        self.survey.ifs.iter().any(holds)
    }

    fn stopped_where(&self, holds: impl Fn(&AccessSite) -> bool) -> bool {
        self.stop.iter().any(|site| holds(site))
    }
}

/// A shape: its name, how many cases must have it, and the test for it.
pub(crate) type Shape = (&'static str, u64, fn(&Facts) -> bool);

pub(crate) const ROUTINE_SHAPES: &[Shape] = &[
    ("depth 8", 5000, |f| f.survey.depth() == 8),
    ("no ifs", 5000, |f| f.counts.ifs == 0),
    ("32 ifs", 4000, |f| f.counts.ifs == 32),
    ("no accesses", 5000, |f| f.counts.accesses == 0),
    ("64 accesses", 3000, |f| f.counts.accesses == 64),
    ("32 ifs and 64 accesses", 300, |f| {
        f.counts.ifs == 32 && f.counts.accesses == 64
    }),
    ("a width of 1", 5000, |f| {
        f.routine.header.widths.contains(&1)
    }),
    ("a width of 32", 5000, |f| {
        f.routine.header.widths.contains(&32)
    }),
    ("a size of 1", 5000, |f| f.routine.header.sizes.contains(&1)),
    ("a size of 4,096", 5000, |f| {
        f.routine.header.sizes.contains(&4096)
    }),
    ("4,096 bytes", 1000, |f| f.case.routine.len() == 4096),
    ("no command but the end", 400, |f| {
        f.routine.commands.is_empty()
    }),
    ("an empty first arm", 5000, |f| {
        f.any_if(|site| site.first_is_empty)
    }),
    ("an empty else", 5000, |f| {
        f.any_if(|site| site.else_is_empty)
    }),
    ("both arms empty", 5000, |f| {
        f.any_if(|site| site.first_is_empty && site.else_is_empty)
    }),
    ("reads in both arms", 5000, |f| {
        f.any_if(|site| site.reads_in_both_arms)
    }),
    ("no arrays", 5000, |f| f.counts.arrays == 0),
    ("16 arrays", 5000, |f| f.counts.arrays == 16),
    ("no parameters", 5000, |f| f.counts.parameters == 0),
    ("1 variable", 5000, |f| f.counts.variables == 1),
    ("32 variables", 5000, |f| f.counts.variables == 32),
    ("32 parameters", 1000, |f| f.counts.parameters == 32),
    ("a division of which d is s", 5000, |f| {
        f.survey.divisions.iter().any(|site| site.d == site.s)
    }),
    ("a division of which d is t", 5000, |f| {
        f.survey.divisions.iter().any(|site| site.d == site.t)
    }),
    ("a division of which s is t", 5000, |f| {
        f.survey.divisions.iter().any(|site| site.s == site.t)
    }),
    ("a division of three variables", 5000, |f| {
        let mut sites = f.survey.divisions.iter();
        sites.any(|site| site.d != site.s && site.d != site.t && site.s != site.t)
    }),
    ("an index too narrow to be above", 5000, |f| {
        f.survey.accesses.iter().any(AccessSite::never_above)
    }),
];

pub(crate) const RUN_SHAPES: &[Shape] = &[
    ("run comes to an if at depth 8", 2000, |f| {
        let mut ifs = f.survey.ifs.iter().zip(&f.run.trail);
        ifs.any(|(site, &arm)| site.depth == 8 && arm != Arm::NotComeTo)
    }),
    ("run does not come to some if", 5000, |f| {
        f.run.trail.contains(&Arm::NotComeTo)
    }),
    ("run ends after 64 accesses in the text", 1000, |f| {
        f.stop.is_none() && f.survey.accesses.len() == 64
    }),
    ("run stops at a read", 5000, |f| {
        f.stopped_where(|site| site.is_read)
    }),
    ("run stops at a write", 5000, |f| {
        f.stopped_where(|site| !site.is_read)
    }),
    ("run stops inside an arm", 2000, |f| {
        f.stopped_where(|site| site.depth > 0)
    }),
    ("run stops at depth 8", 300, |f| {
        f.stopped_where(|site| site.depth == 8)
    }),
    ("run stops at a 1-bit index", 2000, |f| {
        f.stopped_where(|site| site.index_width == 1)
    }),
    ("run stops at a 32-bit index", 2000, |f| {
        f.stopped_where(|site| site.index_width == 32)
    }),
    ("run stops at the size itself", 1000, |f| {
        f.stop_index().iter().any(|(index, size)| index == size)
    }),
    ("run stops at -1", 3000, |f| {
        f.stop_index().iter().any(|&(index, _)| index == -1)
    }),
    ("values just enough", 5000, |f| {
        f.case.values.len() == f.run.values.len()
    }),
    ("values more than needed", 5000, |f| {
        f.case.values.len() > f.run.values.len()
    }),
    ("trail just enough", 5000, |f| {
        f.case.trail.len() == f.run.trail.len()
    }),
    ("trail more than needed", 5000, |f| {
        f.case.trail.len() > f.run.trail.len()
    }),
    ("trail empty and none needed", 5000, |f| {
        f.case.trail.is_empty()
    }),
    ("leftovers", 20_000, |f| f.has_leftovers()),
    ("a leftover that is not 0", 20_000, |f| {
        leaves_something(f.routine, f.case.inputs.slice())
    }),
    ("an outcome by a leftover that is not 0", 2000, |f| {
        f.run.outcome != f.cleared.outcome
    }),
    ("an arm by a leftover that is not 0", 5000, |f| {
        f.run.trail != f.cleared.trail
    }),
    ("a read whose word stands behind leftovers", 5000, |f| {
        f.reads_behind_leftovers()
    }),
    ("one input", 1000, |f| f.case.inputs.len() == 1),
    ("one input, of a leftover", 300, |f| {
        f.case.inputs.len() == 1 && f.has_leftovers()
    }),
];
