//! The routines of examples/, and the maker of the report that is too long to
//! be stored.

#![forbid(unsafe_code)]

mod assemble;
pub mod long_report;
pub mod routines;

use std::io;
use std::path::Path;

/// With this seed the last number is negative.
pub const SEED: u32 = 2;

/// Makes the routine of the long report, the report, and the same with a bad
/// step near its end; hands back how many steps it has and where the bad one is
/// to be refused.
pub fn write_long_report(directory: &Path) -> io::Result<(usize, usize)> {
    let routine = routines::generator(SEED);
    let mut report = long_report::long_report(&routine);
    let steps = report.steps().len();
    std::fs::create_dir_all(directory)?;
    std::fs::write(directory.join("routine.bin"), routine)?;
    std::fs::write(directory.join("good.bin"), long_report::bytes(&report))?;
    let place = long_report::spoil(&mut report, steps - 10);
    std::fs::write(directory.join("bad.bin"), long_report::bytes(&report))?;
    Ok((steps, place))
}
