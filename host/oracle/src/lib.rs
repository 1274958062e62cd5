//! An evaluator of loop-free pick routines, a translator of them, a checker of
//! proofs and a judge of reports, written from the scope document (sections
//! "The routine", "The run", "The translation", "The proof", "The report" and
//! "What is turned down") and sharing nothing with the library that is compared
//! with it.
//!
//! It favours the reading over the speed: a routine is parsed into a tree, the
//! tree is walked, values are reduced by a remainder in 64 bits, and an index
//! is a signed whole number.

#![forbid(unsafe_code)]

pub mod arithmetic;
mod circuits;
pub mod clauses;
pub mod exhaustive;
mod extent;
mod lead;
mod netlist;
mod parser;
pub mod proof;
mod proof_command;
pub mod propagation;
pub mod refusal;
pub mod report;
pub mod routine;
pub mod run;
mod site;
pub mod translation;

pub use clauses::{Clauses, Discard, Literal, Sink};
pub use extent::{extent_of, Extent, Most};
pub use lead::{alike, lead_len, MAX_REPORT};
pub use proof::{check_proof, follow_proof, Followed, Totals};
pub use refusal::Refusal;
pub use report::{judge, Finding, Room};
pub use routine::{check, parse, Branch, Command, Counts, Routine};
pub use run::{run, Arm, Event, Outcome, Run, Side};
pub use site::{site_of, Site};
pub use translation::{measure, translate, Translation, MAX_ENTRIES};
