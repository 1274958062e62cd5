//! Reports on pick routines, made and judged over the proved calls of the
//! static library. Nothing is decided here: a solver searches, its answers are
//! written as a report, and the library judges that.

#![forbid(unsafe_code)]

pub mod claim;
pub mod counts;
pub mod dimacs;
pub mod elaborate;
pub mod follow;
pub mod inputs;
pub mod judge;
pub mod model;
pub mod progress;
pub mod proof;
pub mod propose;
pub mod refused;
pub mod room;
mod scratch;
pub mod solver;
pub mod solver_proof;
mod store;
mod watches;

pub use claim::{Claim, Space, Translation};
pub use counts::Counts;
pub use judge::judge;
pub use propose::{propose, Proposal};
pub use refused::Refused;
pub use room::Room;
pub use solver::Solver;
