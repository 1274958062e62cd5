//! Differential testing of the pick-routine library against the oracle.
//!
//! A [`case::Case`] is a routine, an input list and the buffers lent for one
//! check and one run. [`compare::compare`] makes both calls and compares the
//! returned number and every entry of every buffer, lent or not, with what the
//! oracle says. [`tally::Tally`] counts what the cases came to, so that a
//! generator that has lost sight of some shape or refusal fails the test.
//!
//! The same for translations: [`translation_case::TranslationCase`] with
//! [`translation_compare::compare_translation`], clause by clause, and
//! [`translation_tally::TranslationTally`]. Each is also asked for its space
//! beforehand: [`space_compare::compare_as_told`] holds the translation against
//! what was told, and [`space_tally::SpaceTally`] counts what that came to.
//! [`turned_down`] has the refusals that both calls share, written out.
//!
//! For proofs, [`refutations`] draws clauses that nothing satisfies and
//! [`refute`] proves it, [`proof_damage`] damages the proofs, and a
//! [`proof_case::ProofCase`] is one of them with its buffers.
//! [`proof_expected::expected`] is what the oracle makes of it, entry by entry,
//! and [`proof_tally::ProofTally`] counts what the proofs came to.
//!
//! For whole reports, a [`claim::Claim`] is drawn together with what brute force
//! says of it, [`report_draft::Report`] proves it or forges a proof,
//! [`report_damage`] damages it, and a [`report_case::ReportCase`] is one report
//! with its buffers. [`truth::confirm`] holds every accepted report against all
//! input lists, and [`report_tally::ReportTally`] counts what the reports came
//! to. [`alike_case::AlikeCase`] is two reports on one routine.
//!
//! [`leftovers`] says which variables begin with what the last pick left, and
//! what a list, a lead or a translation would be if they were cleared: the
//! tallies count where that would not be the same.

#![forbid(unsafe_code)]

pub mod alike_case;
pub mod alike_compare;
pub mod alike_tally;
pub mod case;
pub mod claim;
pub mod compare;
pub mod counter;
pub mod damage;
pub mod draft;
pub mod fault;
pub mod guarded;
pub mod leftovers;
pub mod lent;
pub mod limit;
pub mod long_proof;
pub mod narrow;
pub mod plan;
pub mod proof_case;
pub mod proof_compare;
pub mod proof_damage;
pub mod proof_draft;
pub mod proof_expected;
pub mod proof_tally;
pub mod refutations;
pub mod refute;
pub mod report_case;
pub mod report_compare;
pub mod report_damage;
pub mod report_draft;
pub mod report_tally;
pub mod rng;
mod run_shapes;
pub mod seeded;
pub mod space_compare;
pub mod space_tally;
pub mod survey;
pub mod tally;
pub mod translation_case;
pub mod translation_compare;
pub mod translation_tally;
pub mod truth;
pub mod turned_down;
