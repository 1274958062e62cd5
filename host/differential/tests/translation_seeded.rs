//! Seeded random translations, compared with the oracle clause by clause and
//! with the space that is told of them beforehand, and seeded narrow routines
//! whose clauses, read back from the library's buffers, are checked on every
//! input list. How to make a translation again is said in
//! `differential::seeded`.

use differential::compare::Verdict;
use differential::leftovers::cleared;
use differential::narrow::{draw_followed, draw_narrow};
use differential::rng::Rng;
use differential::seeded::{go_through, settle, show};
use differential::space_compare::compare_as_told;
use differential::space_tally::SpaceTally;
use differential::translation_case::TranslationCase;
use differential::translation_compare::read_clauses;
use differential::translation_tally::TranslationTally;
use oracle::exhaustive::{check_every_input, try_every_input, Lists};
use oracle::Routine;
use std::collections::BTreeMap;

const SEED: u64 = 0x50E1_1E7D_2026_0003;
const CASES: u64 = 12_000;
const NARROW_SEED: u64 = 0x50E1_1E7D_2026_0004;
const NARROW_CASES: u64 = 6000;

#[test]
fn seeded_translations_agree() {
    let (mut tally, mut spaces) = (TranslationTally::default(), SpaceTally::default());
    let compare = |case: &_| {
        let both = compare_as_told(case)?;
        Ok((both.told.verdict, both.translated.verdict))
    };
    let note = |case: &_, (space, translation): &(_, _)| {
        tally.add(case, translation);
        spaces.add(case, space, translation);
    };
    if go_through(SEED, CASES, TranslationCase::draw, compare, note) {
        settle(tally.counter());
        settle(spaces.counter());
    }
}

#[test]
fn narrow_translations_say_what_the_runs_say() {
    let (mut all, mut met) = (Lists::default(), Lists::default());
    let mut decided = 0;
    for number in 0..NARROW_CASES {
        let rng = &mut Rng::for_case(NARROW_SEED, number);
        let (lists, by_leftovers) =
            check_narrow(rng).unwrap_or_else(|report| panic!("case {number}, {report}"));
        decided += usize::from(by_leftovers);
        all.all += lists.all;
        all.arriving += lists.arriving;
        all.on_side += lists.on_side;
        all.past_zero += lists.past_zero;
        met.all += 1;
        met.arriving += usize::from(lists.arriving > 0);
        met.on_side += usize::from(lists.on_side > 0);
        met.past_zero += usize::from(lists.past_zero > 0);
    }
    show(&format!(
        "input lists {all:?}, translations {met:?}, decided by leftovers {decided}\n"
    ));
    // Most are to be about something: an access that some run comes to.
    assert!(met.arriving * 3 > met.all && met.on_side * 8 > met.all);
    assert!(all.arriving < all.all && all.on_side < all.arriving);
    // And a good many come past a division by zero.
    assert!(met.past_zero * 20 > met.all && all.past_zero < all.arriving);
    assert!(decided * 10 > met.all);
}

/// Translates one narrow routine into buffers of just enough entries and
/// checks what stands in them. Says too whether leftovers alone decide what some
/// run comes to.
fn check_narrow(rng: &mut Rng) -> Result<(Lists, bool), String> {
    let (bytes, routine) = draw_narrow(rng);
    let decisions = draw_followed(rng, &bytes, &routine);
    let access = rng.below(routine.accesses) as u8;
    let lead = (access, rng.below(2) as u8, decisions.as_slice());
    let translation = oracle::measure(&bytes, lead.0, lead.1, lead.2).expect("a valid lead");
    let lent = (translation.words, translation.clauses);
    let case = TranslationCase::lending(rng, &bytes, lead, lent);
    let agreed = compare_as_told(&case)?.translated;
    assert!(matches!(agreed.verdict, Verdict::Done(_)));
    let (words, starts) = (agreed.words.slice(), agreed.starts.slice());
    let clauses = read_clauses(words, starts, translation.clauses);
    let lists = check_every_input(&bytes, lead, &translation, &clauses)
        .map_err(|problem| format!("{case}{problem}"))?;
    Ok((lists, is_decided_by_leftovers(&bytes, &routine, lead)))
}

/// Whether two lists that differ in nothing but leftovers differ in arriving or
/// in the side.
fn is_decided_by_leftovers(bytes: &[u8], routine: &Routine, lead: (u8, u8, &[u8])) -> bool {
    let mut first = BTreeMap::new();
    let tried = try_every_input(bytes, lead).expect("a narrow routine");
    tried.iter().any(|tried| {
        let found = (tried.arrives, tried.is_on_side);
        let key = cleared(routine, &tried.inputs);
        *first.entry(key).or_insert(found) != found
    })
}
