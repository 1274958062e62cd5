//! The room that the space told gives: translations fill it, and the judge says
//! in it what it says in more.

use differential::limit::routine_of;
use pellet::MAX_ENTRIES;
use pelletperiod::judge::{judge, judge_in};
use pelletperiod::{Claim, Refused, Room, Space};
use std::path::Path;

/// A claim whose translation has so many words.
fn claim_of(words: usize) -> Claim {
    let (routine, decisions) = routine_of(words);
    Claim {
        routine,
        access: 0,
        side: 0,
        decisions,
    }
}

#[test]
fn translations_fill_the_space_told() {
    for words in [400_000, MAX_ENTRIES] {
        let claim = claim_of(words);
        let space = claim.space().expect("a valid claim");
        let translation = claim.translate().expect("it is not too large");
        let made = Space {
            clauses: translation.iter().count(),
            words: translation.words.len(),
            variables: translation.variables,
        };
        assert_eq!((made, made.words), (space, words));
        assert_eq!(translation.clauses, space.clauses);
    }
}

#[test]
fn translations_that_no_buffer_holds_are_refused() {
    let claim = claim_of(MAX_ENTRIES + 2);
    let space = claim.space().expect("a valid claim");
    assert_eq!(space.words, MAX_ENTRIES + 2);
    let refused = claim.translate().expect_err("it is too large");
    let words_are_short = Refused {
        number: 16,
        place: 0,
    };
    assert_eq!(refused, words_are_short);
}

/// More than any report here needs that is judged in it.
const ROOMY: Room = Room {
    words: 100_000,
    starts: 100_000,
    marks: 100_000,
    values: 32,
    trail: 32,
};

/// The examples' routines, each with its reports.
const EXAMPLES: [(&str, &[&str]); 5] = [
    ("bench", &["report"]),
    ("two-sensors", &["report"]),
    ("sum-of-squares", &["report"]),
    ("repeat-groups", &["report"]),
    ("eight-branches", &["joined", "path-0", "path-5", "path-8"]),
];

fn in_tree(directory: &str, name: &str) -> Vec<u8> {
    let root = Path::new(env!("CARGO_MANIFEST_DIR")).join("../../examples");
    let path = root.join(directory).join(name).with_extension("bin");
    std::fs::read(path).expect("it is in the tree")
}

/// The judge says the same in its own room as in more, and nowhere that it was
/// too little.
fn expect_alike(routine: &[u8], report: &[u8]) -> Result<String, Refused> {
    let verdict = judge(routine, report);
    assert_eq!(verdict, judge_in(&ROOMY, routine, report), "{report:?}");
    if let Err(Refused { number, .. }) = verdict {
        assert!(number != 16 && number != 25, "{report:?}");
    }
    verdict
}

fn refused(number: u8, place: u64) -> Result<String, Refused> {
    Err(Refused { number, place })
}

#[test]
fn whole_reports_are_judged_alike() {
    for (directory, reports) in EXAMPLES {
        let routine = in_tree(directory, "routine");
        for name in reports {
            let verdict = expect_alike(&routine, &in_tree(directory, name));
            assert!(verdict.expect("a good report").starts_with("accepted"));
        }
    }
}

/// The bench report with its second hint changed, with a third one, and without
/// its last byte.
#[test]
fn bench_refusals_are_judged_alike() {
    let routine = in_tree("bench", "routine");
    // Access, side and a word, for what is left in the only variable.
    let lead = [0; 6];
    let judged = |proof: &[u8]| expect_alike(&routine, &[&lead, proof].concat());
    let other = [2, 0, 0, 0, 0, 2, 1, 0, 0, 0, 3, 0];
    assert_eq!(judged(&other), refused(20, 11));
    let third = [2, 0, 0, 0, 0, 2, 2, 0, 0, 0, 2, 1, 0, 0, 0, 3, 0];
    assert_eq!(judged(&third), refused(22, 16));
    let cut = [2, 0, 0, 0, 0, 2, 2, 0, 0, 0, 3];
    assert_eq!(judged(&cut), refused(17, 17));
}

/// Cut at every length and with every byte changed; of long reports every 31st.
/// Changing the first bit makes other numbers, the first two make literals of
/// hints, the last makes numbers that are too great.
#[test]
fn damaged_reports_are_judged_alike() {
    for (directory, reports) in EXAMPLES {
        let routine = in_tree(directory, "routine");
        for name in reports {
            let mut report = in_tree(directory, name);
            let stride = if report.len() < 2000 { 1 } else { 31 };
            for k in (0..report.len()).step_by(stride) {
                let cut = expect_alike(&routine, &report[..k]);
                assert!(cut.is_err());
                for change in [0x01, 0x03, 0x80] {
                    report[k] ^= change;
                    let _ = expect_alike(&routine, &report);
                    report[k] ^= change;
                }
            }
        }
    }
}

/// A report of a lead and literals alone takes every word that it is lent: with
/// one less the last literal is refused.
#[test]
fn literals_take_all_words_lent() {
    // Variable 0 is set to 1, which is -1 in one bit; the sum of variable 1 with
    // itself has 96 gates, and what is left in the two has 33 bits.
    let header = [1, 2, 1, 32, 0, 1, 1, 0];
    let commands = [1, 0, 1, 0, 0, 0, 3, 1, 1, 1, 10, 0, 0, 0, 0];
    let routine = [&header[..], &commands].concat();
    // Access, side and two words.
    let mut report = vec![0; 10];
    for variable in 1..=1 + 33 + 96 {
        let place = report.len() as u64;
        report.push(1);
        report.extend(u32::to_le_bytes(2 * variable));
        let missing = refused(17, report.len() as u64);
        assert_eq!(expect_alike(&routine, &report), missing);
        let mut room = Room::of_report(&routine, &report);
        room.words -= 1;
        assert_eq!(judge_in(&room, &routine, &report), refused(25, place));
    }
}

/// Where the clauses fill the words, a step finds none; larger ones find no
/// room in any buffer.
#[test]
fn the_largest_claims_are_judged() {
    for (words, number) in [
        (MAX_ENTRIES - 2, 17),
        (MAX_ENTRIES, 25),
        (MAX_ENTRIES + 2, 16),
    ] {
        let claim = claim_of(words);
        // The third parameter is the index, -1 in one bit.
        let report = claim.report(&[0, 0, 1], &[1, 2, 0, 0, 0]);
        let end = report.len() as u64;
        let place = match number {
            17 => end,
            25 => end - 5,
            _ => 0,
        };
        assert_eq!(judge(&claim.routine, &report), refused(number, place));
    }
}

/// Nothing is lent where the judge refuses before it looks at a buffer.
#[test]
fn leads_that_are_refused_are_lent_nothing() {
    let routine = in_tree("two-sensors", "routine");
    let report = in_tree("two-sensors", "report");
    let none = Room::default();
    assert_eq!(Room::of_report(&[], &report), none);
    assert_eq!(expect_alike(&[], &report), refused(1, 0));
    // Two bytes, one for each of three ifs, and four for each of four variables.
    for length in 0..21 {
        assert_eq!(Room::of_report(&routine, &report[..length]), none);
        let cut = refused(11, length as u64);
        assert_eq!(expect_alike(&routine, &report[..length]), cut);
    }
    for place in 0..5 {
        let mut wrong = report.clone();
        wrong[place] = 3;
        assert_eq!(Room::of_report(&routine, &wrong), none);
        assert_eq!(expect_alike(&routine, &wrong), refused(12, place as u64));
    }
}
