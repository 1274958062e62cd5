//! The worked report of the bench section, one example for each way in which a
//! lead or a witness is refused, and likeness.

use oracle::{alike, judge, measure, Finding, Refusal, Room, Side, MAX_REPORT};

/// One 1-bit variable set to 1, then a write at it into an array of 1.
const BENCH: &[u8] = &[1, 1, 1, 0, 1, 1, 0, 0x01, 0, 1, 0, 0, 0, 0x0A, 0, 0, 0, 0];

/// What the judging program of the bench section lends.
const BENCH_ROOM: Room = Room {
    words: 16_384,
    starts: 16_384,
    marks: 16_384,
    values: 32,
    trail: 32,
};

/// A 2-bit parameter and a 2-bit variable that is set to 0. If 0: where the
/// parameter is 0 nothing, else access 0 with it. If 1 asks whether it is
/// negative and does nothing. Then access 1 at 0. The array has one entry.
#[rustfmt::skip]
const ROUTINE: &[u8] = &[
    1, 2, 2, 2, 1, 1, 1, 0,
    0x01, 1, 0, 0, 0, 0,
    0x0B, 0, 0, 1, 0x0C, 0x0A, 0, 0, 0, 0x0D,
    0x0B, 6, 0, 1, 0x0C, 0x0D,
    0x0A, 0, 1, 1,
    0x00,
];

type Outcome = Result<Finding, (u8, usize)>;

fn judged(routine: &[u8], report: &[u8], room: Room) -> Outcome {
    judge(routine, report, room).map_err(|refusal| (refusal.number, refusal.place))
}

/// The lead of a report on `ROUTINE`, with these words for the parameter and the
/// leftover.
fn lead_with(access: u8, side: u8, decisions: [u8; 2], words: [u32; 2]) -> Vec<u8> {
    let words = words.map(u32::to_le_bytes).concat();
    [&[access, side], &decisions[..], &words].concat()
}

/// With a leftover that is not 0: the routine does not use it.
fn lead(access: u8, side: u8, decisions: [u8; 2], input: u32) -> Vec<u8> {
    lead_with(access, side, decisions, [input, 3])
}

/// What a report on `ROUTINE` with this lead and no proof comes to: refused
/// with 17 at its end, if the lead and the witness are good.
fn without_proof(access: u8, side: u8, decisions: [u8; 2], input: u32) -> Outcome {
    let report = lead(access, side, decisions, input);
    judged(ROUTINE, &report, BENCH_ROOM)
}

const NO_PROOF: Outcome = Err((17, 12));

/// With an input word 0, and with a 1 in its place, which is as good.
#[test]
fn bench_reports() {
    for leftover in [0, 1] {
        bench_reports_with(leftover);
    }
}

fn bench_reports_with(leftover: u8) {
    let lead = [0, 0, leftover, 0, 0, 0];
    let judged = |proof: &[u8]| judged(BENCH, &[&lead, proof].concat(), BENCH_ROOM);
    let good = [2, 0, 0, 0, 0, 2, 2, 0, 0, 0, 3, 0];
    let finding = Finding {
        access: 0,
        side: Side::Below,
        array: 0,
        size: 1,
        index: -1,
        steps: 1,
        hints: 2,
    };
    assert_eq!(judged(&good), Ok(finding));
    let other_hint = [2, 0, 0, 0, 0, 2, 1, 0, 0, 0, 3, 0];
    assert_eq!(judged(&other_hint), Err((20, 11)));
    let third_hint = [2, 0, 0, 0, 0, 2, 2, 0, 0, 0, 2, 1, 0, 0, 0, 3, 0];
    assert_eq!(judged(&third_hint), Err((22, 16)));
    assert_eq!(judged(&good[..11]), Err((17, 17)));
    assert_eq!(judged(&[&good[..], &[0]].concat()), Err((24, 18)));
}

/// The bench's report without the word for what was left: the proof's first
/// bytes stand in its place, and 2 does not fit one bit.
#[test]
fn bench_report_without_a_leftover() {
    let report = [0, 0, 2, 0, 0, 0, 0, 2, 2, 0, 0, 0, 3, 0];
    assert_eq!(judged(BENCH, &report, BENCH_ROOM), Err((10, 0)));
    for len in 0..6 {
        assert_eq!(judged(BENCH, &report[..len], BENCH_ROOM), Err((11, len)));
    }
}

/// The routine first, whatever the report.
#[test]
fn routines() {
    assert_eq!(judged(&[], &[], BENCH_ROOM), Err((1, 0)));
    assert_eq!(judged(&BENCH[..17], &[], BENCH_ROOM), Err((3, 17)));
    let after_the_end = [BENCH, &[0]].concat();
    assert_eq!(judged(&after_the_end, &[], BENCH_ROOM), Err((8, 18)));
}

#[test]
fn leads_cut_short_or_too_long() {
    // Access, side and a decision are out of range, the input too great.
    let wrong = lead(9, 9, [9, 9], 9);
    for len in 0..12 {
        assert_eq!(judged(ROUTINE, &wrong[..len], BENCH_ROOM), Err((11, len)));
    }
    let mut longest = wrong;
    longest.resize(MAX_REPORT, 0);
    assert_eq!(judged(ROUTINE, &longest, BENCH_ROOM), Err((12, 0)));
    longest.push(0);
    let refused = Err((11, MAX_REPORT + 1));
    assert_eq!(judged(ROUTINE, &longest, BENCH_ROOM), refused);
}

#[test]
fn leads_out_of_range() {
    assert_eq!(without_proof(2, 2, [3, 3], 4), Err((12, 0)));
    assert_eq!(without_proof(1, 2, [3, 3], 4), Err((12, 1)));
    assert_eq!(without_proof(1, 1, [3, 3], 4), Err((12, 2)));
    // Also for an if that stands behind the access.
    assert_eq!(without_proof(0, 1, [2, 3], 4), Err((12, 3)));
    // The witness would go another way.
    assert_eq!(without_proof(0, 1, [0, 2], 4), Err((10, 0)));
    // A routine without accesses has none to name.
    let none = [1, 1, 1, 0, 0, 0];
    assert_eq!(judged(&none, &[0; 5], BENCH_ROOM), Err((11, 5)));
    assert_eq!(judged(&none, &[0; 6], BENCH_ROOM), Err((12, 0)));
}

/// The word of the leftover is looked at like the parameter's, and after it.
#[test]
fn inputs_too_great() {
    let judged = |words| judged(ROUTINE, &lead_with(0, 1, [2, 2], words), BENCH_ROOM);
    assert_eq!(judged([4, 4]), Err((10, 0)));
    assert_eq!(judged([1, 4]), Err((10, 1)));
    assert_eq!(judged([1, u32::MAX]), Err((10, 1)));
    for leftover in 0..4 {
        assert_eq!(judged([1, leftover]), NO_PROOF);
    }
}

#[test]
fn witness_goes_another_way() {
    assert_eq!(without_proof(0, 0, [0, 2], 3), Err((13, 0)));
    assert_eq!(without_proof(1, 0, [1, 2], 0), Err((13, 0)));
    // The second if, which the run comes to before the access.
    assert_eq!(without_proof(1, 0, [0, 0], 0), Err((13, 1)));
    // Before the run stops, and so misses access 1.
    assert_eq!(without_proof(1, 0, [0, 0], 3), Err((13, 0)));
    // An if behind the access does not matter.
    assert_eq!(without_proof(0, 0, [1, 1], 3), NO_PROOF);
}

#[test]
fn witness_does_not_come_to_the_access() {
    // It passes access 0 by and then takes another arm than if 1's decision,
    // but that stands behind the access.
    assert_eq!(without_proof(0, 0, [0, 0], 0), Err((14, 0)));
    assert_eq!(without_proof(0, 0, [2, 1], 0), Err((14, 0)));
    // It stops at access 0, before it could take if 1's other arm.
    assert_eq!(without_proof(1, 0, [1, 1], 3), Err((14, 1)));
    // It ends without an access.
    let skipping = [
        1, 1, 1, 0, 1, 1, 0, 0x0B, 0, 0, 0, 0x0C, 0x0A, 0, 0, 0, 0x0D, 0,
    ];
    for leftover in [0, 1] {
        let report = [0, 0, 2, leftover, 0, 0, 0];
        assert_eq!(judged(&skipping, &report, BENCH_ROOM), Err((14, 0)));
    }
}

#[test]
fn index_not_on_the_side() {
    assert_eq!(without_proof(0, 0, [2, 2], 1), Err((15, 0)));
    assert_eq!(without_proof(0, 1, [2, 2], 1), NO_PROOF);
    assert_eq!(without_proof(0, 1, [2, 2], 2), Err((15, 0)));
    assert_eq!(without_proof(0, 0, [2, 2], 2), NO_PROOF);
    // Inside the array.
    assert_eq!(without_proof(1, 0, [2, 2], 0), Err((15, 1)));
    assert_eq!(without_proof(1, 1, [2, 2], 0), Err((15, 1)));
}

fn room([words, starts, marks, values, trail]: [usize; 5]) -> Room {
    Room {
        words,
        starts,
        marks,
        values,
        trail,
    }
}

/// The first buffer that is too small, by its number.
#[test]
fn buffers_too_small() {
    let translation = measure(ROUTINE, 0, 1, &[2, 2]).expect("an accepted lead");
    let (words, starts) = (translation.words, translation.clauses);
    let needed = [words, starts, translation.variables + 1, 2, 2];
    let report = lead(0, 1, [2, 2], 1);
    let judged = |lent: [usize; 5]| judged(ROUTINE, &report, room(lent));
    assert_eq!(judged(needed), NO_PROOF);
    for buffer in 0..5 {
        let mut lent = needed;
        for later in &mut lent[buffer..] {
            *later -= 1;
        }
        assert_eq!(judged(lent), Err((16, buffer)));
        lent[buffer] = 0;
        assert_eq!(judged(lent), Err((16, buffer)));
        // Only that one too small.
        let mut lent = needed.map(|needed| needed + 1);
        lent[buffer] -= 2;
        assert_eq!(judged(lent), Err((16, buffer)));
    }
}

/// The witness is run before the buffers are looked at.
#[test]
fn witness_before_buffers() {
    let inside = lead(1, 0, [2, 2], 0);
    assert_eq!(judged(ROUTINE, &inside, room([0; 5])), Err((15, 1)));
    let outside = lead(0, 1, [2, 2], 1);
    assert_eq!(judged(ROUTINE, &outside, room([0; 5])), Err((16, 0)));
}

#[test]
fn alike_by_access_and_side() {
    let alike = |first: &[u8], second: &[u8]| alike(ROUTINE, first, second);
    let one = lead(0, 1, [2, 2], 1);
    // Other decisions, an input too great and a proof do not matter.
    let other = [&lead(0, 1, [1, 0], 99)[..], &[2, 0, 0, 0, 0, 3, 0]].concat();
    assert_eq!(alike(&one, &one), Ok(true));
    assert_eq!(alike(&one, &other), Ok(true));
    assert_eq!(alike(&other, &one), Ok(true));
    assert_eq!(alike(&one, &lead(0, 0, [2, 2], 1)), Ok(false));
    assert_eq!(alike(&one, &lead(1, 1, [2, 2], 1)), Ok(false));
}

/// The routine, then the first report, then the second.
#[test]
fn alike_refuses_in_order() {
    let good = lead(0, 1, [2, 2], 1);
    let out_of_range = lead(0, 1, [2, 3], 1);
    let refused = |number, place| Err(Refusal { number, place });
    // The last byte of the leftover's word is gone.
    let cut = &good[..11];
    assert_eq!(alike(&[], cut, cut), refused(1, 0));
    assert_eq!(alike(ROUTINE, &out_of_range, cut), refused(12, 3));
    assert_eq!(alike(ROUTINE, cut, &out_of_range), refused(11, 11));
    assert_eq!(alike(ROUTINE, &good, &out_of_range), refused(12, 3));
    assert_eq!(alike(ROUTINE, &good, cut), refused(11, 11));
    assert_eq!(alike(ROUTINE, &good, &[]), refused(11, 0));
    let too_long = vec![0; MAX_REPORT + 1];
    assert_eq!(
        alike(ROUTINE, &good, &too_long),
        refused(11, MAX_REPORT + 1)
    );
}

/// A write at a 1-bit leftover, after it was set to 1 or after nothing.
fn write_at_leftover(commands: &[u8]) -> Vec<u8> {
    [&[1, 1, 1, 0, 1, 1, 0], commands, &[0x0A, 0, 0, 0, 0]].concat()
}

/// Set, the index is -1 in every run, and the bench's hints prove it. Not set,
/// it is -1 where 1 was left, and 0 where 0 was: there is a witness, but no
/// proof, for clause 2 is then {5}, and only variable 2 becomes false by it.
#[test]
fn leftover_that_is_not_set_is_no_finding() {
    let report = |leftover: u8, proof: &[u8]| [&[0, 0, leftover, 0, 0, 0], proof].concat();
    let proof = [2, 0, 0, 0, 0, 2, 2, 0, 0, 0, 3, 0];
    let set = write_at_leftover(&[0x01, 0, 1, 0, 0, 0]);
    for leftover in [0, 1] {
        let index = judged(&set, &report(leftover, &proof), BENCH_ROOM).map(|found| found.index);
        assert_eq!(index, Ok(-1));
    }
    let not_set = write_at_leftover(&[]);
    let judged = |report: &[u8]| judged(&not_set, report, BENCH_ROOM);
    assert_eq!(judged(&report(0, &proof)), Err((15, 0)));
    assert_eq!(judged(&report(1, &proof)), Err((21, 16)));
    assert_eq!(judged(&report(1, &[2, 2, 0, 0, 0, 3])), Err((21, 11)));
}
