//! The commands `space` and `judge`, with what they print and their exit status.

mod calling;

use calling::{file, printed, ROUTINE};
use differential::limit::routine_of;
use pellet::{ANSWER_LEN, MAX_ENTRIES};
use std::path::Path;

/// The report on the bench routine.
const REPORT: &str = "examples/bench/report.bin";
/// Its access, its side, and a witness of one word, which is what is left
/// in the only variable.
const BENCH_LEAD: [u8; 6] = [0; 6];
const ACCEPTED: &str = "accepted access 0 side below array 0 size 1 index -1 steps 1 hints 2";

/// The clauses, words and variables that `space` tells of a claim, and what it
/// says about judging.
fn told(claim: [&str; 4]) -> ([usize; 3], String) {
    let (line, status) = printed(&[&["space"], &claim[..]].concat());
    let numbers = line.split(' ').filter_map(|word| word.parse().ok());
    let numbers: Vec<usize> = numbers.take(3).collect();
    let numbers: [usize; 3] = numbers.try_into().expect("three numbers");
    let [clauses, words, variables] = numbers;
    let counts = format!("clauses {clauses} words {words} variables {variables} ");
    assert_eq!(status, Some(0));
    let judging = line.strip_prefix(&counts).expect("the counts come first");
    (numbers, judging.to_string())
}

fn at_least(bytes: usize) -> String {
    format!("judging takes at least {bytes} bytes\n")
}

#[test]
fn tells_the_space_of_claims() {
    for (claim, numbers, bytes) in [
        (["examples/bench.bin", "0", "0", "-"], [3, 6, 9], 58),
        (["examples/bench.bin", "0", "0", ""], [3, 6, 9], 58),
        (["examples/bench.bin", "0", "1", "-"], [115, 454, 33], 2322),
        ([ROUTINE, "0", "0", "-"], [3, 6, 2], 51),
        // Variable 1, 4 variables of 32 bits and 387 gates.
        (
            ["examples/two-sensors/routine.bin", "0", "0", "000"],
            [1804, 7204, 516],
            36576,
        ),
    ] {
        assert_eq!(told(claim), (numbers, at_least(bytes)));
    }
}

/// A line of a clause has a word for each literal and one for their count, in
/// whose place DIMACS has a 0.
#[test]
fn space_is_what_translate_prints() {
    for claim in [
        ["examples/bench.bin", "0", "1", "-"],
        ["examples/two-sensors/routine.bin", "0", "0", "000"],
        ["examples/sum-of-squares/routine.bin", "0", "0", "0"],
        ["examples/repeat-groups/routine.bin", "0", "1", "2"],
        ["examples/last-pick/routine.bin", "0", "0", "0"],
        ["examples/eight-branches/routine.bin", "0", "1", "22222222"],
        ["examples/eight-branches/routine.bin", "0", "1", "11110222"],
    ] {
        let ([clauses, words, variables], _) = told(claim);
        let (text, _) = printed(&[&["translate"], &claim[..]].concat());
        let mut lines = text.lines().skip_while(|line| line.starts_with('c'));
        let header = format!("p cnf {variables} {clauses}");
        assert_eq!(lines.next(), Some(header.as_str()));
        let printed: Vec<usize> = lines.map(|line| line.split(' ').count()).collect();
        assert_eq!(printed.len(), clauses);
        assert_eq!(printed.iter().sum::<usize>(), words);
    }
}

/// What the library says of a report in words, starts, marks, values and trail
/// of so many entries.
fn judged(routine: &[u8], report: &[u8], entries: [usize; 5]) -> u8 {
    let [words, starts, marks, values, trail] = entries;
    pellet::judge(
        routine,
        report,
        &mut vec![0; words],
        &mut vec![0; starts],
        &mut vec![0; marks],
        &mut vec![0; values],
        &mut vec![0; trail],
        &mut [0; ANSWER_LEN],
    )
}

/// Reports of one step each are accepted in buffers of the bytes told, and in
/// none that has an entry less: 25 says that the step does not fit, 16 that the
/// translation or the run does not.
#[test]
fn the_bytes_told_are_the_fewest() {
    // The bench routine with an if before its access. The last of 19 clauses
    // says that the index is not below: {3}.
    let header = [1, 1, 1, 0, 1, 1, 0];
    let commands = [1, 0, 1, 0, 0, 0, 11, 0, 0, 0, 12, 13, 10, 0, 0, 0, 0];
    let with_if = [&header[..], &commands].concat();
    let lead = [0, 0, 2, 0, 0, 0, 0];
    let report = [&lead[..], &[2, 0, 0, 0, 0, 2, 18, 0, 0, 0, 3, 0]].concat();
    let root = Path::new(env!("CARGO_MANIFEST_DIR")).join("../..");
    let in_tree = |name| std::fs::read(root.join(name)).expect("it is in the tree");
    for (routine, report, decisions, ifs) in [
        (in_tree(ROUTINE), in_tree(REPORT), "-", 0),
        (with_if, report, "2", 1),
    ] {
        let name = file(&format!("room_{ifs}"), &routine);
        let ([clauses, words, variables], judging) = told([&name, "0", "0", decisions]);
        let entries = [words + 1, clauses + 1, variables + 1, 1, ifs];
        let sizes = [4, 4, 1, 4, 1];
        let bytes = entries.iter().zip(sizes).map(|(count, size)| count * size);
        assert_eq!(judging, at_least(bytes.sum()));
        assert_eq!(judged(&routine, &report, entries), 0);
        for (k, refused) in [25, 25, 16, 16, 16].into_iter().enumerate() {
            let mut less = entries;
            if less[k] > 0 {
                less[k] -= 1;
                assert_eq!(judged(&routine, &report, less), refused, "{k}");
            }
        }
    }
}

/// Every translation has an even number of words. The greatest that leaves one
/// for the empty clause can be judged, and no greater one.
#[test]
fn tells_what_is_too_large_to_judge() {
    for words in [MAX_ENTRIES - 2, MAX_ENTRIES, MAX_ENTRIES + 2] {
        let (routine, decisions) = routine_of(words);
        let name = file(&format!("words_{words}"), &routine);
        let decisions = "0".repeat(decisions.len());
        let (numbers, judging) = told([&name, "0", "0", &decisions]);
        assert_eq!(numbers[1], words);
        let is_too_large = words + 1 > MAX_ENTRIES;
        assert_eq!(judging == "too large to judge\n", is_too_large);
        assert_eq!(judging.starts_with("judging takes"), !is_too_large);
    }
}

#[test]
fn judges_the_bench_report() {
    assert_eq!(
        printed(&["judge", ROUTINE, REPORT]),
        (format!("{ACCEPTED}\n"), Some(0))
    );
    for (name, proof, line) in [
        (
            "other_hint",
            &[2, 0, 0, 0, 0, 2, 1, 0, 0, 0, 3, 0][..],
            "refused 20 place 11\n",
        ),
        (
            "third_hint",
            &[2, 0, 0, 0, 0, 2, 2, 0, 0, 0, 2, 1, 0, 0, 0, 3, 0],
            "refused 22 place 16\n",
        ),
        (
            "cut",
            &[2, 0, 0, 0, 0, 2, 2, 0, 0, 0, 3],
            "refused 17 place 17\n",
        ),
    ] {
        let report = file(name, &[&BENCH_LEAD, proof].concat());
        assert_eq!(
            printed(&["judge", ROUTINE, &report]),
            (line.to_string(), Some(1))
        );
    }
}

/// A lead that lacks a byte, in its witness or before it, or whose witness is too
/// great for the one bit of the variable.
#[test]
fn judges_leads() {
    for length in 0..BENCH_LEAD.len() {
        let report = file(&format!("lead_{length}"), &BENCH_LEAD[..length]);
        let line = format!("refused 11 place {length}\n");
        assert_eq!(printed(&["judge", ROUTINE, &report]), (line, Some(1)));
    }
    let report = file("great_leftover", &[0, 0, 2, 0, 0, 0]);
    let line = "refused 10 place 0\n".to_string();
    assert_eq!(printed(&["judge", ROUTINE, &report]), (line, Some(1)));
}

#[test]
fn judges_several_reports() {
    let both = format!("{REPORT}: {ACCEPTED}\n{REPORT}: {ACCEPTED}\n");
    assert_eq!(
        printed(&["judge", ROUTINE, REPORT, REPORT]),
        (both, Some(0))
    );
    let other = file("other_side", &[0, 1, 0, 0, 0, 0, 0]);
    let one_refused = format!("{other}: refused 15 place 0\n{REPORT}: {ACCEPTED}\n");
    assert_eq!(
        printed(&["judge", ROUTINE, &other, REPORT]),
        (one_refused, Some(1))
    );
    assert_eq!(
        printed(&["judge", REPORT, REPORT]),
        ("refused 2 place 0\n".to_string(), Some(1))
    );
}

/// Products of 32 bits: the translation takes far more than the report has bytes.
#[test]
fn lends_as_much_as_a_report_needs() {
    let products = [0x05, 1, 1, 1].repeat(5);
    let commands = [&products[..], &[0x0A, 0, 0, 0, 0x00]].concat();
    // Variable 0 is set to 1, which is -1 in one bit.
    let header = [1, 2, 1, 32, 0, 1, 1, 0, 0x01, 0, 1, 0, 0, 0];
    let routine = file("products", &[&header[..], &commands].concat());
    // The last clause says that the index is not below: {3}.
    let clauses: u32 = 1 + 5 * (528 * 3 + 1024 * 14) + 2;
    let last = (clauses - 1).to_le_bytes();
    let hints = [&[2, 0, 0, 0, 0, 2], &last[..], &[3, 0]].concat();
    // Access, side and a word for each of the two variables.
    let report = file("product_report", &[&[0; 10], &hints[..]].concat());
    assert_eq!(
        printed(&["judge", &routine, &report]),
        (format!("{ACCEPTED}\n"), Some(0))
    );
}
