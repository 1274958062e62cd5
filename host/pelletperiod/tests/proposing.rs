//! From claims to reports, with a stand-in for the solver, and reports of
//! proofs that solvers wrote.

use std::path::{Path, PathBuf};
use std::process::Command;

const ROUTINE: &str = "examples/bench/routine.bin";
/// Its witness has one word, what is left in the only variable.
const REPORT: &[u8] = &[0, 0, 0, 0, 0, 0, 2, 0, 0, 0, 0, 2, 2, 0, 0, 0, 3, 0];
const ACCEPTED: &str = "accepted access 0 side below array 0 size 1 index -1 steps 1 hints 2\n";

fn printed(words: &[&str]) -> (String, String, Option<i32>) {
    let output = Command::new(env!("CARGO_BIN_EXE_pelletperiod"))
        .args(words)
        .current_dir(concat!(env!("CARGO_MANIFEST_DIR"), "/../.."))
        .output()
        .expect("the program starts");
    let text = |bytes| String::from_utf8(bytes).expect("it prints text");
    (
        text(output.stdout),
        text(output.stderr),
        output.status.code(),
    )
}

/// A file apart from the tree.
fn path(name: &str) -> PathBuf {
    Path::new(env!("CARGO_TARGET_TMPDIR")).join(name)
}

fn file(name: &str, text: &str) -> String {
    std::fs::write(path(name), text).expect("the file is written");
    path(name).to_str().expect("a name in text").to_string()
}

fn propose(claim: [&str; 4], out: &Path) -> (String, Option<i32>) {
    let solver = concat!("sh ", env!("CARGO_MANIFEST_DIR"), "/tests/fake_solver.sh");
    let out = out.to_str().expect("a name in text");
    let options = ["--solver", solver, "--out", out];
    let words = [&["propose"], &claim[..], &options].concat();
    let (text, _, status) = printed(&words);
    (text, status)
}

/// The stand-in leaves 1 in the variable, which the routine sets: it becomes 0.
#[test]
fn proposes_the_bench_report() {
    let out = path("proposed");
    let accepted = (ACCEPTED.to_string(), Some(0));
    assert_eq!(propose([ROUTINE, "0", "0", "-"], &out), accepted);
    assert_eq!(std::fs::read(&out).expect("a report"), REPORT);
}

#[test]
fn claims_that_are_not_so_leave_no_report() {
    let out = path("not_proposed");
    let not_so = "not so: inputs 0\ninputs: leftovers 0\n";
    let not_so = (not_so.to_string(), Some(1));
    assert_eq!(propose([ROUTINE, "0", "1", "-"], &out), not_so);
    let refused = ("refused 12 place 0\n".to_string(), Some(1));
    assert_eq!(propose([ROUTINE, "1", "0", "-"], &out), refused);
    // To the stand-in nothing else is satisfiable.
    let no_run = ("no run goes there\n".to_string(), Some(1));
    assert_eq!(propose(["examples/bench.bin", "0", "0", "-"], &out), no_run);
    assert!(!out.exists());
}

/// The step is -1 and the carriage was left at 127, where the array does not
/// reach: of the leftovers that the stand-in gives this one counts, and the other
/// becomes 0. The words of the line are those of the run.
#[test]
fn leftovers_that_break_a_claim_are_told() {
    const ROUTINE: &str = "examples/last-pick/routine.bin";
    let out = path("last_pick");
    let (text, status) = propose([ROUTINE, "0", "0", "0"], &out);
    assert!(status == Some(1) && !out.exists());
    let kinds = "inputs: parameters 255, leftovers 127 0\n";
    assert_eq!(text, format!("not so: inputs 255 127 0\n{kinds}"));
    let words = text.lines().next().expect("a line");
    let words = words.strip_prefix("not so: inputs ").expect("the words");
    let words: Vec<&str> = words.split(' ').collect();
    let (run, _, status) = printed(&[&["run", ROUTINE], &words[..]].concat());
    let outcome = "stopped access 0 side above index 126\nvalues [255, 126, 0]\ntrail [0]\n";
    assert_eq!((run, status), (format!("{kinds}{outcome}"), Some(0)));
}

#[test]
fn proofs_of_both_kinds_become_the_bench_report() {
    let model = file("model", "s SATISFIABLE\nv 1 -2 0\n");
    for (name, proof) in [
        ("drat", "0\n"),
        ("empty_drat", ""),
        ("longer_drat", "d 1 0\n-1 0\n0\n"),
        ("lrat", "4 0 1 3 0\n"),
        ("longer_lrat", "c\n4 -1 0 3 0\n4 d 3 0\n5 0 2 1 4 0\n"),
    ] {
        let proof = file(name, proof);
        for witness in [["--witness", "0"], ["--model", &model]] {
            let out = path(&format!("{name}{}", witness[0]));
            let out_word = out.to_str().expect("a name in text");
            let claim = ["from-lrat", ROUTINE, "0", "0", "-", &proof];
            let words = [&claim[..], &witness, &["--out", out_word]].concat();
            let (text, errors, status) = printed(&words);
            assert_eq!((errors.as_str(), status), ("", Some(0)));
            assert!(text.starts_with("accepted access 0 side below "));
            let report = std::fs::read(&out).expect("a report");
            let is_bench = text == ACCEPTED && report == REPORT;
            assert!(name.starts_with("longer") || is_bench);
        }
    }
}

#[test]
fn proofs_that_cannot_be_used_are_told() {
    let claim = ["from-lrat", "examples/bench.bin", "0", "0", "-"];
    for (name, text, message) in [
        ("too_short", "", "the proof ends before the empty clause"),
        ("rat", "9 0\n", "proof step 1: this step does not follow"),
        (
            "rat_hints",
            "4 9 0 -1 0\n",
            "proof line 1: this step does not",
        ),
        (
            "no_hint",
            "4 0 1 9 0\n",
            "proof line 1: hint 9 is no clause",
        ),
        ("no_literal", "10 0\n", "proof line 1: 10 is not a literal"),
    ] {
        let proof = file(name, text);
        let words = [&claim[..], &[&proof, "--witness", "255"]].concat();
        let (text, errors, status) = printed(&words);
        assert_eq!((text.as_str(), status), ("", Some(2)));
        assert!(
            errors.starts_with(&format!("{proof}: {message}")),
            "{errors}"
        );
    }
}

/// A witness has a word for each variable, whether that is a parameter or not.
#[test]
fn witnesses_of_other_lengths_are_told() {
    let proof = file("any_proof", "0\n");
    let claim = ["from-lrat", "examples/last-pick/home.bin", "0", "0", "0"];
    for (witness, given) in [("255", 1), ("255,0", 2), ("255,0,0,0", 4)] {
        let words = [&claim[..], &[&proof, "--witness", witness]].concat();
        let (text, errors, status) = printed(&words);
        assert_eq!((text.as_str(), status), ("", Some(2)));
        let message = format!("the witness has {given} words, the routine takes 3: ");
        assert!(errors.starts_with(&message), "{errors}");
    }
}

/// The report of a proof is judged whole: here the witness is too great for the
/// 8 bits of the parameter, or for the one bit of the leftover.
#[test]
fn reports_that_are_refused_are_not_kept() {
    let header = [1, 2, 8, 1, 1, 1, 1, 0];
    let commands = [1, 1, 1, 0, 0, 0, 10, 0, 1, 0, 0];
    let routine = path("one_parameter");
    std::fs::write(&routine, [&header[..], &commands].concat()).expect("the file is written");
    let routine = routine.to_str().expect("a name in text");
    let (proof, out) = (file("empty_clause", "0\n"), path("not_kept"));
    let claim = ["from-lrat", routine, "0", "0", "-", &proof];
    let out_word = ["--out", out.to_str().expect("a name in text")];
    for (witness, line, code) in [
        ("256,0", "refused 10 place 0\n", 1),
        ("255,2", "refused 10 place 1\n", 1),
        ("255,1", ACCEPTED, 0),
    ] {
        let words = [&claim[..], &["--witness", witness], &out_word].concat();
        let (text, _, status) = printed(&words);
        assert_eq!((text.as_str(), status), (line, Some(code)));
        assert_eq!(out.exists(), code == 0);
    }
    std::fs::remove_file(&out).expect("the report is there");
}
