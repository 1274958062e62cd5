//! The commands of README.md, with what they print and their exit status.

mod calling;

use calling::{file, pelletperiod, printed, ROUTINE};

#[test]
fn checks_the_bench_routine() {
    let line = "variables 1 parameters 1 arrays 1 ifs 0 accesses 1 reads 0 first command 7\n";
    assert_eq!(
        printed(&["check", "examples/bench.bin"]),
        (line.to_string(), Some(0))
    );
}

#[test]
fn runs_the_bench_routine() {
    for (word, line) in [
        ("0", "ended\nvalues [0]"),
        ("99", "ended\nvalues [99]"),
        ("100", "stopped access 0 side above index 100\nvalues [100]"),
        (
            "128",
            "stopped access 0 side below index -128\nvalues [128]",
        ),
        ("255", "stopped access 0 side below index -1\nvalues [255]"),
    ] {
        let text = format!("inputs: parameters {word}\n{line}\ntrail []\n");
        assert_eq!(
            printed(&["run", "examples/bench.bin", word]),
            (text, Some(0))
        );
    }
    let hexadecimal = printed(&["run", "examples/bench.bin", "0x80"]);
    assert_eq!(hexadecimal, printed(&["run", "examples/bench.bin", "128"]));
}

/// A routine of a parameter of 3 bits, a variable of 4, a read into it at the
/// parameter's index, a write there, and a read behind it.
const THREE_KINDS: [u8; 21] = [
    1, 2, 3, 4, 1, 1, 8, 0, // One array of 8.
    9, 1, 0, 0, 10, 0, 1, 0, 9, 1, 0, 0, 0,
];

/// The second variable begins with its leftover, keeps it where the run stops at
/// the first read, and then has the words of the reads.
#[test]
fn runs_tell_the_words_by_their_kinds() {
    let routine = file("three_kinds", &THREE_KINDS);
    for (words, text) in [
        (
            ["2", "9", "3", "5"],
            "inputs: parameters 2, leftovers 9, reads 3 5\nended\nvalues [2, 5]\n",
        ),
        (
            ["2", "9", "15", "5"],
            "inputs: parameters 2, leftovers 9, reads 15 5\n\
             stopped access 1 side below index -1\nvalues [2, 15]\n",
        ),
        (
            ["7", "9", "3", "5"],
            "inputs: parameters 7, leftovers 9, reads 3 5\n\
             stopped access 0 side below index -1\nvalues [7, 9]\n",
        ),
    ] {
        let words = [&["run", &routine], &words[..]].concat();
        assert_eq!(printed(&words), (format!("{text}trail []\n"), Some(0)));
    }
}

/// A routine whose variables are set before they are used runs alike from any
/// leftovers, and one that never sets its second variable does not.
#[test]
fn runs_begin_with_leftovers() {
    let run = |name: &str, words: [&str; 3]| {
        let (text, status) = printed(&[&["run", name], &words[..]].concat());
        assert_eq!(status, Some(0));
        let (kinds, rest) = text.split_once('\n').expect("several lines");
        let [parameter, first, second] = words;
        let given = format!("inputs: parameters {parameter}, leftovers {first} {second}");
        assert_eq!(kinds, given);
        rest.to_string()
    };
    let below = "stopped access 0 side below index -3\nvalues [253, 253, 0]\ntrail [0]\n";
    let ended = "ended\nvalues [253, 7, 0]\ntrail [0]\n";
    for (leftovers, text) in [
        (["0", "0"], below),
        (["0", "9"], below),
        (["10", "9"], ended),
    ] {
        let [first, second] = leftovers;
        let words = ["253", first, second];
        assert_eq!(run("examples/last-pick/routine.bin", words), text);
        assert_eq!(run("examples/last-pick/home.bin", words), below);
    }
}

#[test]
fn tells_refusals_by_number_and_place() {
    assert_eq!(
        printed(&["run", "examples/bench.bin"]),
        ("refused 9 place 0\n".to_string(), Some(1))
    );
    assert_eq!(
        printed(&["run", "examples/bench.bin", "256"]),
        ("refused 10 place 0\n".to_string(), Some(1))
    );
    assert_eq!(
        printed(&["check", "host/Cargo.toml"]),
        ("refused 2 place 0\n".to_string(), Some(1))
    );
    // One parameter and two leftovers of 8 bits each.
    for (words, line) in [
        (&["253"][..], "refused 9 place 1\n"),
        (&["253", "0"], "refused 9 place 2\n"),
        (&["253", "0", "0", "0"], "refused 9 place 4\n"),
        (&["256", "256", "0"], "refused 10 place 0\n"),
        (&["253", "256", "256"], "refused 10 place 1\n"),
        (&["253", "0", "256"], "refused 10 place 2\n"),
    ] {
        let words = [&["run", "examples/last-pick/routine.bin"], words].concat();
        assert_eq!(printed(&words), (line.to_string(), Some(1)));
    }
    // The reads' words come behind both variables'.
    let routine = file("three_kinds_refused", &THREE_KINDS);
    let words = ["run", &routine, "2", "9", "3", "16"];
    let refused = ("refused 10 place 3\n".to_string(), Some(1));
    assert_eq!(printed(&words), refused);
}

#[test]
fn translates_the_bench_routine() {
    // The top bit of the parameter is variable 9: not below.
    let clauses = "c clauses 3 words 6 variables 9\n\
                   c parameter 0, lowest bit first: 2 3 4 5 6 7 8 9\n\
                   c comes to access 0: 1\nc index below: 9\n\
                   p cnf 9 3\n1 0\n1 0\n-9 0\n";
    for none in ["-", ""] {
        assert_eq!(
            printed(&["translate", "examples/bench.bin", "0", "0", none]),
            (clauses.to_string(), Some(0))
        );
    }
    let (above, status) = printed(&["translate", "examples/bench.bin", "0", "1", "-"]);
    let lines: Vec<&str> = above.lines().collect();
    assert_eq!(status, Some(0));
    assert_eq!(lines[0], "c clauses 115 words 454 variables 33");
    assert_eq!(lines[3..5], ["c index above: 33", "p cnf 33 115"]);
    // The first gate is XOR(bit 0, -bit 0 of 100), which is true.
    assert_eq!(lines[5..8], ["1 0", "-10 2 1 0", "-10 -2 -1 0"]);
    assert_eq!(lines[118..], ["1 0", "-33 0"]);
    assert_eq!(lines.len(), 5 + 115);
}

/// The bits of both variables come first, then an AND for the first index inside
/// and one for the arrival behind it, and then the first read's bits. The index of
/// 3 bits is always below the size, so nothing is made for above.
#[test]
fn comments_name_every_input() {
    let routine = file("three_kinds_named", &THREE_KINDS);
    let clauses = "c clauses 9 words 26 variables 14\n\
                   c parameter 0, lowest bit first: 2 3 4\n\
                   c leftover 1, lowest bit first: 5 6 7 8\n\
                   c read 0, lowest bit first: 11 12 13 14\n\
                   c read 1: no bits, it does not stand before the access\n\
                   c comes to access 1: 10\nc index below: 14\n\
                   p cnf 14 9\n1 0\n\
                   -9 -4 0\n-9 1 0\n9 4 -1 0\n\
                   -10 1 0\n-10 9 0\n10 -1 -9 0\n\
                   10 0\n-14 0\n";
    assert_eq!(
        printed(&["translate", &routine, "1", "0", "-"]),
        (clauses.to_string(), Some(0))
    );
    // The only variable is no parameter, and is set to 1: the index is below.
    let clauses = "c clauses 3 words 6 variables 2\n\
                   c leftover 0, lowest bit first: 2\n\
                   c comes to access 0: 1\nc index below: 1\n\
                   p cnf 2 3\n1 0\n1 0\n-1 0\n";
    assert_eq!(
        printed(&["translate", ROUTINE, "0", "0", "-"]),
        (clauses.to_string(), Some(0))
    );
}

#[test]
fn tells_refusals_of_claims() {
    for (claim, line) in [
        (["host/Cargo.toml", "0", "0", "-"], "refused 2 place 0\n"),
        (
            ["examples/bench.bin", "0", "0", "2"],
            "refused 11 place 1\n",
        ),
        (
            ["examples/bench.bin", "1", "0", "-"],
            "refused 12 place 0\n",
        ),
        (
            ["examples/bench.bin", "0", "2", "-"],
            "refused 12 place 1\n",
        ),
    ] {
        for command in ["translate", "space"] {
            assert_eq!(
                printed(&[&[command], &claim[..]].concat()),
                (line.to_string(), Some(1))
            );
        }
    }
}

/// Command lines that cannot be carried out.
const BAD_USAGE: &str = "
check
check no-such-file
run examples/bench.bin x
translate examples/bench.bin 0 0
translate examples/bench.bin 256 0 -
translate examples/bench.bin 0 0 x
space
space examples/bench.bin 0 0
space examples/bench.bin 0 0 - -
space examples/bench.bin 0 256 -
space examples/bench.bin 0 0 x
space no-such-file 0 0 -
judge
judge examples/bench.bin
judge no-such-file examples/bench/report.bin
judge examples/bench/routine.bin no-such-file
judge examples/bench/routine.bin examples/bench/report.bin no-such-file
propose examples/bench/routine.bin 0 0
propose examples/bench/routine.bin 0 0 - --solver no-such-solver
propose examples/bench/routine.bin 0 0 - --solver false
propose examples/bench/routine.bin 0 0 - --seconds x
propose examples/bench/routine.bin 0 0 - --out
propose examples/bench/routine.bin 0 0 - --other x
from-lrat examples/bench/routine.bin 0 0 - host/Cargo.toml
from-lrat examples/bench/routine.bin 0 0 - no-such-file --witness 0
from-lrat examples/bench/routine.bin 0 0 - host/Cargo.toml --witness 0
from-lrat examples/bench/routine.bin 0 0 - host/Cargo.toml --witness 0,0
from-lrat examples/bench/routine.bin 0 0 - host/Cargo.toml --witness -
from-lrat examples/bench/routine.bin 0 0 - host/Cargo.toml --model host/Cargo.toml
no-such-command";

#[test]
fn bad_usage_is_2() {
    for line in BAD_USAGE.lines() {
        let words: Vec<&str> = line.split_ascii_whitespace().collect();
        let output = pelletperiod(&words);
        assert_eq!(output.status.code(), Some(2), "{line}");
        assert!(output.stdout.is_empty() && !output.stderr.is_empty());
    }
}

const COMMANDS: [&str; 7] = [
    "check",
    "run",
    "translate",
    "space",
    "judge",
    "propose",
    "from-lrat",
];

#[test]
fn says_how_it_is_used() {
    for command in COMMANDS {
        let usage = format!("usage: pelletperiod {command} ");
        let (text, status) = printed(&[command, "--help"]);
        assert!(text.starts_with(&usage) && status == Some(0));
        assert!(printed(&["--help"]).0.contains(&format!("\n{command} ")));
    }
}
