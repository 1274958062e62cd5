//! The commands of examples/README.md print what stands there, and the routines
//! are those that are written out.

use differential::rng::Rng;
use examples::routines::{
    eight_branches, from_home, generator, last_pick, repeat_groups, sum_of_squares, two_sensors,
};
use oracle::{Outcome, Run, Side};
use std::path::Path;
use std::process::Command;

const ROOT: &str = concat!(env!("CARGO_MANIFEST_DIR"), "/../..");
/// Where the text has the long report, and where the test puts it.
const MADE: &str = "target/long-report";
const APART: &str = concat!(env!("CARGO_TARGET_TMPDIR"), "/long-report");
/// Answers where the text has a solver asked, which a machine need not have.
const SOLVER: &str = concat!("sh ", env!("CARGO_MANIFEST_DIR"), "/tests/fake_solver.sh");

fn in_tree(name: &str) -> Vec<u8> {
    std::fs::read(Path::new(ROOT).join(name)).expect("it is in the tree")
}

/// The files that a word stands for where a shell puts digits for a `?`.
fn expanded(word: &str) -> Vec<String> {
    if !word.contains('?') {
        return vec![word.to_string()];
    }
    let names = (0..10).map(|digit| word.replace('?', &digit.to_string()));
    let is_there = |name: &String| Path::new(ROOT).join(name).exists();
    names.filter(is_there).collect()
}

/// What a command line prints.
fn carry_out(line: &str) -> String {
    let line = line.replace(MADE, APART);
    let words: Vec<String> = line.split_ascii_whitespace().flat_map(expanded).collect();
    let words: Vec<&str> = words.iter().map(String::as_str).collect();
    if let ["long-report", directory] = words[..] {
        let made = examples::write_long_report(Path::new(directory));
        let (steps, place) = made.expect("the files are written");
        return format!("steps {steps} bad place {place}\n");
    }
    assert_eq!(words[0], "pelletperiod");
    let solver: &[&str] = match words[1] {
        "propose" => &["--solver", SOLVER],
        _ => &[],
    };
    let output = Command::new(env!("CARGO_BIN_EXE_pelletperiod"))
        .args(&words[1..])
        .args(solver)
        .current_dir(ROOT)
        .output()
        .expect("the program starts");
    String::from_utf8(output.stdout).expect("it prints text")
}

#[test]
fn commands_print_what_the_text_says() {
    let text = String::from_utf8(in_tree("examples/README.md")).expect("text");
    let mut commands = 0;
    for block in text.split("\n\n") {
        let mut lines = block.lines().filter_map(|line| line.strip_prefix("    "));
        let command = match lines.next().and_then(|line| line.strip_prefix("$ ")) {
            Some(command) => command,
            None => continue,
        };
        let expected: String = lines.map(|line| format!("{line}\n")).collect();
        assert_eq!(carry_out(command), expected, "{command}");
        commands += 1;
    }
    assert_eq!(commands, 14);
}

#[test]
fn routines_are_those_written_out() {
    for (name, routine) in [
        ("two-sensors/routine", two_sensors()),
        ("sum-of-squares/routine", sum_of_squares()),
        ("repeat-groups/routine", repeat_groups()),
        ("last-pick/routine", last_pick()),
        ("last-pick/home", from_home()),
        ("eight-branches/routine", eight_branches()),
    ] {
        assert_eq!(in_tree(&format!("examples/{name}.bin")), routine);
    }
}

fn run(routine: &[u8], inputs: &[u32]) -> Run {
    oracle::run(routine, inputs, 32, 32).expect("an accepted list")
}

/// All but one set what they use: what the last pick left changes nothing.
#[test]
fn only_the_last_pick_counts_on_leftovers() {
    for (routine, counts_on) in [
        (two_sensors(), false),
        (sum_of_squares(), false),
        (repeat_groups(), false),
        (last_pick(), true),
        (from_home(), false),
        (eight_branches(), false),
        (generator(examples::SEED), false),
    ] {
        let parsed = oracle::parse(&routine).expect("a valid routine");
        let parameters = parsed.header.parameters;
        let is_changed = |case: u64| {
            let rng = &mut Rng::for_case(47, case);
            let word = |&width: &u32| rng.word() as u32 >> (32 - width);
            let drawn: Vec<u32> = parsed.input_widths().iter().map(word).collect();
            let mut cleared = drawn.clone();
            cleared[parameters..].fill(0);
            let (first, other) = (run(&routine, &drawn), run(&routine, &cleared));
            (first.outcome, first.trail) != (other.outcome, other.trail)
        };
        assert_eq!((0..1000).any(is_changed), counts_on);
    }
}

/// A rest is a group or more where there are no hooks in a group, and nowhere else.
#[test]
fn only_groups_without_hooks_come_to_the_write() {
    let routine = repeat_groups();
    for count in 0..=u32::from(u8::MAX) {
        for hooks in 0..8 {
            let run = run(&routine, &[count, hooks, 0, 0, 0]);
            assert_eq!(run.outcome == Outcome::Ended, hooks > 0);
        }
    }
}

/// From 0, and from everywhere for a carriage that is brought home, every step
/// back comes to the write below. From elsewhere some come there inside and some
/// above, as the sum of position and step says.
#[test]
fn steps_back_are_below_from_home_alone() {
    let side = |outcome: &Outcome| match outcome {
        Outcome::Ended => None,
        Outcome::Stopped { side, .. } => Some(*side),
    };
    let (kept, home) = (last_pick(), from_home());
    for step in -128..0_i32 {
        for position in -128..128 {
            let inputs = [step & 0xFF, position & 0xFF, 0].map(|word| word as u32);
            let moved = (position + step) as i8;
            let expected = match moved {
                i8::MIN..=-1 => Some(Side::Below),
                0..=99 => None,
                100..=i8::MAX => Some(Side::Above),
            };
            assert_eq!(side(&run(&kept, &inputs).outcome), expected);
            assert_eq!(side(&run(&home, &inputs).outcome), Some(Side::Below));
            assert!(position != 0 || expected == Some(Side::Below));
        }
    }
}

/// The joined report leaves every decision free, and each run goes the way of
/// exactly one of the nine others.
#[test]
fn paths_are_all_of_them() {
    let routine = eight_branches();
    let decisions = |name: &str| {
        let report = in_tree(&format!("examples/eight-branches/{name}.bin"));
        report[2..10].to_vec()
    };
    assert_eq!(decisions("joined"), [2; 8]);
    let paths: Vec<Vec<u8>> = (0..9).map(|k| decisions(&format!("path-{k}"))).collect();
    for word in 0..=u32::from(u16::MAX) {
        let run = run(&routine, &[word, 0, 0]);
        let trail: Vec<u8> = run.trail.iter().map(|arm| arm.byte()).collect();
        let goes = |path: &&Vec<u8>| path.iter().zip(&trail).all(|(&d, &t)| d + t != 1);
        assert_eq!(paths.iter().filter(goes).count(), 1);
    }
}
