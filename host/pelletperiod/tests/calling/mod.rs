//! How the tests of the command line call the program.

use std::path::Path;
use std::process::{Command, Output};

/// The routine of document 01's second bench.
pub const ROUTINE: &str = "examples/bench/routine.bin";

pub fn pelletperiod(words: &[&str]) -> Output {
    Command::new(env!("CARGO_BIN_EXE_pelletperiod"))
        .args(words)
        .current_dir(concat!(env!("CARGO_MANIFEST_DIR"), "/../.."))
        .output()
        .expect("the program starts")
}

pub fn printed(words: &[&str]) -> (String, Option<i32>) {
    let output = pelletperiod(words);
    (
        String::from_utf8(output.stdout).expect("it prints text"),
        output.status.code(),
    )
}

/// Puts bytes into a file of this name, apart from the tree.
pub fn file(name: &str, bytes: &[u8]) -> String {
    let path = Path::new(env!("CARGO_TARGET_TMPDIR")).join(name);
    std::fs::write(&path, bytes).expect("the file is written");
    path.to_str().expect("a name in text").to_string()
}
