//! How fast the library is, beside plain Rust written for speed that does the
//! same work and is compared with it in every round.
//! `cargo run --release --manifest-path host/Cargo.toml -p bench`.

#[cfg(test)]
mod agreement;
mod divisions;
mod fast_check;
mod fast_circuits;
mod fast_clauses;
mod fast_division;
mod fast_header;
mod fast_judge;
mod fast_machine;
mod fast_proof;
mod fast_prove;
mod fast_refusal;
mod fast_run;
mod fast_sink;
mod fast_translate;
mod fast_walk;
mod fast_word;
mod fast_writer;
mod generator;
mod lent;
mod linear;
mod long_routine;
mod race;
mod settled;
mod short_steps;
mod solver_like;
mod table;
mod work_judge;
mod work_prove;
mod work_run;
mod work_space;
mod work_translate;
mod work_zero;

/// What is measured, each by its name.
const PARTS: [(&str, fn()); 7] = [
    ("translate", work_translate::measure),
    ("space", work_space::measure),
    ("judge", work_judge::measure),
    ("prove", work_prove::measure),
    ("run", work_run::measure),
    ("zero", work_zero::measure),
    ("linear", linear::measure),
];

/// Measures the parts that are named, or all of them.
fn main() {
    let wanted: Vec<String> = std::env::args().skip(1).collect();
    println!("The best time of several rounds in which the library and plain Rust take turns.");
    println!("Both give the same answers and leave the same in the buffers.\n");
    table::head();
    for (name, measure) in PARTS {
        if wanted.is_empty() || wanted.iter().any(|word| word == name) {
            measure();
        }
    }
}
