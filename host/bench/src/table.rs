//! What is printed.

use crate::race::Times;

const NAME: usize = 48;

pub fn head() {
    println!(
        "{:NAME$}{:>12}{:>12}{:>8}",
        "what", "library", "plain", "ratio"
    );
}

/// A kind of work and what it took.
pub fn row(name: &str, calls: usize, times: Times) {
    let each = |time: std::time::Duration| milliseconds(time.as_secs_f64() / calls as f64);
    println!(
        "{name:NAME$}{:>12}{:>12}{:>8.2}",
        each(times.library),
        each(times.plain),
        times.ratio()
    );
}

fn milliseconds(seconds: f64) -> String {
    match seconds {
        long if long >= 1e-3 => format!("{:.2} ms", long * 1e3),
        short => format!("{:.2} us", short * 1e6),
    }
}

/// How much of something was done in a second.
pub fn rate(unit: &str, amount: usize, times: Times) {
    let millions = |time: std::time::Duration| amount as f64 / time.as_secs_f64() / 1e6;
    println!(
        "  {:width$}{:>10.1} M{:>10.1} M",
        format!("{unit} a second"),
        millions(times.library),
        millions(times.plain),
        width = NAME - 2
    );
}
