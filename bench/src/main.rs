//! Compares the proved guard with an ordinary Rust version of it: first every answer, then the time.

mod inputs;
mod plain;
mod proved;
mod random;
mod scenes;
mod timing;
mod versions;

/// How a run or a resave went: how many bytes were written, the number of the end (0 where nothing stopped it), and where a fault has them, its byte
/// place and the first clause of soundness that fails, counted from 1.
#[repr(C)]
#[derive(Clone, Copy, Debug, PartialEq, Eq)]
pub struct Report {
    pub written: usize,
    pub place: usize,
    pub number: u8,
    pub clause: u8,
}

/// How many random rolls are compared at each label.
const RANDOM_ROLLS: usize = 5_000;

fn main() {
    let mut arguments = std::env::args().skip(1);
    match arguments.next().as_deref() {
        None => {
            random::compare(RANDOM_ROLLS);
            timing::print_all();
        }
        // For a profiler: one version on one row, so many times.
        Some("only") => {
            let words: Vec<String> = arguments.collect();
            timing::run_only(&words);
        }
        Some("compare") => {
            let count = arguments.next().and_then(|word| word.parse().ok()).unwrap_or(RANDOM_ROLLS);
            random::compare(count);
        }
        Some(other) => {
            eprintln!("not known: {other}; use no argument, `compare COUNT`, or `only VERSION LABEL ROW TIMES`");
            std::process::exit(2);
        }
    }
}
