//! The times: both versions on the same input in turn, many times in one process, and the medians of that.

use crate::scenes::{ACCESS, SIZES, Scene, TREE, access, full_roll};
use crate::versions::{Label, Version, same_resave, same_run};
use std::hint::black_box;
use std::time::Instant;

/// How often each version is timed on an input.
const TURNS: usize = 41;

/// How many runs are timed together where one is short.
const TOGETHER: usize = 100;

/// Nanoseconds of the ordinary and of the proved version.
#[derive(Clone, Copy)]
struct Pair {
    ordinary: f64,
    proved: f64,
}

impl Pair {
    /// How many times as fast the proved version is.
    fn ratio(self) -> f64 {
        self.ordinary / self.proved
    }

    fn map(self, other: Pair, f: impl Fn(f64, f64) -> f64) -> Pair {
        Pair { ordinary: f(self.ordinary, other.ordinary), proved: f(self.proved, other.proved) }
    }
}

fn nanoseconds(work: &mut dyn FnMut()) -> f64 {
    let start = Instant::now();
    work();
    start.elapsed().as_nanos() as f64
}

fn median(mut times: Vec<f64>) -> f64 {
    times.sort_by(f64::total_cmp);
    times[times.len() / 2]
}

/// The medians of several pieces of work, which take turns, and take turns at being first.
fn medians<const N: usize>(work: [&mut dyn FnMut(); N]) -> [f64; N] {
    let mut times = [const { Vec::new() }; N];
    for turn in 0..TURNS {
        for place in 0..N {
            let one = (turn + place) % N;
            times[one].push(nanoseconds(work[one]));
        }
    }
    times.map(median)
}

/// Runs a version so many times.
fn runs(version: Version, roll: &[u8], calls: &[u8], answers: &mut [u8], together: usize) {
    for _ in 0..together {
        black_box((version.run)(black_box(roll), black_box(calls), black_box(&mut *answers)));
    }
}

fn resaves(version: Version, roll: &[u8], saved: &mut [u8], together: usize) {
    for _ in 0..together {
        black_box((version.resave)(black_box(roll), black_box(&mut *saved)));
    }
}

/// The time of a run, of so many together.
fn run_time(label: Label, roll: &[u8], calls: &[u8], together: usize) -> Pair {
    let (mut a, mut b) = (vec![0; calls.len() / 2], vec![0; calls.len() / 2]);
    let [ordinary, proved] =
        medians([&mut || runs(label.plain(), roll, calls, &mut a, together), &mut || runs(label.proved(), roll, calls, &mut b, together)]);
    Pair { ordinary: ordinary / together as f64, proved: proved / together as f64 }
}

/// The times of a load and of a save. A save is what a resave takes more than a load.
fn roll_times(label: Label, roll: &[u8]) -> (Pair, Pair) {
    let (mut a, mut b) = (vec![0; roll.len()], vec![0; roll.len()]);
    let (ordinary, proved) = (label.plain(), label.proved());
    let times = medians([
        &mut || runs(ordinary, roll, &[], &mut [], TOGETHER),
        &mut || runs(proved, roll, &[], &mut [], TOGETHER),
        &mut || resaves(ordinary, roll, &mut a, TOGETHER),
        &mut || resaves(proved, roll, &mut b, TOGETHER),
    ]);
    let [ordinary_load, proved_load, ordinary_both, proved_both] = times.map(|time| time / TOGETHER as f64);
    let load = Pair { ordinary: ordinary_load, proved: proved_load };
    (load, Pair { ordinary: ordinary_both - ordinary_load, proved: proved_both - proved_load })
}

/// Both versions answer all of a scene alike, and what is timed as it is meant.
fn check(label: Label, scene: &Scene) {
    let (report, answers) = same_run(label, &scene.roll, &scene.all.bytes, scene.all.bytes.len() / 2);
    assert_eq!((report.number, report.written), (0, scene.all.calls), "a timed stream is answered to its end");
    let timed = &answers[scene.before.calls..];
    assert!(timed.iter().all(|&answer| answer == scene.answer), "every timed call is answered {}: {:?}", scene.answer, &timed[..2]);
}

/// The time of one decision: that of the whole stream without that of the load and of the calls before.
fn decision_time(label: Label, scene: &Scene) -> Pair {
    check(label, scene);
    let all = run_time(label, &scene.roll, &scene.all.bytes, 1);
    let before = run_time(label, &scene.roll, &scene.before.bytes, TOGETHER);
    let count = (scene.all.calls - scene.before.calls) as f64;
    all.map(before, |all, before| (all - before) / count)
}

fn print_row(name: &str, times: &[Pair]) {
    print!("| {name:<50} |");
    for pair in times {
        print!(" {:>9.1} {:>9.1} {:>6.2} |", pair.ordinary, pair.proved, pair.ratio());
    }
    let (first, last) = (times[0], times[times.len() - 1]);
    println!(
        " {:>6.2} {:>6.2} | {:>7.2} {:>7.2} |",
        last.ordinary / first.ordinary,
        last.proved / first.proved,
        1e3 / last.ordinary,
        1e3 / last.proved
    );
}

fn print_head(label: Label) {
    println!();
    println!("Under the {}. Times in nanoseconds; ratio: how many times as fast the proved version is; growth from 4 to 64 objects.", label.name());
    print!("| {:<50} |", "");
    for size in SIZES {
        print!(" {:>26} |", format!("{size} objects"));
    }
    println!(" {:>13} | {:>15} |", "growth", "million/s at 64");
    print!("| {:<50} |", "");
    for _ in SIZES {
        print!(" {:>9} {:>9} {:>6} |", "ordinary", "proved", "ratio");
    }
    println!(" {:>6} {:>6} | {:>7} {:>7} |", "ord.", "proved", "ord.", "proved");
}

/// Load and save of a full roll.
fn print_rolls(label: Label, chain: bool) {
    let shape = if chain { "chain" } else { "flat" };
    let (mut loads, mut saves) = (Vec::new(), Vec::new());
    for size in SIZES {
        let roll = full_roll(label, size, chain);
        let (report, saved) = same_resave(label, &roll, roll.len());
        assert_eq!((report.number, saved == roll), (0, true), "a full roll is taken, and saved as it was");
        same_resave(label, &roll, roll.len() - 1);
        same_run(label, &roll, &[], 0);
        let (load, save) = roll_times(label, &roll);
        loads.push(load);
        saves.push(save);
    }
    print_row(&format!("load of a full roll, {shape}"), &loads);
    print_row(&format!("save of a full roll, {shape}"), &saves);
}

pub fn print_all() {
    for label in Label::BOTH {
        print_head(label);
        for (row, (name, ..)) in ACCESS.iter().enumerate() {
            print_row(name, &SIZES.map(|size| decision_time(label, &access(label, size, row))));
        }
        for (name, scene) in TREE {
            print_row(name, &SIZES.map(|size| decision_time(label, &scene(label, size))));
        }
        print_rolls(label, false);
        print_rolls(label, true);
    }
}

fn scene_named(label: Label, objects: u8, name: &str) -> Option<Scene> {
    let of_access = ACCESS.iter().position(|row| row.0 == name).map(|row| access(label, objects, row));
    of_access.or_else(|| TREE.iter().find(|row| row.0 == name).map(|row| row.1(label, objects)))
}

/// One version alone, for a profiler: `ordinary` or `proved`, `house` or `old`, the number of objects, how often, and the name of a row.
pub fn run_only(words: &[String]) {
    let [version, label, objects, times, name] = words else {
        panic!("five words are wanted: the version, the label, the objects, how often, and the row");
    };
    let label = if label == "old" { Label::Old } else { Label::House };
    let version = if version == "ordinary" { label.plain() } else { label.proved() };
    let objects = objects.parse().expect("a number of objects");
    let times: usize = times.parse().expect("a number of times");
    match name.as_str() {
        "load, flat" | "load, chain" | "save, flat" | "save, chain" => {
            let roll = full_roll(label, objects, name.ends_with("chain"));
            let mut saved = vec![0; roll.len()];
            for _ in 0..times {
                match name.starts_with("load") {
                    true => black_box((version.run)(&roll, &[], &mut [])),
                    false => black_box((version.resave)(&roll, &mut saved)),
                };
            }
        }
        _ => {
            let scene = scene_named(label, objects, name).expect("the name of a row");
            let mut answers = vec![0; scene.all.bytes.len() / 2];
            for _ in 0..times {
                black_box((version.run)(&scene.roll, &scene.all.bytes, &mut answers));
            }
        }
    }
}
