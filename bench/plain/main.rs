//! A plain engine, which the engine is measured against (`bench/plain.sh`): the same rules of enqueue, start and end
//! over the same generated input, by hash maps and a heap. It keeps no store, tells no reply but the last summary,
//! runs on one thread, and checks no more than what the generated commands call for.
//!
//! `plain SEED GROUPS RUNS` runs the commands of the seed so many times, each time on an engine of its own, and
//! prints the summary of the last run.

mod commands;
mod engine;
mod generator;
mod workers;

use engine::Engine;
use generator::generate;
use std::env;
use std::process::ExitCode;

/// The numbers of the command line: the seed, the groups and the runs.
fn numbers() -> Option<(u64, u64, u64)> {
    let words: Vec<String> = env::args().skip(1).collect();
    let [seed, groups, runs] = words.as_slice() else {
        return None;
    };
    Some((seed.parse().ok()?, groups.parse().ok()?, runs.parse().ok()?))
}

/// Runs the commands of a seed, and tells the last line of what is written.
fn last_line(seed: u64, groups: u64) -> Option<String> {
    let mut engine = Engine::new();
    let mut last = None;
    for (place, command) in generate(seed, groups).into_iter().enumerate() {
        let told = engine.execute(place + 1, command);
        engine.run_until_quiet();
        last = told.or(last);
    }
    last
}

fn main() -> ExitCode {
    let Some((seed, groups, runs)) = numbers() else {
        eprintln!("usage: plain SEED GROUPS RUNS");
        return ExitCode::from(2);
    };
    let mut last = None;
    for _ in 0..runs {
        last = last_line(seed, groups);
    }
    if let Some(line) = last {
        println!("{line}");
    }
    ExitCode::SUCCESS
}
