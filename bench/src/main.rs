//! The Rust of openjp2 beside our packet walks. See README.md for the commands.

mod arguments;
mod child;
mod commands;
mod compare;
mod domain;
mod generate;
mod model;
#[cfg(feature = "ours")]
mod ours;
mod progress;
mod random;
mod shrink;
mod speed;

use std::process::ExitCode;

use arguments::Arguments;

const USAGE: &str = "\
bench differential [--sheets N] [--bounds N] [--stride K] [--seed S]
bench fuzz [--count N] [--seconds S] [--seed S]
bench bench [--rounds N]
bench instructions
bench slow [--limit SECONDS] [--search N] [--seed S]
bench vectors DIR
bench traces [--sheets N] [--seed S] DIR
bench show [--rust] [--again] [--packets N] < WORDS
bench findings";

fn main() -> ExitCode {
    oracle::fault::keep_quiet();
    let mut words = std::env::args().skip(1);
    let command = words.next().unwrap_or_default();
    let mut arguments = Arguments::new(words.collect());
    let result = match command.as_str() {
        "differential" => commands::differential::run(&mut arguments),
        "bench" => commands::bench::run(&mut arguments),
        "instructions" => commands::instructions::run(&mut arguments),
        "once" => commands::instructions::once(&mut arguments),
        "vectors" => commands::vectors::run(&mut arguments),
        "traces" => commands::vectors::traces(&mut arguments),
        "show" => commands::show::run(&mut arguments),
        "findings" => commands::findings::run(&mut arguments),
        #[cfg(feature = "ours")]
        "fuzz" => commands::fuzz::run(&mut arguments),
        #[cfg(feature = "ours")]
        "slow" => commands::slow::run(&mut arguments),
        #[cfg(feature = "ours")]
        "slow-sheet" => commands::slow::one(&mut arguments),
        #[cfg(not(feature = "ours"))]
        "fuzz" | "slow" => Err("this needs our archive: build with --features ours".into()),
        _ => Err(USAGE.into()),
    };
    match result {
        Ok(()) => ExitCode::SUCCESS,
        Err(message) => {
            eprintln!("{message}");
            ExitCode::FAILURE
        }
    }
}
