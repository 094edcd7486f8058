//! Where the Rust and document 01 part, shown by running it: each in a child with a time limit.

use std::time::Duration;

use crate::arguments::Arguments;
use crate::child::{self, Ended};
use crate::commands::build;

/// How long a sheet may take.
const LIMIT: Duration = Duration::from_secs(4);

/// A finding's name and its sheet in words; T is 4,294,967,295.
fn sheets() -> Vec<(&'static str, String)> {
    let exponents_15 = |prg: u32, d: u32, resolutions: usize| {
        format!("1 0 0 1 1 1 1 1, 2 {d} {d} {resolutions}, {} 5 {prg}", "3 15 15,".repeat(resolutions))
    };
    let beside = |compno1: u32| {
        let resolutions = "3 15 15,".repeat(18);
        format!("1 0 0 1 1 1 2 1, 2 1 1 1, 3, 2 1 1 18, {resolutions} 4 4 0 0 1 33 {compno1}")
    };
    let onward = |prg: u32| format!("1 T-1 0 T 2 1 1 1, 2 1 1 1, 3 1, 5 {prg}");
    let upward = |prg: u32| format!("1 0 T-1 0 T 1 1 1, 2 1 1 1, 3 1 1, 5 {prg}");
    let crossing = |change: &str| format!("1 0 0 4 1 1 2 1, 2 2 1 1, 3, 2 3 1 1, 3, {change}");
    let ended = "1 0 0 64 32 2 1 1, 2 1 1 2, 3 4 4, 3 5 5, 4 0 0 0 0 2 1";
    let component = "2 128 1 1, 3 15";
    let astray = format!("1 4290772992 0 4290772993 1024 1 2 1, {component}, {component}, 4 2 0 1 1 1 2");
    vec![
        ("a call after the first 0 marks again (P-k)", ended.into()),
        ("a wrapped advance loses packets, order 2", onward(2)),
        ("a wrapped advance loses packets, order 3", onward(3)),
        ("a wrapped advance loses packets, order 4", onward(4)),
        ("the same over resolutions", "1 T-1 0 T 1 1 1 1, 2 1 1 2, 3 1 1, 3 1 1, 5 2".into()),
        ("a wrapped advance never ends, order 2", upward(2)),
        ("a wrapped advance never ends, order 3", upward(3)),
        ("a wrapped advance never ends, order 4", upward(4)),
        ("a wrapped advance lists precincts that are not there, then never ends", astray),
        ("the bit 2^32 of a precinct end is lost", "1 0 0 T 0 1 1 1, 2 1 1 1, 3 15 15, 5 0".into()),
        ("the same with a height", "1 0 0 T 1 1 1 1, 2 1 1 1, 3 15 15, 5 0".into()),
        ("P-j", "1 4294934528 0 T 1 1 1 1, 2 1 1 1, 3 15 15, 5 2".into()),
        ("an end one step before", "1 4294934527 0 4294934528 1 1 1 1, 2 1 1 1, 3 15 15, 5 2".into()),
        ("steps of 2 and 3, order 2", crossing("5 2")),
        ("steps of 2 and 3, order 3", crossing("5 3")),
        ("the same of kind 6, order 2", crossing("6 2 0 0 1 1 2")),
        ("the same of kind 6, order 3", crossing("6 3 0 0 1 1 2")),
        ("a step of 2^32, order 2", exponents_15(2, 2, 17)),
        ("a step of 2^32, order 3", exponents_15(3, 2, 17)),
        ("a step of 2^32, order 4", exponents_15(4, 2, 17)),
        ("a step of 2^32 by its exponents, order 2", exponents_15(2, 1, 18)),
        ("a step of 2^32 by its exponents, order 4", exponents_15(4, 1, 18)),
        ("a step of 2^32 in a component that order 4 does not go by", beside(1)),
        ("the same with the component in range", beside(2)),
    ]
}

pub fn run(arguments: &mut Arguments) -> Result<(), String> {
    arguments.finish()?;
    println!("The Rust's build: {}. T = 4294967295.\n", build());
    for (title, words) in sheets() {
        println!("{title}: {words}");
        match ask(&["show", "--rust", "--again"], &words)? {
            Ended::Answered { output, time } => println!("{output}in {} ms", time.as_millis()),
            Ended::Failed(told) => println!("failed: {told}"),
            Ended::TooLong => {
                println!("still running after {} seconds, stopped; its first packets:", LIMIT.as_secs());
                match ask(&["show", "--rust", "--packets", "3"], &words)? {
                    Ended::Answered { output, .. } => print!("{output}"),
                    _ => println!("none"),
                }
            }
        }
        println!();
    }
    Ok(())
}

fn ask(arguments: &[&str], words: &str) -> Result<Ended, String> {
    child::run(arguments, words, LIMIT)
}
