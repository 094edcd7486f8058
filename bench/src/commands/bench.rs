//! Speed beside the Rust, in one process, by turns, the best of many.

use std::hint::black_box;
use std::time::{Duration, Instant};

use oracle::bounds::{Asker, Grid};

use crate::arguments::Arguments;
use crate::commands::build;
use crate::generate;
use crate::model;
use crate::speed::{self, Runner, EXPONENTS, ORDERS};

/// A sample lasts at least this long.
const SAMPLE: Duration = Duration::from_micros(500);

pub fn run(arguments: &mut Arguments) -> Result<(), String> {
    let rounds = arguments.number("--rounds", 40)?;
    arguments.finish()?;
    println!("Whole run beside the Rust's create, walk, destroy ({} build).", build());
    println!("Tile 1024 by 1024, 4:2:0, six resolutions, three layers; the best of {rounds} by turns.\n");
    println!("| Order | Precincts | Packets | Rust, ns a packet | ours, ns a packet | ratio |");
    println!("|---|---|---|---|---|---|");
    for (prg, name) in ORDERS.iter().enumerate() {
        for exponent in EXPONENTS {
            let sheet = speed::usual(prg as i32, exponent);
            let (count, times) = measure(speed::runners(&sheet), rounds)?;
            let each = times.iter().map(|time| time / count as f64).collect::<Vec<_>>();
            println!("| {name} | {} | {count} | {} |", 1 << exponent, columns(&each));
        }
    }
    println!("\n| What | Packets | Rust, ns | ours, ns | ratio |\n|---|---|---|---|---|");
    for (what, sheet) in speed::grown() {
        let (count, times) = measure(speed::runners(&sheet), rounds)?;
        println!("| {what} | {count} | {} |", columns(&times));
    }
    let (count, times) = measure(bounds_runners(), rounds)?;
    let each = times.iter().map(|time| time / count as f64).collect::<Vec<_>>();
    println!("| tile bounds, one of {count} | | {} |", columns(&each));
    #[cfg(stepped)]
    steps(rounds)?;
    Ok(())
}

/// Single steps, each with its test of soundness, beside the Rust's `opj_pi_next`: on the usual sheet, of 18 resolutions. Setup, or create and
/// destroy, is among the time.
#[cfg(stepped)]
fn steps(rounds: u64) -> Result<(), String> {
    println!("\n| Order | Steps | Rust, ns a step | ours, ns a step | ratio |\n|---|---|---|---|---|");
    for (prg, name) in ORDERS.iter().enumerate() {
        let sheet = speed::usual(prg as i32, 6);
        let (count, times) = measure(vec![speed::rust(&sheet), speed::stepped(&sheet)], rounds)?;
        // a progression ends with a step that finds nothing
        let steps = count + sheet.progressions.count();
        let each = times.iter().map(|time| time / steps as f64).collect::<Vec<_>>();
        println!("| {name} | {steps} | {} |", columns(&each));
    }
    Ok(())
}

/// The best time of each in nanoseconds, and what they all answer.
fn measure(mut runners: Vec<Runner>, rounds: u64) -> Result<(usize, Vec<f64>), String> {
    let counts: Vec<usize> = runners.iter_mut().map(|runner| runner()).collect();
    if counts.iter().any(|&count| count != counts[0]) {
        return Err(format!("not the same number of packets: {counts:?}"));
    }
    let runs: Vec<u32> = runners.iter_mut().map(runs_in_a_sample).collect();
    let mut best = vec![f64::INFINITY; runners.len()];
    for _ in 0..rounds {
        for ((runner, &runs), best) in runners.iter_mut().zip(&runs).zip(&mut best) {
            let time = time(runner, runs).as_nanos() as f64 / runs as f64;
            *best = best.min(time);
        }
    }
    Ok((counts[0], best))
}

fn runs_in_a_sample(runner: &mut Runner) -> u32 {
    let mut runs = 1;
    while time(runner, runs) < SAMPLE {
        runs *= 2;
    }
    runs
}

fn time(runner: &mut Runner, runs: u32) -> Duration {
    let start = Instant::now();
    for _ in 0..runs {
        black_box(runner());
    }
    start.elapsed()
}

/// The Rust's number, ours and their ratio; without ours, the Rust's alone.
fn columns(numbers: &[f64]) -> String {
    match *numbers {
        [rust, ours] => format!("{rust:.1} | {ours:.1} | {:.2}", ours / rust),
        [rust] => format!("{rust:.1} | |"),
        _ => unreachable!(),
    }
}

/// The bounds of a thousand tiles.
fn bounds_runners() -> Vec<Runner> {
    let taken = |grid: &Grid| model::bounds::tile_bounds(grid).is_ok();
    let grids: Vec<Grid> = (0..).map(|place| generate::grid(1, place)).filter(taken).take(1000).collect();
    let mut asker = Asker::default();
    vec![
        Box::new({
            let grids = grids.clone();
            move || {
                grids.iter().for_each(|grid| {
                    black_box(asker.ask(grid));
                });
                grids.len()
            }
        }),
        #[cfg(feature = "ours")]
        Box::new(move || {
            let mut output = [0; 16];
            grids.iter().filter(|grid| crate::ours::tile_bounds(grid, black_box(&mut output)).is_ok()).count()
        }),
    ]
}
