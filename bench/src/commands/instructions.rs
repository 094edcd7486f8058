//! Instructions of one run, counted by callgrind: this program runs itself under valgrind.

use std::process::Command;

use crate::arguments::Arguments;
use crate::speed::{self, EXPONENTS, ORDERS};

/// The counts of `FEW` and `MANY` runs are taken apart, so that starting up falls out.
const FEW: u64 = 1;
const MANY: u64 = 5;

/// Callgrind counts each byte of a `rep stosb` or `rep movsb` as an instruction: so that an array which is cleared counts for
/// what it is, the C library is told to do without.
const NO_REPEATS: &str =
    "glibc.cpu.x86_rep_stosb_threshold=1073741824:glibc.cpu.x86_rep_movsb_threshold=1073741824";

pub fn run(arguments: &mut Arguments) -> Result<(), String> {
    arguments.finish()?;
    println!("| Order | Precincts | Packets | Rust, instructions a packet | ours | ratio |");
    println!("|---|---|---|---|---|---|");
    for (prg, name) in ORDERS.iter().enumerate() {
        for exponent in EXPONENTS {
            let sheet = speed::usual(prg as i32, exponent);
            let packets = speed::rust(&sheet)() as f64;
            let each = |who: &str| count(who, prg, exponent).map(|count| count / packets);
            let rust = each("rust")?;
            let (ours, ratio) = if cfg!(feature = "ours") {
                let ours = each("ours")?;
                (format!("{ours:.1}"), format!("{:.2}", ours / rust))
            } else {
                Default::default()
            };
            println!("| {name} | {} | {packets} | {rust:.1} | {ours} | {ratio} |", 1 << exponent);
        }
    }
    Ok(())
}

/// The instructions of one run.
fn count(who: &str, prg: usize, exponent: u32) -> Result<f64, String> {
    let few = collected(who, prg, exponent, FEW)?;
    let many = collected(who, prg, exponent, MANY)?;
    Ok((many - few) as f64 / (MANY - FEW) as f64)
}

fn collected(who: &str, prg: usize, exponent: u32, runs: u64) -> Result<u64, String> {
    let told = |error: std::io::Error| format!("cannot run valgrind: {error}");
    let output = Command::new("valgrind")
        .env("GLIBC_TUNABLES", NO_REPEATS)
        .args(["--tool=callgrind", "--callgrind-out-file=/dev/null"])
        .arg(std::env::current_exe().map_err(told)?)
        .args(["once", who, &prg.to_string(), &exponent.to_string(), &runs.to_string()])
        .output()
        .map_err(told)?;
    let text = String::from_utf8_lossy(&output.stderr);
    let number = text.lines().find_map(|line| line.split_once("Collected : ")?.1.trim().parse().ok());
    number.ok_or_else(|| format!("valgrind tells no count:\n{text}"))
}

/// The child's part: some runs of one sheet.
pub fn once(arguments: &mut Arguments) -> Result<(), String> {
    let who = arguments.word("rust or ours")?;
    let mut number = |what| arguments.word(what)?.parse::<u32>().map_err(|error| format!("{what}: {error}"));
    let (prg, exponent, runs) = (number("an order")?, number("an exponent")?, number("a count")?);
    let sheet = speed::usual(prg as i32, exponent);
    let mut runners = speed::runners(&sheet);
    let place = if who == "ours" { 1 } else { 0 };
    let runner = runners.get_mut(place).ok_or("ours is not linked")?;
    for _ in 0..runs {
        runner();
    }
    Ok(())
}
