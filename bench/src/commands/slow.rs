//! Accepted sheets with few packets and a huge grid: ours must not keep anyone waiting.

mod search;

use std::time::Duration;

use crate::arguments::Arguments;
use crate::child::{self, Ended};
use crate::commands::show::from_words;
use crate::ours;

/// A sheet in words (T is 4,294,967,295), and its number of packets.
struct Slow {
    name: &'static str,
    words: String,
    packets: usize,
}

fn sheets() -> Vec<Slow> {
    let slow = |name, words: String, packets| Slow { name, words, packets };
    let row = |prg: u32| format!("1 0 1 T 2 1 1 1, 2 1 255 1, 3 0 0, 5 {prg}");
    let mixed = |prg: u32| format!("1 0 1 T 2 1 2 1, 2 2 255 1, 3 0 0, 2 3 255 1, 3 0 0, 6 {prg} 0 0 1 1 2");
    let empty = |prg: u32| {
        let component = "2 1 1 33,".to_string() + &"3 0 0,".repeat(33);
        let range = format!("4 {prg} 0 0 65535 33 16,");
        "1 0 0 0 0 65535 16 32,".to_string() + &component.repeat(16) + &range.repeat(32)
    };
    let deep = "1 0 1 T 2 1 16 32,".to_string()
        + &("2 1 2 31,".to_string() + &"3 0 0,".repeat(31)).repeat(16)
        + &"4 3 0 0 1 31 16,".repeat(32);
    let crossed = "1 0 1 T 64 1 2 32, 2 1 255 1, 3 0 15, 2 255 1 1, 3 15 0,".to_string()
        + &"4 2 0 0 1 33 2,".repeat(32);
    let square = "1 0 0 32768 32768 1 2 1, 2 1 1 1, 3 0 15, 2 1 1 1, 3 15 0, 5 3".to_string();
    vec![
        slow("a row of points, order 2", row(2), 0),
        slow("a row of points, order 3", row(3), 0),
        slow("a row of points, order 4", row(4), 0),
        slow("a row of points, steps of 2 and 3, kind 6, order 2", mixed(2), 0),
        slow("a row of points, steps of 2 and 3, kind 6, order 3", mixed(3), 0),
        slow("the same row, 16 components of 31 resolutions, 32 times", deep, 0),
        slow("columns beside rows, 32 times", crossed, 32_445),
        slow("columns beside rows in a square", square, 65_536),
        slow("an empty tile of 65,535 layers, order 0, 32 times", empty(0), 0),
        slow("an empty tile of 65,535 layers, order 1, 32 times", empty(1), 0),
    ]
}

pub fn run(arguments: &mut Arguments) -> Result<(), String> {
    let limit = Duration::from_secs(arguments.number("--limit", 10)?);
    let count = arguments.number("--search", 0)?;
    let seed = arguments.number("--seed", 1)?;
    arguments.finish()?;
    known(limit)?;
    if count > 0 {
        search::run(count, seed, limit)?;
    }
    Ok(())
}

/// The sheets that are known to be slow for a walk by strides, each in a child.
fn known(limit: Duration) -> Result<(), String> {
    println!("| Sheet | Packets | Seconds |\n|---|---|---|");
    let mut failures = 0;
    for (place, sheet) in sheets().iter().enumerate() {
        let told = match child::run(&["slow-sheet", &place.to_string()], "", limit)? {
            Ended::Answered { time, .. } => format!("{:.3}", time.as_secs_f64()),
            Ended::Failed(told) => {
                failures += 1;
                format!("FAILED: {}", told.trim())
            }
            Ended::TooLong => {
                failures += 1;
                format!("FAILED: more than {}", limit.as_secs())
            }
        };
        println!("| {} | {} | {told} |", sheet.name, sheet.packets);
    }
    if failures > 0 {
        return Err(format!("{failures} sheets failed"));
    }
    Ok(())
}

/// The child's part: one sheet through our whole run.
pub fn one(arguments: &mut Arguments) -> Result<(), String> {
    let place = arguments.word("a sheet's place")?.parse::<usize>().map_err(|error| error.to_string())?;
    let sheets = sheets();
    let sheet = sheets.get(place).ok_or("no such sheet")?;
    let mut table = vec![0; 16 * 16 * 33];
    let mut marks = vec![0; 65_536];
    let mut output = vec![0; 16 * 65_536];
    let bytes = from_words(&sheet.words)?;
    match ours::whole_run(&bytes, &mut table, &mut marks, &mut output) {
        Ok(count) if count == sheet.packets => Ok(()),
        answer => Err(format!("answered {answer:?}, not {}", sheet.packets)),
    }
}
