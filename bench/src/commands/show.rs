//! What the standard (by the model) and the Rust say to one sheet, given in words on standard input.

use std::io::read_to_string;

use oracle::driver;
use oracle::sheet::{bytes_of, Packet};

use crate::arguments::Arguments;
use crate::domain;
use crate::model;

pub fn run(arguments: &mut Arguments) -> Result<(), String> {
    let even_outside = arguments.flag("--rust");
    let once_more = arguments.flag("--again");
    let most_packets = arguments.number("--packets", u64::MAX)?;
    arguments.finish()?;
    let text = read_to_string(std::io::stdin()).map_err(|error| error.to_string())?;
    let bytes = from_words(&text)?;
    let accepted = model::accept(&bytes).map(|(sheet, tile)| {
        let visits = domain::visits(&sheet, &tile);
        let inside = domain::contains(&sheet, &tile);
        println!("{} the domain, {visits} places to look at", if inside { "inside" } else { "outside" });
        inside
    });
    if let Err(number) = accepted {
        println!("refused {number}");
    }
    let Some(answer) = model::read(&bytes).ok().and_then(model::by_the_standard) else {
        return Ok(());
    };
    tell("standard", &answer.packets, &answer.table);
    if accepted == Ok(true) || even_outside {
        let rust = driver::run_to(&answer.sheet, most_packets as usize);
        tell("Rust", &rust.packets, &rust.table);
        println!("Rust: ending {:?}, last message {:?}", rust.ending, rust.message);
    }
    if once_more {
        println!("Rust: called once more after the first 0: {:?}", driver::called_after_0(&answer.sheet));
    }
    Ok(())
}

fn tell(who: &str, packets: &[Packet], table: &[[u32; 4]]) {
    println!("{who}: {} packets {}", packets.len(), in_short(packets));
    println!("{who}: table {}", in_short(table));
}

/// Records one a line (or parted by commas), words parted by blanks; zeros at the end may be left out.
pub fn from_words(text: &str) -> Result<Vec<u8>, String> {
    let mut records = Vec::new();
    for line in text.split(['\n', ',']).map(str::trim).filter(|line| !line.is_empty()) {
        let words: Result<Vec<u32>, _> = line.split_whitespace().map(word).collect();
        let mut words = words?;
        if words.len() > 8 {
            return Err(format!("more than eight words: {line}"));
        }
        words.resize(8, 0);
        records.push(words.try_into().unwrap());
    }
    Ok(bytes_of(&records))
}

/// A number, which may be negative, or T for 4,294,967,295, T-1 and so on.
fn word(text: &str) -> Result<u32, String> {
    let (base, text) = match text.strip_prefix('T') {
        Some(rest) => (u32::MAX as i64, rest),
        None => (0, text),
    };
    let number = if text.is_empty() { Ok(0) } else { text.parse::<i64>() };
    number.map(|number| (base + number) as u32).map_err(|_| format!("no number: {text}"))
}

/// A list, cut after a few.
fn in_short(list: &[[u32; 4]]) -> String {
    let few: Vec<String> = list.iter().take(6).map(|item| format!("{item:?}")).collect();
    few.join(" ") + if list.len() > 6 { " .." } else { "" }
}
