//! Stored answers, for a program that has neither the Rust nor the model at hand: `rust` a fixed sample of the
//! Rust's, `model` the model's at the limits, from every cursor and of precincts' rectangles. README.md has the
//! format.

mod limits;
mod rectangles;
mod rust;
mod sample;
mod steps;
mod traces;

use std::fs;
use std::path::Path;

use crate::arguments::Arguments;

pub fn run(arguments: &mut Arguments) -> Result<(), String> {
    if !cfg!(debug_assertions) {
        return Err("stored answers are made with overflow checks: cargo run --profile checked".into());
    }
    let folder = arguments.word("a folder")?;
    arguments.finish()?;
    let folder = Path::new(&folder);
    write(
        &folder.join("rust"),
        &[
            (rust::SHEET, rust::sheets()?),
            (rust::TILE_BOUNDS, rust::tile_bounds()),
            (rust::ARITHMETIC, rust::arithmetic()),
            (rust::SHEET, rust::sheets_beside_wide()?),
        ],
    )?;
    write(
        &folder.join("model"),
        &[
            (limits::KIND, limits::cases()),
            (steps::KIND, steps::cases()),
            (rectangles::KIND, rectangles::cases()),
            (limits::KIND, limits::cases_beside_wide()),
            (steps::KIND, steps::cases_beside_wide()),
            (limits::KIND, limits::cases_mixed()),
            (steps::KIND, steps::cases_mixed()),
            (traces::KIND, traces::cases()),
        ],
    )
}

/// A file `model` of traces alone, over sheets that are drawn, and an empty `rust` beside it.
pub fn traces(arguments: &mut Arguments) -> Result<(), String> {
    let count = arguments.number("--sheets", 2_000)? as usize;
    let seed = arguments.number("--seed", 1)?;
    let folder = arguments.word("a folder")?;
    arguments.finish()?;
    println!("seed {seed}");
    let folder = Path::new(&folder);
    write(&folder.join("rust"), &[])?;
    write(&folder.join("model"), &[(traces::KIND, traces::cases_drawn(seed, count))])
}

/// A file of cases, kind after kind.
fn write(path: &Path, kinds: &[(u32, Vec<Vec<u8>>)]) -> Result<(), String> {
    let mut file = Vec::new();
    let mut told = Vec::new();
    for (kind, cases) in kinds {
        for payload in cases {
            file.extend(bytes(&[*kind, payload.len() as u32]));
            file.extend(payload);
        }
        told.push(format!("{} of kind {kind}", cases.len()));
    }
    fs::write(path, &file).map_err(|error| format!("{}: {error}", path.display()))?;
    println!("{}: {}, {} bytes", path.display(), told.join(", "), file.len());
    Ok(())
}

fn bytes(words: &[u32]) -> Vec<u8> {
    words.iter().flat_map(|word| word.to_be_bytes()).collect()
}

/// Bytes with zeros after them up to a multiple of four.
fn padded(bytes: &[u8]) -> Vec<u8> {
    let mut padded = bytes.to_vec();
    padded.resize(bytes.len().next_multiple_of(4), 0);
    padded
}

/// So many bytes of a table and a byte after it, with bits of one of them changed.
fn lent_table(table: &[u8], length: usize, place: usize, bits: u8) -> Vec<u8> {
    let mut lent = table.to_vec();
    lent.push(0);
    lent[place] ^= bits;
    lent.truncate(length);
    lent
}
