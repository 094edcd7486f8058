//! Random and mutated bytes through our exports: every answer must be the model's, nothing else may change.

use std::time::{Duration, Instant};

use oracle::sheet::in_words;

use crate::arguments::Arguments;
use crate::compare::{is_sparse, lent};
use crate::generate;
use crate::model::{self, Lent, Points};
use crate::progress::Progress;
use crate::random::Random;
use crate::shrink;

pub fn run(arguments: &mut Arguments) -> Result<(), String> {
    let count = arguments.number("--count", 200_000)?;
    let limit = Duration::from_secs(arguments.number("--seconds", 60)?);
    let seed = arguments.number("--seed", 1)?;
    arguments.finish()?;
    println!("seed {seed}, at most {count} inputs or {} seconds", limit.as_secs());
    let start = Instant::now();
    let mut progress = Progress::new("fuzz", count);
    let mut accepted = 0;
    let mut done = 0;
    while done < count && start.elapsed() < limit {
        let random = &mut Random::at(!seed, done);
        let bytes = input(random, seed, done);
        let lengths = lengths(random);
        accepted += model::read(&bytes).is_ok() as u64;
        if let Err(told) = one(&bytes, lengths) {
            let smallest = shrink::smallest(bytes, |bytes| one(bytes, lengths).is_err());
            return Err(format!("\nDIFFERENCE at {done}: {told}\n\n{}", in_words(&smallest)));
        }
        let grid = generate::grid(!seed, done);
        lent::grid(&grid, &model::bounds::tile_bounds(&grid))
            .map_err(|told| format!("\nDIFFERENCE at {grid:?}: {told}"))?;
        done += 1;
        progress.at(done);
    }
    progress.done(done);
    println!("{done} inputs, {accepted} of them sheets in range; no difference");
    Ok(())
}

/// Bytes with the lengths that the sheet needs, with lengths around them, and with any lengths.
fn one(bytes: &[u8], lengths: Lent) -> Result<(), String> {
    if is_sparse(bytes) {
        return Ok(());
    }
    let expected = model::run(bytes, Points::Candidates);
    lent::sheet(bytes, &expected)?;
    lent::run(bytes, &expected, lengths)?;
    lent::set_up(bytes, &expected, lengths)
}

/// Any bytes, or a sheet with some bytes changed, or damaged records.
fn input(random: &mut Random, seed: u64, place: u64) -> Vec<u8> {
    let mut bytes = generate::sheet(!seed, place);
    match random.below(4) {
        0 => (0..random.below(700)).map(|_| random.next() as u8).collect(),
        1 => {
            for _ in 0..random.between(1, 4) {
                if !bytes.is_empty() {
                    let place = random.below(bytes.len() as u64) as usize;
                    bytes[place] = random.next() as u8;
                }
            }
            bytes
        }
        2 => {
            if !bytes.is_empty() {
                let place = random.below(bytes.len() as u64) as usize;
                bytes[place] ^= 1 << random.below(8);
            }
            bytes
        }
        _ => bytes,
    }
}

/// Lengths of every size, most of them small.
fn lengths(random: &mut Random) -> Lent {
    let mut length = || {
        let size = random.between(1, 17);
        random.below(1 << size) as usize
    };
    Lent { table: length(), marks: length(), output: length() * 4 }
}
