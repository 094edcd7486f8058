//! Looks for accepted sheets that are slow for us, whatever their grid, and compares them with the model.

use std::process::exit;
use std::sync::{Arc, Mutex};
use std::thread;
use std::time::{Duration, Instant};

use oracle::sheet::{in_words, Range, Sheet};

use crate::compare::lent;
use crate::domain;
use crate::generate::sparse;
use crate::model::geometry::Tile;
use crate::model::{self, Points};
use crate::progress::Progress;
use crate::random::Random;
use crate::speed;

/// How much slower for its work than the usual sheet a sheet may be.
const BOUND: f64 = 20.0;
/// A time that may have been lengthened by other work is taken again so often.
const AGAIN: usize = 5;

/// The slowest sheet for its work so far.
struct Slowest {
    slowness: f64,
    time: Duration,
    packets: usize,
    strides: u128,
    sheet: Vec<u8>,
}

pub fn run(count: u64, seed: u64, limit: Duration) -> Result<(), String> {
    println!("\n{count} sheets with large grids, seed {seed}");
    let usual = seconds_a_unit(&speed::usual(3, 5), 1.0).0;
    let watched = watch(limit);
    let mut progress = Progress::new("sheets with large grids", count);
    let mut slowest: Option<Slowest> = None;
    let mut accepted = 0;
    for place in 0..count {
        let sheet = sparse::any(&mut Random::at(seed, place));
        let bytes = sheet.bytes();
        let expected = model::run(&bytes, Points::Candidates);
        if let Ok(answer) = &expected {
            accepted += 1;
            *watched.lock().unwrap() = Some((Instant::now(), bytes.clone()));
            lent::run(&bytes, &expected, answer.needs())
                .map_err(|told| format!("DIFFERENCE: {told}\n\n{}", in_words(&bytes)))?;
            let (slowness, time) = seconds_a_unit(&sheet, usual);
            *watched.lock().unwrap() = None;
            if slowest.as_ref().is_none_or(|slowest| slowness > slowest.slowness) {
                let strides = domain::visits(&answer.sheet, &Tile::of(&answer.sheet));
                slowest =
                    Some(Slowest { slowness, time, packets: answer.packets.len(), strides, sheet: bytes });
            }
        }
        progress.at(place);
    }
    progress.done(count);
    slowest.map_or(Ok(()), |slowest| tell(accepted, &slowest))
}

fn tell(accepted: u64, slowest: &Slowest) -> Result<(), String> {
    let Slowest { slowness, time, packets, strides, sheet } = slowest;
    let told = format!(
        "{accepted} accepted; the slowest for its work took {:.1} ms, {slowness:.1} times as long as the usual sheet, for {packets} \
         packets and {strides} places of a walk by strides:\n\n{}",
        time.as_secs_f64() * 1000.0,
        in_words(sheet)
    );
    if *slowness > BOUND {
        return Err(format!("more than {BOUND} times: {told}"));
    }
    println!("{told}");
    Ok(())
}

/// Our whole run's seconds for a unit of work, over `usual`, and its time: the first that is within the bound, else the best of some.
fn seconds_a_unit(sheet: &Sheet, usual: f64) -> (f64, Duration) {
    let mut run = speed::ours(sheet);
    let work = work(sheet, &Tile::of(sheet)) as f64;
    let mut best = Duration::MAX;
    for _ in 0..AGAIN {
        let start = Instant::now();
        run();
        best = best.min(start.elapsed());
        if usual != 1.0 && best.as_secs_f64() / work <= BOUND * usual {
            break;
        }
    }
    (best.as_secs_f64() / work / usual, best)
}

/// What a run may cost: setup, and for each progression its precincts in play, each with the resolutions of the range that are tested at
/// its point and with its layers. The grid is not in it.
fn work(sheet: &Sheet, tile: &Tile) -> u128 {
    let setup = 1000 + 100 * tile.resolutions().count() as u128;
    setup + model::ranges(sheet, tile).iter().map(|range| work_of(range, tile)).sum::<u128>()
}

fn work_of(range: &Range, tile: &Tile) -> u128 {
    let components = tile.components.iter().take(range.compno1 as usize).skip(range.compno0 as usize);
    let in_range = components
        .flat_map(|component| component.iter().take(range.resno1 as usize).skip(range.resno0 as usize));
    let precincts: u128 = in_range.map(|resolution| resolution.precincts() as u128).sum();
    let size = |from: u32, to: u32| to.saturating_sub(from) as u128;
    let tested = size(range.resno0, range.resno1) * size(range.compno0, range.compno1);
    let layers = range.layno1 as u128;
    match range.prg {
        0 | 1 => layers * (tested + 8 * precincts),
        2..=4 => precincts * (8 + 2 * tested + 8 * layers),
        _ => 0,
    }
}

/// A sheet under way, with the time of its start.
type Watched = Arc<Mutex<Option<(Instant, Vec<u8>)>>>;

/// Stops the program, with the sheet in words, when one takes longer than the limit.
fn watch(limit: Duration) -> Watched {
    let watched: Watched = Default::default();
    let under_way = watched.clone();
    thread::spawn(move || loop {
        thread::sleep(Duration::from_millis(50));
        if let Some((start, bytes)) = &*under_way.lock().unwrap() {
            if start.elapsed() > limit {
                eprintln!("\nmore than {} seconds:\n\n{}", limit.as_secs(), in_words(bytes));
                exit(1);
            }
        }
    });
    watched
}
