//! The Rust's answers: accepted sheets of its domain, tile bounds, arithmetic.

use oracle::arithmetic;
use oracle::bounds;
use oracle::driver::{self, Ending};
use oracle::sheet::Sheet;

use super::{bytes, sample};
use crate::compare::{self, Tally};
use crate::domain;
use crate::generate;
use crate::model;
use crate::random::Random;

/// Of the file's cases.
pub const SHEET: u32 = 1;
pub const TILE_BOUNDS: u32 = 2;
pub const ARITHMETIC: u32 = 3;

const SEED: u64 = 2000;
/// Sheets of each order, alone; and sheets with several progressions.
const SHEETS_OF_AN_ORDER: usize = 46;
const SHEETS_OF_SEVERAL: usize = 70;
const SEED_BESIDE_WIDE: u64 = 2001;
const SHEETS_BESIDE_WIDE: usize = 40;
const BOUNDS: u64 = 500;
const OPERATIONS: u64 = 500;
/// No stored sheet is larger than this.
const MOST_RECORDS: usize = 128;
const MOST_PACKETS: usize = 96;
const MOST_MARKS: usize = 2048;

pub fn sheets() -> Result<Vec<Vec<u8>>, String> {
    sample().iter().map(case).collect()
}

/// Sheets with progressions of order 4 beside a component with steps of more than 32 bits, of which none asks.
pub fn sheets_beside_wide() -> Result<Vec<Vec<u8>>, String> {
    (0..)
        .map(|place| generate::sheets::beside_wide(&mut Random::at(SEED_BESIDE_WIDE, place)))
        .filter(|sheet| sheet.progressions.orders().contains(&4) && fits(sheet, 1))
        .take(SHEETS_BESIDE_WIDE)
        .map(|sheet| case(&sheet))
        .collect()
}

fn case(sheet: &Sheet) -> Result<Vec<u8>, String> {
    compare::sheet(&sheet.bytes(), &mut Tally::default())?;
    sheet_answer(sheet)
}

pub fn tile_bounds() -> Vec<Vec<u8>> {
    let case = |place| {
        let grid = generate::grid(SEED, place);
        let answer = bounds::tile_bounds(&grid);
        let mut words = grid.words().to_vec();
        words.push(answer.map_or(-10i32 as u32, |_| 0));
        words.extend(answer.unwrap_or_default());
        bytes(&words)
    };
    (0..BOUNDS).map(case).collect()
}

pub fn arithmetic() -> Vec<Vec<u8>> {
    let case = |place| {
        let (function, a, b) = generate::operation(SEED, place);
        let answer = arithmetic::ask(function, a, b);
        let verdict = answer.map_or(-22i32 as u32, |_| 0);
        let [a_high, a_low, b_high, b_low] = [(a >> 32) as u32, a as u32, (b >> 32) as u32, b as u32];
        bytes(&[function as u32, a_high, a_low, b_high, b_low, verdict, answer.unwrap_or(0)])
    };
    (0..OPERATIONS).map(case).collect()
}

/// The stored sheets: all of the oracle's domain, and small; few without packets, and every other one with
/// several components or resolutions.
fn sample() -> Vec<Sheet> {
    sample::sheets(SEED, SHEETS_OF_AN_ORDER, SHEETS_OF_SEVERAL, |place, number, sheet| {
        fits(sheet, if place % 16 == 0 { 0 } else { 1 }) && (number % 2 == 1 || is_varied(sheet))
    })
}

fn fits(sheet: &Sheet, least_packets: usize) -> bool {
    let Ok(tile) = model::judge(sheet) else {
        return false;
    };
    domain::contains(sheet, &tile)
        && sheet.records().len() <= MOST_RECORDS
        && tile.marks_needed() <= MOST_MARKS as u128
        && (least_packets..=MOST_PACKETS).contains(&driver::run(sheet).packets.len())
}

fn is_varied(sheet: &Sheet) -> bool {
    sheet.components.len() > 2 || sheet.components.iter().any(|component| component.resolutions.len() > 5)
}

/// The sheet and all that the Rust says to it.
fn sheet_answer(sheet: &Sheet) -> Result<Vec<u8>, String> {
    let run = driver::run(sheet);
    if run.ending != Ending::Whole {
        return Err(format!("the Rust ended with {:?}", run.ending));
    }
    let sheet = sheet.bytes();
    let reports = run.reports;
    let counts = [sheet.len(), run.marks.len(), run.table.len(), run.packets.len()];
    let mut payload = bytes(&counts.map(|count| count as u32));
    payload.extend(bytes(&[reports.max_prec, reports.max_res, reports.dx_min, reports.dy_min]));
    payload.extend(sheet);
    payload.extend(bytes(run.table.as_flattened()));
    payload.extend(bytes(run.packets.as_flattened()));
    Ok(payload)
}
