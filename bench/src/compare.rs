//! One input through everything that can answer it; what they say must be the same.

#[cfg(feature = "ours")]
pub mod lent;
mod rectangles;

use std::collections::BTreeMap;

use oracle::arithmetic::{self, Function};
use oracle::bounds::{self, Grid};
use oracle::driver::{self, Ending};

use crate::domain;
use crate::model::geometry::Tile;
use crate::model::{self, Answer, Points};

/// The most places that a walk by strides looks at in one sheet that is compared here.
const VISITS: u128 = 3_000_000;

/// The most tests of a point for which the model also tests every point; and where a progression is of kind 6, of
/// which the Rust says nothing.
const EVERY_POINT: u128 = 20_000;
const EVERY_POINT_MIXED: u128 = 300_000;

/// What was compared.
#[derive(Default)]
pub struct Tally {
    pub sheets: u64,
    pub packets: u64,
    /// Sheets compared with the Rust.
    pub with_rust: u64,
    /// Of those, how many have a progression of each order.
    pub orders: [u64; 5],
    pub outside_domain: u64,
    /// Accepted sheets with too large a grid to ask anyone.
    pub sparse: u64,
    /// Sheets whose every grid point was tested, beside the candidates; and of these with a progression of kind 6.
    pub every_point: u64,
    pub mixed: u64,
    /// Precincts whose rectangles were counted sample by sample.
    pub rectangles: u64,
    /// Precincts met at a point, which was compared with the rectangle's corner; once for each progression.
    pub corners: u64,
    /// Sheets run by single steps, too.
    pub stepped: u64,
    /// Refused sheets by number.
    pub refused: BTreeMap<i32, u64>,
}

/// A sheet: the Rust in its domain, ours in and outside it, against the model.
pub fn sheet(bytes: &[u8], tally: &mut Tally) -> Result<(), String> {
    tally.sheets += 1;
    if is_sparse(bytes) {
        tally.sparse += 1;
        return Ok(());
    }
    let expected = model::run(bytes, Points::Candidates);
    match &expected {
        Err(number) => *tally.refused.entry(*number).or_default() += 1,
        Ok(answer) => {
            tally.packets += answer.packets.len() as u64;
            let tile = Tile::of(&answer.sheet);
            every_point(bytes, answer, &tile, tally)?;
            rectangles::sheet(answer, &tile, tally)?;
            with_rust(answer, &tile, tally)?;
        }
    }
    #[cfg(feature = "ours")]
    {
        tally.stepped += lent::is_stepped(&expected) as u64;
        lent::sheet(bytes, &expected)?;
    }
    Ok(())
}

/// Whether a sheet is accepted with a grid so large that a walk by strides would take long.
pub fn is_sparse(bytes: &[u8]) -> bool {
    model::accept(bytes).is_ok_and(|(sheet, tile)| domain::visits(&sheet, &tile) > VISITS)
}

/// The model by itself: the candidate points give what every point gives.
fn every_point(bytes: &[u8], answer: &Answer, tile: &Tile, tally: &mut Tally) -> Result<(), String> {
    let points = (tile.x.end - tile.x.start) as u128 * (tile.y.end - tile.y.start) as u128;
    let tests = points * tile.resolutions().count() as u128 * answer.sheet.progressions.count() as u128;
    let mixed = answer.sheet.progressions.any_mixed();
    if tests > if mixed { EVERY_POINT_MIXED } else { EVERY_POINT } {
        return Ok(());
    }
    tally.every_point += 1;
    tally.mixed += mixed as u64;
    let plain = model::run(bytes, Points::Every).map_err(|number| format!("model: refused {number}"))?;
    same("the model's packets, every point", &answer.packets, &plain.packets)
}

/// The Rust against the model, if the sheet is in its domain.
fn with_rust(answer: &Answer, tile: &Tile, tally: &mut Tally) -> Result<(), String> {
    let sheet = &answer.sheet;
    if !domain::contains(sheet, tile) {
        tally.outside_domain += 1;
        return Ok(());
    }
    tally.with_rust += 1;
    let orders = sheet.progressions.orders();
    for (order, count) in tally.orders.iter_mut().enumerate() {
        *count += orders.contains(&(order as i32)) as u64;
    }
    let rust = driver::run(sheet);
    same("ending", &Ending::Whole, &rust.ending)?;
    same("tile bounds", &[sheet.tx0, sheet.ty0, sheet.tx1, sheet.ty1], &rust.bounds)?;
    same("reports", &answer.reports, &rust.reports)?;
    same_list("table", &answer.table, &rust.table)?;
    same_list("packets", &answer.packets, &rust.packets)?;
    same_list("marks left", &answer.marks, &rust.marks)?;
    same("marks beyond the layers", &0, &rust.marks_beyond)
}

/// Tile bounds: the Rust and ours against the model.
pub fn grid(grid: &Grid) -> Result<(), String> {
    let expected = model::bounds::tile_bounds(grid);
    same("the Rust's bounds", &expected.ok(), &bounds::tile_bounds(grid))?;
    #[cfg(feature = "ours")]
    lent::grid(grid, &expected)?;
    Ok(())
}

/// Arithmetic: the Rust against the model. A build without overflow checks masks and wraps where 01 says
/// -22, but its assertions hold in any build.
pub fn operation(function: Function, a: u64, b: u64) -> Result<(), String> {
    let expected = model::arithmetic::answer(function, a, b);
    let asserted = matches!(function, Function::CeilDiv | Function::CeilDiv64) && b == 0;
    if expected.is_ok() || asserted || cfg!(debug_assertions) {
        same("the Rust's arithmetic", &expected.ok(), &arithmetic::ask(function, a, b))?;
    }
    Ok(())
}

/// Two values that must be equal.
pub fn same<T: PartialEq + std::fmt::Debug>(what: &str, model: &T, other: &T) -> Result<(), String> {
    if model == other {
        return Ok(());
    }
    Err(format!("{what}: the model says {model:?}, not {other:?}"))
}

/// Two lists that must be equal; tells the first place where they are not.
pub fn same_list<T: PartialEq + std::fmt::Debug>(what: &str, model: &[T], other: &[T]) -> Result<(), String> {
    if model == other {
        return Ok(());
    }
    let place = model.iter().zip(other).take_while(|(a, b)| a == b).count();
    Err(format!(
        "{what} at {place}: the model says {:?} ({} in all), not {:?} ({} in all)",
        model.get(place),
        model.len(),
        other.get(place),
        other.len()
    ))
}
