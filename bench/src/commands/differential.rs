//! Small sheets exhaustively, random and damaged sheets, tile bounds and arithmetic: the Rust, the model
//! and ours must say the same.

use oracle::sheet::in_words;

use crate::arguments::Arguments;
use crate::commands::build;
use crate::compare::{self, Tally};
use crate::generate;
use crate::generate::exhaustive::FAMILIES;
use crate::progress::Progress;
use crate::shrink;

pub fn run(arguments: &mut Arguments) -> Result<(), String> {
    let sheets = arguments.number("--sheets", 100_000)?;
    let bounds = arguments.number("--bounds", 1_000_000)?;
    let stride = arguments.number("--stride", 1)?.max(1);
    let seed = arguments.number("--seed", 1)?;
    arguments.finish()?;
    let with_ours =
        if cfg!(feature = "ours") { "the Rust, the model and ours" } else { "the Rust and the model" };
    println!("{with_ours}, {} build, seed {seed}, stride {stride} over the small sheets", build());

    let mut tally = Tally::default();
    for family in FAMILIES {
        let make = |place: u64| (family.sheet)(place * stride).bytes();
        compare_all(family.name, family.count.div_ceil(stride), make, &mut tally)?;
    }
    tell("small sheets", &tally);

    let mut tally = Tally::default();
    compare_all("random sheets", sheets, |place| generate::sheet(seed, place), &mut tally)?;
    tell("random and damaged sheets", &tally);

    let mut progress = Progress::new("tile bounds and arithmetic", bounds);
    for place in 0..bounds {
        let grid = generate::grid(seed, place);
        compare::grid(&grid).map_err(|told| format!("DIFFERENCE at bounds {place}, {grid:?}\n{told}"))?;
        let (function, a, b) = generate::operation(seed, place);
        compare::operation(function, a, b)
            .map_err(|told| format!("DIFFERENCE at {function:?} of {a} and {b}\n{told}"))?;
        progress.at(place);
    }
    progress.done(bounds);
    println!("tile bounds: {bounds}; arithmetic: {bounds}; no difference");
    Ok(())
}

fn compare_all(
    what: &str,
    total: u64,
    make: impl Fn(u64) -> Vec<u8>,
    tally: &mut Tally,
) -> Result<(), String> {
    let mut progress = Progress::new(what, total);
    for place in 0..total {
        let bytes = make(place);
        if let Err(told) = compare::sheet(&bytes, tally) {
            return Err(format!("\nDIFFERENCE in {what}, place {place}: {told}\n{}", smallest(bytes)));
        }
        progress.at(place);
    }
    progress.done(total);
    Ok(())
}

/// The smallest failing sheet in words, and what it shows.
pub fn smallest(bytes: Vec<u8>) -> String {
    let compare = |bytes: &[u8]| compare::sheet(bytes, &mut Tally::default());
    let bytes = shrink::smallest(bytes, |bytes| compare(bytes).is_err());
    let told = compare(&bytes).expect_err("a failing sheet fails again");
    format!("The smallest sheet found, in words:\n\n{}\n\n{told}", in_words(&bytes))
}

fn tell(what: &str, tally: &Tally) {
    let Tally {
        sheets,
        packets,
        with_rust,
        orders,
        outside_domain,
        sparse,
        every_point,
        mixed,
        rectangles,
        corners,
        stepped,
        refused,
    } = tally;
    let refused: Vec<String> = refused.iter().map(|(number, count)| format!("{number}: {count}")).collect();
    println!(
        "{what}: {sheets}; accepted with {packets} packets; compared with the Rust: {with_rust} \
         (orders 0 to 4: {orders:?}); outside its domain: {outside_domain}; too large a grid: \
         {sparse}; every point tested too: {every_point}, of them with kind 6: {mixed}; rectangles counted too: {rectangles}; corners met at a \
         point: {corners}; run by single steps too: {stepped}; refused: {}; no difference",
        refused.join(", ")
    );
}
