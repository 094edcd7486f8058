//! 01, 'Ranges and orders', and 02, P5 and P6: the agreed grid, -4 otherwise.

use oracle::sheet::Range;

use super::geometry::{Resolution, Tile};

/// Whether a progression has an agreed grid.
pub fn is_agreed(tile: &Tile, range: &Range) -> bool {
    let components = tile.components.len() as u32;
    match range.prg {
        2 | 3 => tile.resolutions().all(fits) && (range.mixed || is_divided(tile)),
        // One that has no positions for its components asks of none.
        4 if range.compno0 >= components || range.compno1 > components => true,
        4 => (range.compno0..range.compno1).all(|compno| tile.components[compno as usize].iter().all(fits)),
        _ => true,
    }
}

/// Whether the steps of a resolution are numbers of 32 bits.
fn fits(resolution: &Resolution) -> bool {
    resolution.x.step <= 4_294_967_295 && resolution.y.step <= 4_294_967_295
}

/// Whether the smallest step of all divides them all, on each axis.
fn is_divided(tile: &Tile) -> bool {
    let smallest_x = tile.resolutions().map(|resolution| resolution.x.step).min().unwrap();
    let smallest_y = tile.resolutions().map(|resolution| resolution.y.step).min().unwrap();
    tile.resolutions()
        .all(|resolution| resolution.x.step % smallest_x == 0 && resolution.y.step % smallest_y == 0)
}
