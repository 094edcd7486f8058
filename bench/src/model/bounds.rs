//! 01, 'Tile bounds'.

use oracle::bounds::Grid;

/// tx0, ty0, tx1, ty1, or -10.
pub fn tile_bounds(grid: &Grid) -> Result<[u32; 4], i32> {
    if grid.tileno as u64 >= wrapped(grid.tw as u64 * grid.th as u64) {
        return Err(-10);
    }
    let column = grid.tileno % grid.tw;
    let row = grid.tileno / grid.tw;
    let (tx0, tx1) = on_axis(grid.tx0, grid.tdx, column, grid.x0, grid.x1);
    let (ty0, ty1) = on_axis(grid.ty0, grid.tdy, row, grid.y0, grid.y1);
    Ok([tx0, ty0, tx1, ty1])
}

/// Start and end of the tile at this place, on an axis of the image from `from` to `to`.
fn on_axis(origin: u32, size: u32, place: u32, from: u32, to: u32) -> (u32, u32) {
    let start = wrapped(origin as u64 + wrapped(place as u64 * size as u64));
    let end = (start + size as u64).min(4_294_967_295);
    (start.max(from as u64) as u32, end.min(to as u64) as u32)
}

fn wrapped(number: u64) -> u64 {
    number % (1 << 32)
}
