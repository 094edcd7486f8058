//! 02, P2, and T.800, B.6: the rectangle of a precinct on its resolution; and the same counted, by no formula.

use std::collections::BTreeMap;

use super::geometry::{Resolution, Side, Tile};

const NO_SUCH: i32 = -14;

/// The most samples of a resolution that are counted.
const MOST_SAMPLES: u64 = 32_768;

/// x0, y0, x1 and y1 on a resolution; ends are not included.
pub type Rectangle = [u64; 4];

/// The rectangle of a precinct, or -14: a cell of the grid anchored at (0, 0), clipped to the resolution.
/// Precincts are numbered in raster order.
pub fn rectangle(tile: &Tile, component: u32, resolution: u32, precinct: u32) -> Result<Rectangle, i32> {
    let resolutions = tile.components.get(component as usize).ok_or(NO_SUCH)?;
    let resolution = resolutions.get(resolution as usize).ok_or(NO_SUCH)?;
    let precinct = precinct as u64;
    if precinct >= resolution.precincts() {
        return Err(NO_SUCH);
    }
    let width = resolution.x.count;
    let (x0, x1) = on_axis(&resolution.x, precinct % width);
    let (y0, y1) = on_axis(&resolution.y, precinct / width);
    Ok([x0, y0, x1, y1])
}

/// Start and end of a column or row, counted from the first.
fn on_axis(side: &Side, index: u64) -> (u64, u64) {
    let size = 1 << side.pd;
    let start = (side.start / size + index) * size;
    (start.max(side.start), (start + size).min(side.end))
}

/// The rectangles of all precincts of a resolution, sample by sample: each lies in a cell, the cells are numbered
/// as they are met, and a rectangle is the smallest that holds the samples of its cell. None if the samples
/// are too many.
pub fn counted(resolution: &Resolution) -> Option<Vec<Rectangle>> {
    let Resolution { x: columns, y: rows } = resolution;
    if (columns.end - columns.start) * (rows.end - rows.start) > MOST_SAMPLES {
        return None;
    }
    let mut numbers = BTreeMap::new();
    let mut rectangles: Vec<Rectangle> = Vec::new();
    for y in rows.start..rows.end {
        for x in columns.start..columns.end {
            let sample = [x, y, x + 1, y + 1];
            let number = *numbers.entry((x >> columns.pd, y >> rows.pd)).or_insert(rectangles.len());
            if number == rectangles.len() {
                rectangles.push(sample);
            }
            rectangles[number] = joined(rectangles[number], sample);
        }
    }
    Some(rectangles)
}

/// The smallest rectangle that holds two.
fn joined(a: Rectangle, b: Rectangle) -> Rectangle {
    [a[0].min(b[0]), a[1].min(b[1]), a[2].max(b[2]), a[3].max(b[3])]
}
