//! The model by itself: rectangles of precincts by the grid, counted sample by sample, and where the walks by
//! points meet them.

use oracle::sheet::Range;

use super::{same, same_list, Tally};
use crate::model::geometry::Tile;
use crate::model::{counted, each_position, ranges, rectangle, Answer, Points, Position, Rectangle};

/// The rectangles of an accepted sheet's precincts.
pub fn sheet(answer: &Answer, tile: &Tile, tally: &mut Tally) -> Result<(), String> {
    sample_by_sample(tile, tally)?;
    for range in ranges(&answer.sheet, tile) {
        if (2..=4).contains(&range.prg) {
            corners(tile, &range, tally)?;
        }
    }
    Ok(())
}

/// Every precinct of the resolutions that have few samples.
fn sample_by_sample(tile: &Tile, tally: &mut Tally) -> Result<(), String> {
    for (c, r, resolution) in tile.numbered() {
        if let Some(counted) = counted(resolution) {
            let by_grid: Vec<Rectangle> = (0..).map_while(|k| rectangle(tile, c, r, k).ok()).collect();
            let what = format!("counted rectangles of component {c}, resolution {r}");
            same_list(&what, &by_grid, &counted)?;
            tally.rectangles += counted.len() as u64;
        }
    }
    Ok(())
}

/// Every precinct that a walk by points meets: the point, on its resolution, is the rectangle's upper left corner.
fn corners(tile: &Tile, range: &Range, tally: &mut Tally) -> Result<(), String> {
    let one_layer = Range { layno1: range.layno1.min(1), ..*range };
    let mut met = Ok(());
    each_position(tile, &one_layer, Points::Candidates, |position| {
        if met.is_ok() {
            met = corner(tile, position);
            tally.corners += 1;
        }
    });
    met
}

fn corner(tile: &Tile, position: Position) -> Result<(), String> {
    let [_, r, c, k] = position.packet;
    let by_grid = rectangle(tile, c, r, k).map(|[x0, y0, ..]| [x0, y0]);
    let resolution = &tile.components[c as usize][r as usize];
    let point = [
        (position.x as u64).div_ceil(resolution.x.d << resolution.x.level),
        (position.y as u64).div_ceil(resolution.y.d << resolution.y.level),
    ];
    same(&format!("corner at {position:?}"), &by_grid, &Ok(point))
}
