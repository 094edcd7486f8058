//! 01, 'Ranges and orders', and T.800, B.12.1: the positions of a progression, loop by loop.

use std::collections::BTreeSet;

use oracle::sheet::{Packet, Progressions, Range, Sheet};

use super::geometry::{Axis, Resolution, Side, Tile};

/// Which points of the tile the position orders test.
#[derive(Clone, Copy, PartialEq)]
pub enum Points {
    /// Every point, as the standard's loops are written; for small tiles.
    Every,
    /// Only those where something can be met: the tile's start, and multiples of the steps.
    Candidates,
}

/// A packet, and the point of the tile where it is met (0 in orders 0 and 1).
#[derive(Clone, Copy, Debug, PartialEq)]
pub struct Position {
    pub packet: Packet,
    pub x: u32,
    pub y: u32,
}

/// The progressions with their ends set; none of them has layers beyond the tile's.
pub fn ranges(sheet: &Sheet, tile: &Tile) -> Vec<Range> {
    match &sheet.progressions {
        Progressions::WholeTile(prg) => vec![Range {
            prg: *prg,
            resno0: 0,
            compno0: 0,
            layno1: sheet.layers,
            resno1: tile.largest_resolutions() as u32,
            compno1: sheet.components.len() as u32,
            mixed: false,
        }],
        Progressions::Ranges(ranges) => {
            ranges.iter().map(|range| Range { layno1: range.layno1.min(sheet.layers), ..*range }).collect()
        }
    }
}

/// Gives each position of a progression to `visit`, in order.
pub fn each(tile: &Tile, range: &Range, points: Points, mut visit: impl FnMut(Position)) {
    let components = tile.components.len() as u32;
    if range.compno0 >= components || range.compno1 > components || tile.largest_precincts() == 0 {
        return;
    }
    let layers = 0..range.layno1;
    // No component has a resolution beyond the largest number.
    let resolutions = range.resno0..range.resno1.min(tile.largest_resolutions() as u32);
    let components = range.compno0..range.compno1;
    match range.prg {
        0 => {
            for l in layers {
                for r in resolutions.clone() {
                    for c in components.clone() {
                        for k in 0..precincts(tile, r, c) {
                            visit(at([l, r, c, k], 0, 0));
                        }
                    }
                }
            }
        }
        1 => {
            for r in resolutions {
                for l in layers.clone() {
                    for c in components.clone() {
                        for k in 0..precincts(tile, r, c) {
                            visit(at([l, r, c, k], 0, 0));
                        }
                    }
                }
            }
        }
        2 => {
            let rows = rows(tile, points);
            for r in resolutions {
                for (y, columns) in &rows {
                    for x in columns {
                        for c in components.clone() {
                            if let Some(k) = met(tile, r, c, *x, *y) {
                                layers.clone().for_each(|l| visit(at([l, r, c, k], *x, *y)));
                            }
                        }
                    }
                }
            }
        }
        3 => {
            for (y, columns) in &rows(tile, points) {
                for x in columns {
                    for c in components.clone() {
                        for r in resolutions.clone() {
                            if let Some(k) = met(tile, r, c, *x, *y) {
                                layers.clone().for_each(|l| visit(at([l, r, c, k], *x, *y)));
                            }
                        }
                    }
                }
            }
        }
        4 => {
            let rows = rows(tile, points);
            for c in components {
                for (y, columns) in &rows {
                    for x in columns {
                        for r in resolutions.clone() {
                            if let Some(k) = met(tile, r, c, *x, *y) {
                                layers.clone().for_each(|l| visit(at([l, r, c, k], *x, *y)));
                            }
                        }
                    }
                }
            }
        }
        _ => {}
    }
}

fn at(packet: Packet, x: u64, y: u64) -> Position {
    Position { packet, x: x as u32, y: y as u32 }
}

/// The resolution, if the component has it and it has precincts.
fn resolution(tile: &Tile, r: u32, c: u32) -> Option<&Resolution> {
    tile.components[c as usize].get(r as usize).filter(|resolution| resolution.precincts() != 0)
}

fn precincts(tile: &Tile, r: u32, c: u32) -> u32 {
    resolution(tile, r, c).map_or(0, |resolution| resolution.precincts() as u32)
}

/// The precinct that is met at a point.
fn met(tile: &Tile, r: u32, c: u32, x: u64, y: u64) -> Option<u32> {
    let resolution = resolution(tile, r, c)?;
    if !resolution.y.meets(tile.y, y) || !resolution.x.meets(tile.x, x) {
        return None;
    }
    Some((resolution.x.index(x) + resolution.y.index(y) * resolution.x.count) as u32)
}

/// The points to test: rows with their columns.
fn rows(tile: &Tile, points: Points) -> Vec<(u64, Vec<u64>)> {
    if points == Points::Every {
        let columns: Vec<u64> = (tile.x.start..tile.x.end).collect();
        return (tile.y.start..tile.y.end).map(|y| (y, columns.clone())).collect();
    }
    let with_precincts = || tile.resolutions().filter(|resolution| resolution.precincts() != 0);
    candidates(tile.y, with_precincts().map(|resolution| &resolution.y))
        .into_iter()
        .map(|y| {
            let met_by_row = with_precincts().filter(|resolution| resolution.y.meets(tile.y, y));
            (y, candidates(tile.x, met_by_row.map(|resolution| &resolution.x)).into_iter().collect())
        })
        .collect()
}

/// The tile's start and every multiple of each step in the tile: nothing is met anywhere else.
fn candidates<'a>(tile: Axis, sides: impl Iterator<Item = &'a Side>) -> BTreeSet<u64> {
    let steps: BTreeSet<u64> = sides.map(|side| side.step).collect();
    let multiples = |step: u64| {
        let first = tile.start.div_ceil(step) * step;
        (first..tile.end).step_by(step as usize)
    };
    let start = (tile.start..tile.end).take(1);
    start.chain(steps.into_iter().flat_map(multiples)).collect()
}
