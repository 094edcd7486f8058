//! A plain and slow model of document 01, written from its text alone: sheet bytes in, a refusal's number
//! or everything the whole run answers and leaves out. Numbers are wide enough never to wrap.

pub mod arithmetic;
pub mod bounds;
pub mod geometry;
mod grid;
mod lent;
mod positions;
mod reader;
mod rectangles;
mod steps;
#[cfg(test)]
mod tests;

use oracle::sheet::{Packet, Reports, Sheet};

use geometry::Tile;
pub use lent::Lent;
pub use positions::{each as each_position, ranges, Points, Position};
pub use reader::read;
pub use rectangles::{counted, rectangle, Rectangle};
pub use steps::{Cursor, Place, Step, Steps, VIEWERS};

const MOST_MARKS: u128 = 65_536;

/// What an accepted sheet gives.
pub struct Answer {
    pub sheet: Sheet,
    pub reports: Reports,
    /// pdx, pdy, width and height of each resolution, component after component.
    pub table: Vec<[u32; 4]>,
    /// All progressions in turn, without what an earlier one has listed.
    pub packets: Vec<Packet>,
    /// The needed marks after the run.
    pub marks: Vec<u8>,
}

/// The whole run of a sheet with unlimited room, or -1 to -5.
pub fn run(bytes: &[u8], points: Points) -> Result<Answer, i32> {
    let (sheet, tile) = accept(bytes)?;
    Ok(walk(sheet, &tile, points))
}

/// The standard's list for a sheet whose fields are in range, whatever its grid; None if it needs more
/// marks than there may be.
pub fn by_the_standard(sheet: Sheet) -> Option<Answer> {
    let tile = Tile::of(&sheet);
    (tile.marks_needed() <= MOST_MARKS).then(|| walk(sheet, &tile, Points::Candidates))
}

/// A sheet that is refused with none of -1 to -5, and its geometry.
pub fn accept(bytes: &[u8]) -> Result<(Sheet, Tile), i32> {
    let sheet = reader::read(bytes)?;
    let tile = judge(&sheet)?;
    Ok((sheet, tile))
}

/// The geometry of a sheet whose fields are in range, or -4 or -5.
pub fn judge(sheet: &Sheet) -> Result<Tile, i32> {
    let tile = Tile::of(sheet);
    if !ranges(sheet, &tile).iter().all(|range| grid::is_agreed(&tile, range)) {
        return Err(-4);
    }
    if tile.marks_needed() > MOST_MARKS {
        return Err(-5);
    }
    Ok(tile)
}

/// Every progression in turn over one set of marks.
fn walk(sheet: Sheet, tile: &Tile, points: Points) -> Answer {
    let mut marks = vec![0; tile.marks_needed() as usize];
    let mut packets = Vec::new();
    for range in ranges(&sheet, tile) {
        positions::each(tile, &range, points, |position| {
            let mark = &mut marks[tile.mark_of(position.packet)];
            if *mark == 0 {
                *mark = 1;
                packets.push(position.packet);
            }
        });
    }
    let reports = tile.reports();
    let table = tile.resolutions().map(|resolution| resolution.words()).collect();
    Answer { sheet, reports, table, packets, marks }
}
