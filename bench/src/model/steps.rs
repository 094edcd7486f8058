//! 01, 'Ranges and orders': a step from a cursor, found in the list of its progression's positions; and 02, P4 and P8:
//! eight viewers, each with a bit of every mark and a number of packets still to come.

use std::collections::BTreeSet;

use oracle::sheet::Sheet;

use super::geometry::Tile;
use super::judge;
use super::positions::{self, ranges, Points, Position};
use super::reader::read;

#[derive(Clone, Copy, Debug, PartialEq)]
pub struct Cursor {
    pub viewer: u32,
    pub progression: u32,
    pub place: Place,
}

#[derive(Clone, Copy, Debug, PartialEq)]
pub enum Place {
    Fresh,
    At(Position),
    Ended,
}

#[derive(Clone, Copy, Debug, PartialEq)]
pub enum Step {
    /// 1
    Packet(Position),
    /// 0
    Ended,
    /// -9
    Unsound,
}

/// 02, P4: "Eight viewers".
pub const VIEWERS: u32 = 8;

/// Whether a viewer's bit of a mark is 0.
fn is_free(mark: u8, viewer: u32) -> bool {
    mark & 1 << viewer == 0
}

/// An accepted sheet set up, with the positions of each of its progressions.
pub struct Steps {
    sheet: Sheet,
    pub tile: Tile,
    /// As setup writes it.
    pub table: Vec<u8>,
    pub positions: Vec<Vec<Position>>,
}

impl Steps {
    /// None if the sheet is refused.
    pub fn of(sheet: Sheet) -> Option<Steps> {
        let tile = judge(&sheet).ok()?;
        let words = tile.resolutions().flat_map(|resolution| resolution.words());
        let table = words.flat_map(u32::to_be_bytes).collect();
        let listed = |range| {
            let mut list = Vec::new();
            positions::each(&tile, &range, Points::Candidates, |position| list.push(position));
            list
        };
        let positions = ranges(&sheet, &tile).into_iter().map(listed).collect();
        Some(Steps { sheet, tile, table, positions })
    }

    /// The same state over another table. A state keeps no exponents, they stand in the table alone: it is sound
    /// if it is what setup writes for the sheet with its exponents, and that sheet's reports are the same.
    pub fn over(&self, table: &[u8]) -> Option<Steps> {
        let table = table.get(..self.table.len())?;
        let mut entries = table.chunks_exact(16).map(|entry| (word(entry, 0), word(entry, 1)));
        let mut sheet = self.sheet.clone();
        for component in &mut sheet.components {
            component.resolutions.fill_with(|| entries.next().unwrap());
        }
        let other = Steps::of(read(&sheet.bytes()).ok()?)?;
        (other.table == table && other.tile.reports() == self.tile.reports()).then_some(other)
    }

    pub fn marks_needed(&self) -> usize {
        self.tile.marks_needed() as usize
    }

    pub fn mark_of(&self, position: Position) -> usize {
        self.tile.mark_of(position.packet)
    }

    /// 02, P8: the packets that some progression admits and that a viewer has not marked, counted in full.
    pub fn to_come(&self, marks: &[u8], viewer: u32) -> u32 {
        let admitted: BTreeSet<usize> = self.positions.iter().flatten().map(|&position| self.mark_of(position)).collect();
        admitted.into_iter().filter(|&mark| is_free(marks[mark], viewer)).count() as u32
    }

    /// -9 where the marks do not suffice, then -15; else 0, and the viewer's bit is 0 in the marks needed.
    pub fn join(&self, marks: &mut [u8], viewer: u32) -> i32 {
        let Some(needed) = marks.get_mut(..self.marks_needed()) else {
            return -9;
        };
        if viewer >= VIEWERS {
            return -15;
        }
        needed.iter_mut().for_each(|mark| *mark &= !(1 << viewer));
        0
    }

    /// -9, -15, then -11; else the fresh cursor.
    pub fn open(&self, marks: &[u8], viewer: u32, progression: u32) -> Result<Cursor, i32> {
        if marks.len() < self.marks_needed() {
            return Err(-9);
        }
        if viewer >= VIEWERS {
            return Err(-15);
        }
        let there = (progression as usize) < self.positions.len();
        there.then_some(Cursor { viewer, progression, place: Place::Fresh }).ok_or(-11)
    }

    /// What a step answers over the table that setup writes, and these marks.
    pub fn step(&self, marks: &[u8], cursor: Cursor) -> Step {
        let Some(positions) = self.positions.get(cursor.progression as usize) else {
            return Step::Unsound;
        };
        if marks.len() < self.marks_needed() || cursor.viewer >= VIEWERS {
            return Step::Unsound;
        }
        let after = match cursor.place {
            Place::Fresh => 0,
            Place::At(position) => match positions.iter().position(|&other| other == position) {
                Some(place) => place + 1,
                None => return Step::Unsound,
            },
            Place::Ended => positions.len(),
        };
        let free = positions[after..].iter().find(|&&position| is_free(marks[self.mark_of(position)], cursor.viewer));
        free.map_or(Step::Ended, |&position| Step::Packet(position))
    }
}

fn word(bytes: &[u8], place: usize) -> u32 {
    u32::from_be_bytes(bytes[4 * place..4 * place + 4].try_into().unwrap())
}
