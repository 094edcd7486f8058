//! 01, 'Where Rust and standard part': the oracle's domain, and the cost of asking it.

use oracle::sheet::{Range, Sheet};

use crate::model::geometry::{Axis, Resolution, Side, Tile};
use crate::model::ranges;

const WRAP: u64 = 1 << 32;

/// Whether an accepted sheet lies in the domain: no advance of its walks and no resolution end rounded up
/// to a multiple of 2^pd reaches 2^32. The Rust has no kind 6: by its stride it misses precincts there.
pub fn contains(sheet: &Sheet, tile: &Tile) -> bool {
    if sheet.progressions.any_mixed() {
        return false;
    }
    let rounded = |side: &Side| side.end.next_multiple_of(1 << side.pd);
    let ends_fit =
        tile.resolutions().all(|resolution| rounded(&resolution.x) < WRAP && rounded(&resolution.y) < WRAP);
    ends_fit && ranges(sheet, tile).iter().all(|range| strides(range, tile).iter().all(Stride::fits))
}

/// The number of places that the Rust's walks look at in an accepted sheet of the domain, all progressions
/// together.
pub fn visits(sheet: &Sheet, tile: &Tile) -> u128 {
    ranges(sheet, tile).iter().map(|range| visits_of(range, tile)).sum()
}

fn visits_of(range: &Range, tile: &Tile) -> u128 {
    if !walks(range, tile) {
        return 0;
    }
    let layers = range.layno1 as u128;
    let components = range.compno1.saturating_sub(range.compno0) as u128;
    let resolutions = range.resno1.saturating_sub(range.resno0) as u128;
    let points: u128 = strides(range, tile).iter().map(Stride::points).sum();
    match range.prg {
        0 | 1 => layers * resolutions * components * (1 + tile.largest_precincts() as u128),
        2 => resolutions * points * (1 + components),
        3 => points * (1 + components * (1 + resolutions)),
        4 => points * (1 + resolutions),
        _ => 0,
    }
}

/// One run over the tile's points: the stride on each axis.
struct Stride {
    x: Axis,
    y: Axis,
    step_x: u64,
    step_y: u64,
}

impl Stride {
    fn over<'a>(tile: &Tile, resolutions: impl Iterator<Item = &'a Resolution> + Clone) -> Stride {
        let step_x = resolutions.clone().map(|resolution| resolution.x.step).min().unwrap();
        let step_y = resolutions.map(|resolution| resolution.y.step).min().unwrap();
        Stride { x: tile.x, y: tile.y, step_x, step_y }
    }

    /// The last advance on an axis goes to the end rounded up to a multiple of the step. There is none on
    /// an axis that is empty, and none in x where there is no row.
    fn fits(&self) -> bool {
        let last = |axis: Axis, step: u64| axis.end.next_multiple_of(step);
        let y_fits = self.y.start == self.y.end || last(self.y, self.step_y) < WRAP;
        let no_columns = self.x.start == self.x.end || self.y.start == self.y.end;
        y_fits && (no_columns || last(self.x, self.step_x) < WRAP)
    }

    /// The points at which the walk stops.
    fn points(&self) -> u128 {
        let on = |axis: Axis, step: u64| {
            let empty = axis.start == axis.end;
            if empty {
                0
            } else {
                (axis.end.div_ceil(step) - axis.start / step) as u128
            }
        };
        on(self.y, self.step_y) * (1 + on(self.x, self.step_x))
    }
}

/// The runs over points that a progression makes at all: one with the smallest steps of all components for
/// orders 2 and 3, one for each component of the range for order 4.
fn strides(range: &Range, tile: &Tile) -> Vec<Stride> {
    if !walks(range, tile) {
        return Vec::new();
    }
    match range.prg {
        2 if range.resno0 >= range.resno1 => Vec::new(),
        2 | 3 => vec![Stride::over(tile, tile.resolutions())],
        4 => (range.compno0..range.compno1)
            .map(|compno| Stride::over(tile, tile.components[compno as usize].iter()))
            .collect(),
        _ => Vec::new(),
    }
}

/// Whether the Rust starts to walk: it turns away a bad range of components.
fn walks(range: &Range, tile: &Tile) -> bool {
    let components = tile.components.len() as u32;
    range.compno0 < components && range.compno1 <= components
}

#[cfg(test)]
mod tests {
    use super::contains;
    use crate::commands::show::from_words;
    use crate::model::accept;

    fn inside(words: &str) -> bool {
        let (sheet, tile) = accept(&from_words(words).unwrap()).ok().unwrap();
        contains(&sheet, &tile)
    }

    #[test]
    fn an_advance_to_2_32_is_outside() {
        assert!(inside("1 0 0 64 32 2 1 1, 2 1 1 2, 3 4 4, 3 5 5, 5 2"));
        assert!(inside("1 T-1 0 T 1 1 1 1, 2 1 1 1, 3, 5 2"));
        assert!(!inside("1 T-1 0 T 1 1 1 1, 2 1 1 2, 3, 3 1, 5 2"));
        assert!(!inside("1 4294934528 0 T 1 1 1 1, 2 1 1 1, 3 15 15, 5 2"));
    }

    #[test]
    fn an_advance_that_is_not_made_does_not_count() {
        let far = "1 T-2 0 T-1 1 1 1 1, 2 7 1 1, 3,";
        assert!(!inside(&format!("{far} 5 2")));
        assert!(inside(&format!("{far} 5 0")));
        assert!(inside(&format!("{far} 4 2 1 0 1 1 1")));
        assert!(!inside(&format!("{far} 4 3 1 0 1 1 1")));
    }

    #[test]
    fn a_component_out_of_range_is_not_walked() {
        let alpha = format!("2 1 1 33, {}", "3 15 15,".repeat(33));
        assert!(inside(&format!("1 0 0 8 4 1 2 1, 2 1 1 2, 3 1 1, 3 2 2, {alpha} 4 4 0 0 1 33 1")));
        assert!(inside(&format!("1 0 0 8 4 1 2 1, {alpha} 2 1 1 2, 3 1 1, 3 2 2, 4 4 0 1 1 33 2")));
    }

    #[test]
    fn a_rounded_end_of_2_32_is_outside_in_any_order() {
        assert!(!inside("1 0 0 T 0 1 1 1, 2 1 1 1, 3 15 15, 5 0"));
        assert!(inside("1 0 0 T 0 1 1 1, 2 1 1 1, 3, 5 0"));
    }
}
