//! 01, 'Geometry': bounds, precincts, strides and the reports.

use oracle::sheet::{Component, Packet, Reports, Sheet};

/// The tile of an accepted sheet, with every resolution of every component worked out.
pub struct Tile {
    pub x: Axis,
    pub y: Axis,
    pub layers: u64,
    /// Component after component, lowest resolution first.
    pub components: Vec<Vec<Resolution>>,
}

/// The tile's start and end on one axis.
#[derive(Clone, Copy)]
pub struct Axis {
    pub start: u64,
    pub end: u64,
}

#[derive(Clone, Copy)]
pub struct Resolution {
    pub x: Side,
    pub y: Side,
}

/// A resolution on one axis.
#[derive(Clone, Copy)]
pub struct Side {
    /// dx or dy.
    pub d: u64,
    /// pdx or pdy.
    pub pd: u64,
    pub level: u64,
    /// rx0 and rx1, or ry0 and ry1.
    pub start: u64,
    pub end: u64,
    /// Width or height in precincts.
    pub count: u64,
    /// d·2^(pd+level).
    pub step: u64,
}

impl Side {
    fn of(tile: Axis, d: u32, pd: u32, level: usize) -> Side {
        let (d, pd, level) = (d as u64, pd as u64, level as u64);
        let start = tile.start.div_ceil(d).div_ceil(1 << level);
        let end = tile.end.div_ceil(d).div_ceil(1 << level);
        let precinct = 1 << pd;
        let count = if start == end { 0 } else { end.div_ceil(precinct) - start / precinct };
        Side { d, pd, level, start, end, count, step: d << (pd + level) }
    }

    /// Whether a precinct is met at this coordinate of the tile.
    pub fn meets(&self, tile: Axis, at: u64) -> bool {
        let starts_inside = !(self.start << self.level).is_multiple_of(1 << (self.pd + self.level));
        at.is_multiple_of(self.step) || at == tile.start && starts_inside
    }

    /// The column or row of the precinct met at this coordinate, counted from the first.
    pub fn index(&self, at: u64) -> u64 {
        (at.div_ceil(self.d << self.level) >> self.pd) - (self.start >> self.pd)
    }
}

impl Resolution {
    pub fn precincts(&self) -> u64 {
        self.x.count * self.y.count
    }

    /// The table's words.
    pub fn words(&self) -> [u32; 4] {
        [self.x.pd as u32, self.y.pd as u32, self.x.count as u32, self.y.count as u32]
    }
}

impl Tile {
    pub fn of(sheet: &Sheet) -> Tile {
        let x = Axis { start: sheet.tx0 as u64, end: sheet.tx1 as u64 };
        let y = Axis { start: sheet.ty0 as u64, end: sheet.ty1 as u64 };
        let resolutions_of = |component: &Component| {
            let exponents = component.resolutions.iter().enumerate();
            let levels = component.resolutions.len() - 1;
            exponents
                .map(|(resno, &(pdx, pdy))| Resolution {
                    x: Side::of(x, component.dx, pdx, levels - resno),
                    y: Side::of(y, component.dy, pdy, levels - resno),
                })
                .collect()
        };
        let components = sheet.components.iter().map(resolutions_of).collect();
        Tile { x, y, layers: sheet.layers as u64, components }
    }

    pub fn resolutions(&self) -> impl Iterator<Item = &Resolution> + Clone {
        self.components.iter().flatten()
    }

    /// The same with the numbers of component and resolution.
    pub fn numbered(&self) -> impl Iterator<Item = (u32, u32, &Resolution)> {
        let components = (0..).zip(&self.components);
        components.flat_map(|(c, resolutions)| {
            (0..).zip(resolutions).map(move |(r, resolution)| (c, r, resolution))
        })
    }

    pub fn largest_precincts(&self) -> u64 {
        self.resolutions().map(Resolution::precincts).max().unwrap()
    }

    pub fn largest_resolutions(&self) -> u64 {
        self.components.iter().map(|resolutions| resolutions.len() as u64).max().unwrap()
    }

    fn component_stride(&self) -> u128 {
        self.largest_precincts() as u128
    }

    fn resolution_stride(&self) -> u128 {
        self.components.len() as u128 * self.component_stride()
    }

    fn layer_stride(&self) -> u128 {
        self.largest_resolutions() as u128 * self.resolution_stride()
    }

    pub fn marks_needed(&self) -> u128 {
        self.layers as u128 * self.layer_stride()
    }

    /// The index of a packet's mark.
    pub fn mark_of(&self, packet: Packet) -> usize {
        let [layer, resolution, component, precinct] = packet.map(u128::from);
        let index = layer * self.layer_stride()
            + resolution * self.resolution_stride()
            + component * self.component_stride()
            + precinct;
        index as usize
    }

    pub fn reports(&self) -> Reports {
        Reports {
            max_prec: self.largest_precincts() as u32,
            max_res: self.largest_resolutions() as u32,
            dx_min: smallest_step(self.resolutions().map(|resolution| resolution.x.step)),
            dy_min: smallest_step(self.resolutions().map(|resolution| resolution.y.step)),
        }
    }
}

/// Starts at 0x7fffffff and counts only steps that fit 32 bits.
fn smallest_step(steps: impl Iterator<Item = u64>) -> u32 {
    steps.filter_map(|step| u32::try_from(step).ok()).fold(0x7fff_ffff, u32::min)
}
