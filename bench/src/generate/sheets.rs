//! Random sheets that are mostly accepted, of every order and near every limit.

use oracle::sheet::{Component, Progressions, Range, Sheet};

use crate::domain;
use crate::model;
use crate::model::geometry::{Resolution, Side};
use crate::random::Random;

/// The most places that the Rust is let look at in a sheet made here.
const VISITS: u128 = 40_000;

pub fn any(random: &mut Random) -> Sheet {
    match random.below(32) {
        0 => at_marks_limit(random),
        1 | 2 => within_ranges(random),
        3..=5 => beside_wide(random),
        6..=8 => mixed(random),
        _ => usual(random),
    }
}

/// A sheet with some shape, made smaller until the marks suffice and the Rust need not look long.
pub fn usual(random: &mut Random) -> Sheet {
    let prg = order(random);
    let by_position = (2..=4).contains(&prg);
    // Steps are made to fit 32 bits where the order asks for it; not always.
    let fitting = by_position && !random.once_in(16);
    let most = random.one_of(&[1, 2, 3, 6, if fitting { 32 } else { 33 }]);
    let count = random.one_of(&[1, 1, 2, 2, 3, 4, 16]);
    let counts: Vec<usize> =
        (0..random.between(1, count)).map(|_| random.between(1, most) as usize).collect();
    let xs = sides(random, &counts, fitting);
    let ys = sides(random, &counts, fitting);
    let components: Vec<Component> = xs
        .into_iter()
        .zip(ys)
        .map(|((dx, pdx), (dy, pdy))| Component { dx, dy, resolutions: pdx.into_iter().zip(pdy).collect() })
        .collect();
    let layers = match random.below(12) {
        0 => random.between(1, 65_535),
        1 => random.one_of(&[65_535, 65_534, 256]),
        _ => random.one_of(&[1, 1, 2, 3, 7]),
    };
    let progressions = progressions(random, prg, layers, &components);
    let mut sheet = Sheet { tx0: 0, ty0: 0, tx1: 0, ty1: 0, layers, components, progressions };
    let tile = model::geometry::Tile::of(&sheet);
    let resolutions: Vec<Resolution> = tile.resolutions().copied().collect();
    (sheet.tx0, sheet.tx1) = extent(random, &resolutions, |resolution| &resolution.x);
    (sheet.ty0, sheet.ty1) = extent(random, &resolutions, |resolution| &resolution.y);
    settle(random, sheet, VISITS)
}

/// A component with steps of more than 32 bits among others, and progressions of order 4 that mostly keep to one
/// side of it: those are accepted (02, P5).
pub fn beside_wide(random: &mut Random) -> Sheet {
    let mut sheet = usual(random);
    sheet.components.truncate(15);
    let at = random.between(0, sheet.components.len() as u32);
    let count = random.one_of(&[33, 33, 33, 25, 18]);
    let (dx, dy) = (random.one_of(&[1, 1, 2, 3]), random.one_of(&[1, 1, 2, 3]));
    sheet.components.insert(at as usize, Component { dx, dy, resolutions: vec![(15, 15); count] });
    let last = sheet.components.len() as u32;
    let ranges = (0..random.between(1, 3))
        .map(|_| {
            let anything = range(random, sheet.layers, &sheet.components);
            if random.once_in(8) {
                return Range { prg: order(random), ..anything };
            }
            let after = at == 0 || at + 1 < last && random.once_in(2);
            let (low, high) = if after { (at + 1, last) } else { (0, at) };
            let compno0 = random.between(low, high - 1);
            let empty = random.once_in(8);
            let compno1 = random.between(compno0 + !empty as u32, high);
            Range { prg: random.one_of(&[4, 4, 4, 0]), compno0, compno1, ..anything }
        })
        .collect();
    sheet.progressions = Progressions::Ranges(ranges);
    settle(random, sheet, VISITS)
}

/// Planes whose steps need not divide one another, with progressions of kind 6, and of kind 4 among them (02, P6). The
/// tile is so small that every point of it can be tested.
pub fn mixed(random: &mut Random) -> Sheet {
    let step = |random: &mut Random| random.one_of(&[1, 2, 2, 3, 3, 4, 5, 6]);
    let components: Vec<Component> = (0..random.between(1, 4))
        .map(|_| Component {
            dx: step(random),
            dy: step(random),
            resolutions: (0..random.between(1, 4))
                .map(|_| (random.between(0, 3), random.between(0, 3)))
                .collect(),
        })
        .collect();
    let side = |random: &mut Random| {
        let length = random.between(0, 64);
        let anywhere = random.word();
        let start = random.one_of(&[0, 1, 5, 48, 96, 97, anywhere, u32::MAX]).min(u32::MAX - length);
        (start, start + length)
    };
    let ((tx0, tx1), (ty0, ty1)) = (side(random), side(random));
    let layers = random.one_of(&[1, 1, 2, 3]);
    let ranges = (0..random.between(1, 3))
        .map(|_| {
            let mixed = !random.once_in(4);
            let prg = if mixed { random.one_of(&[2, 3, 4]) } else { random.one_of(&[0, 1, 4]) };
            let prg = if random.once_in(16) { order(random) } else { prg };
            Range { prg, mixed, ..range(random, layers, &components) }
        })
        .collect();
    let progressions = Progressions::Ranges(ranges);
    settle(random, Sheet { tx0, ty0, tx1, ty1, layers, components, progressions }, VISITS)
}

/// One of the five orders; now and then none.
fn order(random: &mut Random) -> i32 {
    if random.once_in(40) {
        random.one_of(&[-1, 5, 6, i32::MIN, i32::MAX])
    } else {
        random.between(0, 4) as i32
    }
}

/// For each component, its subsampling and exponents on one axis. Mostly the smallest step divides them all.
fn sides(random: &mut Random, counts: &[usize], fitting: bool) -> Vec<(u32, Vec<u32>)> {
    let base = random.one_of(&[0, 0, 1, 2, 3, 5, 7, 11, 15]);
    let spread = random.one_of(&[0, 1, 3]);
    let exponent = |random: &mut Random| (base + random.between(0, spread)).min(15);
    let odd: u32 = random.one_of(&[1, 1, 1, 3, 5, 7, 85, 255]);
    let style = random.below(8);
    let mut finest = 0;
    let mut axis = Vec::new();
    for (compno, &count) in counts.iter().enumerate() {
        let mut exponents: Vec<u32> = (0..count).map(|_| exponent(random)).collect();
        let doublings = random.between(0, (255 / odd).ilog2().min(3));
        let d = match style {
            // Anything: the grid is agreed for orders 0, 1 and 4 only.
            0 => random.between(1, 255),
            // A fine first component, and any other coarser in exponents.
            1 | 2 if compno == 0 => {
                let levels = exponents.iter().rev().enumerate();
                finest = levels.map(|(level, pd)| pd + level as u32).min().unwrap();
                1
            }
            1 | 2 => {
                for (level, pd) in exponents.iter_mut().rev().enumerate() {
                    *pd = (*pd).max(finest.saturating_sub(level as u32)).min(15);
                }
                random.one_of(&[1, 2, 3, 4, 6, 17, 255])
            }
            // Powers of two times one odd number.
            _ => odd << doublings,
        };
        for (level, pd) in exponents.iter_mut().rev().enumerate() {
            if fitting {
                *pd = (*pd).min(31u32.saturating_sub(level as u32 + d.next_power_of_two().ilog2()));
            }
        }
        axis.push((d, exponents));
    }
    axis
}

/// Start and end of the tile on one axis: some steps long, anywhere that 32 bits reach.
fn extent(
    random: &mut Random,
    resolutions: &[Resolution],
    side: impl Fn(&Resolution) -> &Side,
) -> (u32, u32) {
    let last = u32::MAX as u64;
    let mut step = || side(&random.one_of(resolutions)).step.min(last);
    let (length_step, start_step) = (step(), step());
    let length = match random.below(8) {
        0 => random.below(3),
        1 => length_step * random.between(1, 4) as u64,
        _ => random.below(length_step * 4) + random.below(8),
    };
    let length = length.min(last);
    let room = last - length;
    let nudge = random.below(3);
    let start = match random.below(8) {
        0 | 1 => 0,
        2 => random.below(40),
        3 => (start_step * random.below(6) + nudge).saturating_sub(1),
        // The end at a multiple of a step below 2^32, or one beside it, or the last coordinate.
        4 => (last / start_step * start_step - 1 + nudge).saturating_sub(length),
        5 => (last / start_step * start_step).saturating_sub(start_step + length) + nudge,
        6 => room,
        _ => random.word() as u64,
    };
    let start = start.min(room);
    (start as u32, (start + length) as u32)
}

fn progressions(random: &mut Random, prg: i32, layers: u32, components: &[Component]) -> Progressions {
    if random.once_in(2) {
        return Progressions::WholeTile(prg);
    }
    let count = random.one_of(&[1, 2, 3, 5, 32]);
    let others = random.once_in(2);
    let ranges = (0..random.between(1, count))
        .map(|_| Range { prg: if others { order(random) } else { prg }, ..range(random, layers, components) })
        .collect();
    Progressions::Ranges(ranges)
}

fn range(random: &mut Random, layers: u32, components: &[Component]) -> Range {
    let resolutions = components.iter().map(|component| component.resolutions.len() as u32).max().unwrap();
    let components = components.len() as u32;
    let mut range = Range {
        prg: 0,
        resno0: 0,
        compno0: 0,
        layno1: layers,
        resno1: 33,
        compno1: components,
        mixed: false,
    };
    // A range of one kind may be empty, but seldom is.
    let empty = random.once_in(8);
    if random.once_in(2) {
        range.resno0 = random.between(0, resolutions - 1);
        range.resno1 = random.between(if empty { 0 } else { range.resno0 + 1 }, (resolutions + 1).min(33));
    }
    if random.once_in(2) {
        range.layno1 = random.between(!empty as u32, (layers + 1).min(65_535));
    }
    if random.once_in(2) {
        range.compno0 = random.between(0, components - 1);
        range.compno1 = random.between(if empty { 0 } else { range.compno0 + 1 }, components);
    }
    if random.once_in(16) {
        range.compno0 = random.one_of(&[components - 1, components, u32::MAX]);
        range.compno1 = random.one_of(&[components, components + 1, u32::MAX]);
    }
    range
}

/// Halves layers and lengths while too many marks are needed or the Rust would look at too many places.
pub fn settle(random: &mut Random, mut sheet: Sheet, most_visits: u128) -> Sheet {
    for _ in 0..80 {
        let too_large = match model::judge(&sheet) {
            Err(-5) => true,
            Ok(tile) => domain::visits(&sheet, &tile) > most_visits,
            _ => false,
        };
        if !too_large {
            break;
        }
        let (width, height) = (sheet.tx1 - sheet.tx0, sheet.ty1 - sheet.ty0);
        if sheet.layers > 1 && random.once_in(3) {
            sheet.layers = sheet.layers.div_ceil(2);
        } else if width > height {
            shorten(random, &mut sheet.tx0, &mut sheet.tx1);
        } else {
            shorten(random, &mut sheet.ty0, &mut sheet.ty1);
        }
    }
    sheet
}

/// Halves a length from its start or from its end.
fn shorten(random: &mut Random, start: &mut u32, end: &mut u32) {
    let half = (*end - *start) / 2;
    if random.once_in(2) {
        *start += half;
    } else {
        *end -= half;
    }
}

/// As many marks as there may be, or a few more or less.
fn at_marks_limit(random: &mut Random) -> Sheet {
    let mut left = 16;
    let mut share = |random: &mut Random, most: u32| {
        let share = random.between(0, most.min(left));
        left -= share;
        share
    };
    let (components, resolutions) = (1 << share(random, 4), 1usize << share(random, 4));
    let (wide, high) = (share(random, 8), share(random, 8));
    let layers = (1u32 << left).min(65_535);
    let (pdx, pdy) = (random.between(0, 8), random.between(0, 8));
    let component = Component { dx: 1, dy: 1, resolutions: vec![(pdx, pdy); resolutions] };
    let prg = random.between(0, 4) as i32;
    let mut sheet = Sheet {
        tx0: 0,
        ty0: 0,
        tx1: 1 << (wide + pdx),
        ty1: 1 << (high + pdy),
        layers,
        components: vec![component; components],
        progressions: Progressions::WholeTile(prg),
    };
    match random.below(4) {
        0 => sheet.tx1 += 1,
        1 => sheet.ty1 -= 1,
        2 => sheet.layers = (sheet.layers + 1).min(65_535),
        _ => {}
    }
    if random.once_in(4) {
        sheet.progressions = progressions(random, prg, layers, &sheet.components);
    }
    sheet
}

/// Every field anything in its range: most of these are refused with -4 or -5.
fn within_ranges(random: &mut Random) -> Sheet {
    let interval = |random: &mut Random| {
        let (a, b) = (random.edge(), random.edge());
        (a.min(b), a.max(b))
    };
    let (tx0, tx1) = interval(random);
    let (ty0, ty1) = interval(random);
    let count = random.one_of(&[1, 2, 16]);
    let components: Vec<Component> = (0..random.between(1, count))
        .map(|_| Component {
            dx: random.between(1, 255),
            dy: random.between(1, 255),
            resolutions: (0..random.between(1, 33))
                .map(|_| (random.between(0, 15), random.between(0, 15)))
                .collect(),
        })
        .collect();
    let layers = random.between(1, 65_535);
    let prg = order(random);
    let progressions = progressions(random, prg, layers, &components);
    let sheet = Sheet { tx0, ty0, tx1, ty1, layers, components, progressions };
    if random.once_in(2) {
        settle(random, sheet, VISITS)
    } else {
        sheet
    }
}
