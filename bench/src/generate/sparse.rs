//! Sheets with few packets for their grid: the slowest ones for a walk that looks at every stride.

use oracle::sheet::{Component, Progressions, Range, Sheet};

use super::sheets::settle;
use crate::random::Random;

pub fn any(random: &mut Random) -> Sheet {
    let count = random.one_of(&[1, 2, 2, 3, 16]);
    let components: Vec<Component> = (0..random.between(1, count)).map(|_| component(random)).collect();
    let (tx0, tx1) = interval(random);
    let (ty0, ty1) = interval(random);
    let layers = random.one_of(&[1, 1, 1, 2, 65_535]);
    let prg = random.one_of(&[0, 1, 2, 2, 3, 3, 4, 4]);
    let range = Range {
        prg,
        resno0: 0,
        compno0: 0,
        layno1: layers,
        resno1: 33,
        compno1: components.len() as u32,
        mixed: false,
    };
    let ranges = vec![range; random.one_of(&[1, 1, 2, 32])];
    let progressions = Progressions::Ranges(ranges);
    let sheet = Sheet { tx0, ty0, tx1, ty1, layers, components, progressions };
    settle(random, sheet, u128::MAX)
}

/// Fine on one axis and coarse on the other, or so subsampled that an axis may have nothing.
fn component(random: &mut Random) -> Component {
    let d = |random: &mut Random| random.one_of(&[1, 1, 2, 16, 128]);
    let (dx, dy) = (d(random), d(random));
    let resolutions = random.one_of(&[1, 1, 2, 5, 16, 24]);
    let exponent = |random: &mut Random| random.one_of(&[0, 0, 1, 8, 15]);
    let alike = random.once_in(2).then(|| (exponent(random), exponent(random)));
    let resolutions =
        (0..resolutions).map(|_| alike.unwrap_or_else(|| (exponent(random), exponent(random)))).collect();
    Component { dx, dy, resolutions }
}

/// All of an axis, a single coordinate, or something between.
fn interval(random: &mut Random) -> (u32, u32) {
    match random.below(5) {
        0 => (random.between(0, 1), u32::MAX),
        1 => (1, 2),
        2 => (random.between(0, 1), random.between(1, 64)),
        3 => (0, 32_768 << random.between(0, 4)),
        _ => {
            let (a, b) = (random.edge(), random.edge());
            (a.min(b), a.max(b))
        }
    }
}
