//! Inputs, all of them determined by a seed and a place: sheets, tile grids, operands.

pub mod damage;
pub mod exhaustive;
pub mod limits;
pub mod sheets;
#[cfg(feature = "ours")]
pub mod sparse;

use oracle::arithmetic::Function;
use oracle::bounds::Grid;

use crate::random::Random;

/// The sheet at a place of a seed: mostly one that is accepted, sometimes a damaged one.
pub fn sheet(seed: u64, place: u64) -> Vec<u8> {
    let mut random = Random::at(seed, place);
    let sheet = sheets::any(&mut random);
    if random.once_in(8) {
        damage::any(&mut random, &sheet)
    } else {
        sheet.bytes()
    }
}

/// The tile grid at a place of a seed.
pub fn grid(seed: u64, place: u64) -> Grid {
    let random = &mut Random::at(seed, place);
    let [x0, y0, x1, y1, tx0, ty0] = std::array::from_fn(|_| random.edge());
    let [tdx, tdy] = std::array::from_fn(|_| random.edge());
    let [tw, th] = match random.below(4) {
        0 => [random.edge(), random.edge()],
        // A product that wraps at 2^32.
        1 => [1 << random.between(14, 20), (1 << random.between(12, 20)) + random.between(0, 2)],
        _ => [random.between(1, 300), random.between(1, 300)],
    };
    let tiles = tw.wrapping_mul(th);
    let tileno = match random.below(4) {
        0 => random.edge(),
        1 => tiles.wrapping_add(random.between(0, 2)).wrapping_sub(1),
        _ => (random.next() % (tiles.max(1) as u64)) as u32,
    };
    Grid { x0, y0, x1, y1, tx0, ty0, tdx, tdy, tw, th, tileno }
}

/// A function of the arithmetic and its operands at a place of a seed.
pub fn operation(seed: u64, place: u64) -> (Function, u64, u64) {
    let random = &mut Random::at(seed, place);
    let function = random.one_of(&Function::ALL);
    let wide = |random: &mut Random| match random.below(4) {
        0 => random.edge() as u64,
        1 => u64::MAX - random.edge() as u64,
        _ => random.next() >> random.between(0, 63),
    };
    let (a, b) = match function {
        Function::CeilDiv64 => (wide(random), wide(random)),
        Function::FloorDivPow2 | Function::CeilDivPow2 => (
            random.edge() as u64,
            if random.once_in(8) { random.edge() } else { random.between(0, 66) } as u64,
        ),
        _ => (random.edge() as u64, random.edge() as u64),
    };
    (function, a, b)
}
