//! The functions of openjp2's math.rs that document 01 takes, called with any operands.

use crate::fault;
use crate::math::*;

/// The functions, in the order of 01's list.
#[derive(Clone, Copy, Debug, PartialEq)]
pub enum Function {
    Min,
    Max,
    SaturatingAdd,
    CeilDiv,
    CeilDiv64,
    FloorDivPow2,
    CeilDivPow2,
}

impl Function {
    pub const ALL: [Function; 7] = [
        Function::Min,
        Function::Max,
        Function::SaturatingAdd,
        Function::CeilDiv,
        Function::CeilDiv64,
        Function::FloorDivPow2,
        Function::CeilDivPow2,
    ];
}

/// What math.rs answers; all operands but those of `CeilDiv64` are taken modulo 2^32. None if it faults.
pub fn ask(function: Function, a: u64, b: u64) -> Option<u32> {
    let (short_a, short_b) = (a as u32, b as u32);
    fault::caught(|| match function {
        Function::Min => opj_uint_min(short_a, short_b),
        Function::Max => opj_uint_max(short_a, short_b),
        Function::SaturatingAdd => opj_uint_adds(short_a, short_b),
        Function::CeilDiv => opj_uint_ceildiv(short_a, short_b),
        Function::CeilDiv64 => opj_uint64_ceildiv_res_uint32(a, b),
        Function::FloorDivPow2 => opj_uint_floordivpow2(short_a, short_b),
        Function::CeilDivPow2 => opj_uint_ceildivpow2(short_a, short_b),
    })
    .ok()
}
