//! 01, module 1: the arithmetic, with -22 where the Rust asserts or faults.

use oracle::arithmetic::Function;

/// The answer modulo 2^32, or -22. All operands but those of `CeilDiv64` are taken modulo 2^32.
pub fn answer(function: Function, a: u64, b: u64) -> Result<u32, i32> {
    let modulo = |number: u64| (number % (1 << 32)) as u128;
    let (a, b) =
        if function == Function::CeilDiv64 { (a as u128, b as u128) } else { (modulo(a), modulo(b)) };
    let refused = match function {
        Function::CeilDiv => b == 0,
        Function::CeilDiv64 => b == 0 || a + b > u64::MAX as u128,
        Function::FloorDivPow2 => b >= 32,
        Function::CeilDivPow2 => b >= 64,
        _ => false,
    };
    if refused {
        return Err(-22);
    }
    let exact = match function {
        Function::Min => a.min(b),
        Function::Max => a.max(b),
        Function::SaturatingAdd => (a + b).min(4_294_967_295),
        Function::CeilDiv | Function::CeilDiv64 => a.div_ceil(b),
        Function::FloorDivPow2 => a / (1 << b),
        Function::CeilDivPow2 => a.div_ceil(1 << b),
    };
    Ok((exact % (1 << 32)) as u32)
}
