//! The commands, one file each.

pub mod bench;
pub mod differential;
pub mod findings;
#[cfg(feature = "ours")]
pub mod fuzz;
pub mod instructions;
pub mod show;
#[cfg(feature = "ours")]
pub mod slow;
pub mod vectors;

/// Which build of the oracle this is.
pub fn build() -> &'static str {
    if cfg!(debug_assertions) {
        "with overflow checks"
    } else {
        "optimised"
    }
}
