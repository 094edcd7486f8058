//! The sheets whose speed is measured, and who runs them.

use oracle::driver::Timed;
use oracle::sheet::{Component, Progressions, Range, Sheet};

#[cfg(feature = "ours")]
use crate::ours;

/// The five orders' names.
pub const ORDERS: [&str; 5] = ["LRCP", "RLCP", "RPCL", "PCRL", "CPRL"];

/// Precinct exponents of every resolution.
pub const EXPONENTS: [u32; 4] = [5, 6, 7, 8];

/// A tile of 1024 by 1024, 4:2:0, six resolutions, three layers, one progression over all.
pub fn usual(prg: i32, exponent: u32) -> Sheet {
    let component = |d| Component { dx: d, dy: d, resolutions: vec![(exponent, exponent); 6] };
    Sheet {
        tx0: 0,
        ty0: 0,
        tx1: 1024,
        ty1: 1024,
        layers: 3,
        components: [1, 2, 2].map(component).to_vec(),
        progressions: Progressions::WholeTile(prg),
    }
}

/// One thing of the usual sheet changed: what that costs.
pub fn grown() -> Vec<(&'static str, Sheet)> {
    let beyond = Range { prg: 3, resno0: 0, compno0: 0, layno1: 3, resno1: 33, compno1: 3, mixed: false };
    let beyond = Sheet { progressions: Progressions::Ranges(vec![beyond]), ..usual(3, 6) };
    let usual = usual(2, 6);
    let mut resolutions = usual.clone();
    for component in &mut resolutions.components {
        component.resolutions = vec![(6, 6); 12];
    }
    let components = [usual.components.clone(), usual.components.clone()].concat();
    let none = Range { prg: 2, resno0: 0, compno0: 0, layno1: 0, resno1: 0, compno1: 3, mixed: false };
    vec![
        ("RPCL, precincts of 64", usual.clone()),
        ("packets doubled (width 2048)", Sheet { tx1: 2048, ..usual.clone() }),
        ("components doubled", Sheet { components, ..usual.clone() }),
        ("resolutions doubled", resolutions),
        ("PCRL, a range of 33 resolutions", beyond),
        ("setup only (no packets)", Sheet { progressions: Progressions::Ranges(vec![none]), ..usual }),
    ]
}

/// A way to run one sheet; answers the number of packets.
pub type Runner = Box<dyn FnMut() -> usize>;

/// The Rust: create, walk, destroy.
pub fn rust(sheet: &Sheet) -> Runner {
    let mut timed = Timed::new(sheet);
    Box::new(move || timed.create_walk_destroy())
}

/// Our whole run on the sheet's bytes.
#[cfg(feature = "ours")]
pub fn ours(sheet: &Sheet) -> Runner {
    lent(sheet, ours::whole_run)
}

/// A run of ours on the sheet's bytes, in buffers that are large enough for any.
#[cfg(feature = "ours")]
fn lent(sheet: &Sheet, run: ours::Run) -> Runner {
    let bytes = sheet.bytes();
    let mut table = vec![0; 16 * 16 * 33];
    let mut marks = vec![0; 65_536];
    let mut output = vec![0; 16 * 65_536];
    Box::new(move || run(&bytes, &mut table, &mut marks, &mut output).unwrap_or(usize::MAX))
}

/// Our run by single steps on the sheet's bytes.
#[cfg(stepped)]
pub fn stepped(sheet: &Sheet) -> Runner {
    lent(sheet, ours::stepped_run)
}

/// The Rust, and ours if it is linked.
pub fn runners(sheet: &Sheet) -> Vec<Runner> {
    vec![
        rust(sheet),
        #[cfg(feature = "ours")]
        ours(sheet),
    ]
}
