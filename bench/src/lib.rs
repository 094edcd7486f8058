//! The oracle: the packet iterators of the crate openjp2, compiled unchanged from a folder outside this
//! repository (`OPENJP2_SRC`, see build.rs), shims for what is not given, and safe functions to drive it.

extern crate alloc;

// `mod pi; mod math; ..` with the paths that build.rs found.
include!(concat!(env!("OUT_DIR"), "/openjp2.rs"));

#[allow(non_camel_case_types)]
#[path = "shims/event.rs"]
mod event;
#[path = "shims/function_list.rs"]
mod function_list;
#[allow(dead_code, non_camel_case_types, clippy::upper_case_acronyms)]
#[path = "shims/j2k.rs"]
mod j2k;
#[allow(unused_imports)]
#[path = "shims/openjpeg.rs"]
mod openjpeg;
#[path = "shims/stream.rs"]
mod stream;

#[path = "oracle/arithmetic.rs"]
pub mod arithmetic;
#[path = "oracle/bounds.rs"]
pub mod bounds;
#[path = "oracle/driver.rs"]
pub mod driver;
#[path = "oracle/fault.rs"]
pub mod fault;
#[path = "oracle/iterators.rs"]
mod iterators;
pub mod sheet;
#[path = "oracle/tile.rs"]
mod tile;
