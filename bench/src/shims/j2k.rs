//! Stands for openjp2's `j2k`, which is not among the files given. Only types that other files name and
//! that its encoder's tile parts use; none of it is reached when decoding.

use crate::c_api_types::OPJ_PROG_ORDER;

/// Element types of a multiple component transform; a field's type only.
#[derive(Copy, Clone)]
pub(crate) enum MCTElementType {
    MCT_TYPE_INT16 = 0,
}

/// The decoder's place in the code stream; a field's type only.
#[derive(Copy, Clone)]
pub(crate) enum J2KState {
    NONE = 0,
}

/// The letters of a progression's name, for the encoder's tile parts.
#[derive(Copy, Clone)]
pub(crate) enum ProgressionStep {
    Resolution,
    Component,
    Layer,
    Precinct,
    Unknown,
}

/// A progression's name, for the encoder's tile parts.
#[derive(Copy, Clone)]
pub(crate) struct ProgressionOrder;

impl ProgressionOrder {
    pub(crate) fn get_step(self, _position: i32) -> ProgressionStep {
        unreachable!("encoder only")
    }
}

pub(crate) fn opj_j2k_convert_progression_order(_order: OPJ_PROG_ORDER) -> ProgressionOrder {
    unreachable!("encoder only")
}
