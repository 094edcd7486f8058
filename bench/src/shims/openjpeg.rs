//! Stands for openjp2's `openjpeg`. That file is given, but it is the door to the whole codec; the files
//! compiled here need only what it hands on, and its two allocation functions for pictures.

pub(crate) use crate::c_api_types::*;
pub(crate) use crate::consts::opj::*;
pub(crate) use crate::types::*;

use crate::malloc::{opj_free, opj_malloc};

pub(crate) unsafe fn opj_image_data_alloc(size: OPJ_SIZE_T) -> *mut core::ffi::c_void {
    opj_malloc(size)
}

pub(crate) unsafe fn opj_image_data_free(data: *mut core::ffi::c_void) {
    opj_free(data);
}
