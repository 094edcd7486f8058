//! Tile bounds by `opj_get_all_encoding_parameters`, for any tile of any grid.

use std::hint::black_box;
use std::mem::zeroed;

use crate::fault;
use crate::openjpeg::*;
use crate::tile::asked;

/// Image area, tile grid origin, tile size, numbers of tiles across and down, tile number.
#[derive(Clone, Copy, Debug, PartialEq)]
pub struct Grid {
    pub x0: u32,
    pub y0: u32,
    pub x1: u32,
    pub y1: u32,
    pub tx0: u32,
    pub ty0: u32,
    pub tdx: u32,
    pub tdy: u32,
    pub tw: u32,
    pub th: u32,
    pub tileno: u32,
}

impl Grid {
    /// The fields in the C form's order.
    pub fn words(&self) -> [u32; 11] {
        let Grid { x0, y0, x1, y1, tx0, ty0, tdx, tdy, tw, th, tileno } = *self;
        [x0, y0, x1, y1, tx0, ty0, tdx, tdy, tw, th, tileno]
    }
}

/// tx0, ty0, tx1, ty1, or None where openjp2's own assertion stops it.
pub fn tile_bounds(grid: &Grid) -> Option<[u32; 4]> {
    fault::caught(|| Asker::default().ask(grid)).ok()
}

/// openjp2's records, made once for many questions.
pub struct Asker {
    image: opj_image_t,
    cp: opj_cp_t,
    tcp: Box<opj_tcp_t>,
}

impl Default for Asker {
    fn default() -> Asker {
        // SAFETY: numbers, pointers and bools, for all of which zero is a value.
        unsafe { Asker { image: opj_image_t::default(), cp: zeroed(), tcp: Box::new(zeroed()) } }
    }
}

impl Asker {
    /// tx0, ty0, tx1, ty1; faults for a tile number that openjp2 does not take.
    pub fn ask(&mut self, grid: &Grid) -> [u32; 4] {
        let Asker { image, cp, tcp } = self;
        (image.x0, image.y0, image.x1, image.y1) = (grid.x0, grid.y0, grid.x1, grid.y1);
        (cp.tx0, cp.ty0, cp.tdx, cp.tdy) = (grid.tx0, grid.ty0, grid.tdx, grid.tdy);
        (cp.tw, cp.th) = (grid.tw, grid.th);
        // openjp2 looks up the tile's own record at `tcps + tileno`; there is one, and it is meant.
        cp.tcps = black_box((&raw mut **tcp).wrapping_sub(grid.tileno as usize));
        asked(image, cp, grid.tileno, core::ptr::null_mut()).0
    }
}
