//! openjp2's own records for one tile, filled from a sheet.

use crate::openjpeg::*;
use crate::sheet::{Component, Progressions, Range, Reports, Sheet};

/// The picture, the coding parameters and what they point to. The tile is the only one of its grid.
pub(crate) struct Tile {
    /// Owns its components.
    image: opj_image_t,
    cp: opj_cp_t,
    pub(crate) tcp: opj_tcp_t,
    tccps: Vec<opj_tccp_t>,
}

impl Tile {
    pub(crate) fn of(sheet: &Sheet) -> Tile {
        let mut tile = Tile {
            image: image_of(sheet),
            // SAFETY: numbers, pointers and bools, for all of which zero is a value.
            cp: unsafe { core::mem::zeroed() },
            tcp: unsafe { core::mem::zeroed() },
            tccps: sheet.components.iter().map(tccp_of).collect(),
        };
        (tile.cp.tx0, tile.cp.ty0) = (sheet.tx0, sheet.ty0);
        (tile.cp.tdx, tile.cp.tdy) = (sheet.tx1 - sheet.tx0, sheet.ty1 - sheet.ty0);
        (tile.cp.tw, tile.cp.th) = (1, 1);
        tile.cp.m_is_decoder = true;
        tile.tcp.numlayers = sheet.layers;
        tile.tcp.numpocs = sheet.progressions.count() as u32 - 1;
        match &sheet.progressions {
            Progressions::WholeTile(prg) => tile.tcp.prg = *prg,
            Progressions::Ranges(ranges) => {
                tile.tcp.POC = true;
                for (poc, range) in tile.tcp.pocs.iter_mut().zip(ranges) {
                    *poc = poc_of(range);
                }
            }
        }
        tile
    }

    /// Picture and coding parameters, with the pointers between them set.
    pub(crate) fn linked(&mut self) -> (*mut opj_image_t, *mut opj_cp_t) {
        self.tcp.tccps = self.tccps.as_mut_ptr();
        self.cp.tcps = &mut self.tcp;
        (&mut self.image, &mut self.cp)
    }

    pub(crate) fn resolutions(&self) -> impl Iterator<Item = usize> + '_ {
        self.tccps.iter().map(|tccp| tccp.numresolutions as usize)
    }

    /// Asks `opj_get_all_encoding_parameters`.
    pub(crate) fn parameters(&mut self) -> Parameters {
        let mut words: Vec<[u32; 4 * 33]> = vec![[0; 4 * 33]; self.tccps.len()];
        let mut pointers: Vec<*mut u32> = words.iter_mut().map(|words| words.as_mut_ptr()).collect();
        let (image, cp) = self.linked();
        let (bounds, reports) = asked(image, cp, 0, pointers.as_mut_ptr());
        let table = words
            .iter()
            .zip(self.resolutions())
            .flat_map(|(words, count)| words.chunks_exact(4).take(count))
            .map(|words| words.try_into().unwrap())
            .collect();
        Parameters { bounds, reports, table }
    }
}

/// Asks `opj_get_all_encoding_parameters` for a tile's bounds (tx0, ty0, tx1, ty1) and reports; it writes the tables that are given.
pub(crate) fn asked(
    image: *mut opj_image_t,
    cp: *mut opj_cp_t,
    tileno: u32,
    tables: *mut *mut u32,
) -> ([u32; 4], Reports) {
    let [mut tx0, mut tx1, mut ty0, mut ty1] = [0; 4];
    let [mut dx_min, mut dy_min, mut max_prec, mut max_res] = [0; 4];
    crate::pi::opj_get_all_encoding_parameters(
        image,
        cp,
        tileno,
        &mut tx0,
        &mut tx1,
        &mut ty0,
        &mut ty1,
        &mut dx_min,
        &mut dy_min,
        &mut max_prec,
        &mut max_res,
        tables,
    );
    ([tx0, ty0, tx1, ty1], Reports { max_prec, max_res, dx_min, dy_min })
}

/// The answer of `opj_get_all_encoding_parameters`.
pub(crate) struct Parameters {
    pub(crate) bounds: [u32; 4],
    pub(crate) reports: Reports,
    pub(crate) table: Vec<[u32; 4]>,
}

fn image_of(sheet: &Sheet) -> opj_image_t {
    let mut image = opj_image_t::default();
    (image.x0, image.y0, image.x1, image.y1) = (sheet.tx0, sheet.ty0, sheet.tx1, sheet.ty1);
    assert!(image.alloc_comps(sheet.components.len() as u32), "no memory");
    let comps = image.comps_mut().unwrap();
    for (comp, component) in comps.iter_mut().zip(&sheet.components) {
        (comp.dx, comp.dy) = (component.dx, component.dy);
    }
    image
}

fn tccp_of(component: &Component) -> opj_tccp_t {
    // SAFETY: numbers only.
    let mut tccp: opj_tccp_t = unsafe { core::mem::zeroed() };
    tccp.numresolutions = component.resolutions.len() as u32;
    for (resno, &(pdx, pdy)) in component.resolutions.iter().enumerate() {
        tccp.prcw[resno] = pdx;
        tccp.prch[resno] = pdy;
    }
    tccp
}

fn poc_of(range: &Range) -> opj_poc_t {
    opj_poc_t {
        prg: range.prg,
        resno0: range.resno0,
        compno0: range.compno0,
        layno1: range.layno1,
        resno1: range.resno1,
        compno1: range.compno1,
        ..Default::default()
    }
}
