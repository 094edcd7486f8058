//! openjp2's packet iterators of one tile: made, walked, destroyed.

use crate::event::opj_event_mgr;
use crate::pi::*;
use crate::sheet::{Packet, Reports};
use crate::tile::Tile;

/// One iterator for each progression, as openjp2 makes them.
pub(crate) struct Iterators {
    first: *mut opj_pi_iterator_t,
    count: u32,
}

impl Iterators {
    /// `opj_pi_create_decode`, or None where it answers null (it does with no marks needed).
    pub(crate) fn create(tile: &mut Tile) -> Option<Iterators> {
        let count = tile.tcp.numpocs + 1;
        let (image, cp) = tile.linked();
        let first = opj_pi_create_decode(image, cp, 0, &mut opj_event_mgr);
        (!first.is_null()).then_some(Iterators { first, count })
    }

    /// Iterators as `opj_pi_create_decode` would make them, with an include array of no entries.
    pub(crate) fn create_without_marks(tile: &mut Tile) -> Iterators {
        let parameters = tile.parameters();
        let count = tile.tcp.numpocs + 1;
        let (image, cp) = tile.linked();
        let first = opj_pi_create(image, cp, 0, &mut opj_event_mgr);
        assert!(!first.is_null(), "no memory");
        let [tx0, ty0, tx1, ty1] = parameters.bounds;
        for pino in 0..count as usize {
            // SAFETY: `opj_pi_create` made `count` iterators, each with its components and resolutions.
            unsafe {
                let pi = &mut *first.add(pino);
                (pi.tx0, pi.ty0, pi.tx1, pi.ty1) = (tx0, ty0, tx1, ty1);
                pi.step_p = 1;
                let mut words = parameters.table.iter();
                for compno in 0..pi.numcomps as usize {
                    let (comp, image_comp) = (&mut *pi.comps.add(compno), &*(*image).comps.add(compno));
                    (comp.dx, comp.dy) = (image_comp.dx, image_comp.dy);
                    for resno in 0..comp.numresolutions as usize {
                        let [pdx, pdy, pw, ph] = *words.next().unwrap();
                        *comp.resolutions.add(resno) = opj_pi_resolution { pdx, pdy, pw, ph };
                    }
                }
            }
        }
        let Reports { max_prec, max_res, .. } = parameters.reports;
        if tile.tcp.POC {
            opj_pi_update_decode_poc(first, &mut tile.tcp, max_prec, max_res);
        } else {
            opj_pi_update_decode_not_poc(first, &mut tile.tcp, max_prec, max_res);
        }
        Iterators { first, count }
    }

    /// Walks every progression in turn, each up to its first 0 and never beyond, until `visit` says stop.
    /// Answers whether all ended. Not to be called twice: after a 0 the Rust is not in its domain.
    pub(crate) fn walk(&mut self, mut visit: impl FnMut(Packet) -> bool) -> bool {
        for pino in 0..self.count as usize {
            // SAFETY: there are `count` iterators.
            let pi = unsafe { self.first.add(pino) };
            // SAFETY: as above.
            while let Some(packet) = unsafe { next(pi) } {
                if !visit(packet) {
                    return false;
                }
            }
        }
        true
    }

    /// One call of the first progression, whether or not it has ended.
    pub(crate) fn next_of_first(&mut self) -> Option<Packet> {
        // SAFETY: there is a first iterator.
        unsafe { next(self.first) }
    }

    /// The table's words that the first iterator holds.
    pub(crate) fn table(&self) -> Vec<[u32; 4]> {
        let mut table = Vec::new();
        // SAFETY: the iterators hold `numcomps` components, each with `numresolutions` resolutions.
        unsafe {
            let pi = &*self.first;
            for compno in 0..pi.numcomps as usize {
                let comp = &*pi.comps.add(compno);
                for resno in 0..comp.numresolutions as usize {
                    let res = &*comp.resolutions.add(resno);
                    table.push([res.pdx, res.pdy, res.pw, res.ph]);
                }
            }
        }
        table
    }

    /// The include array: a mark for each position, and one layer more than the tile has.
    pub(crate) fn include(&self) -> Vec<i16> {
        // SAFETY: the first iterator owns an array of `include_size` entries, or none.
        unsafe {
            let pi = &*self.first;
            if pi.include.is_null() {
                return Vec::new();
            }
            core::slice::from_raw_parts(pi.include, pi.include_size as usize).to_vec()
        }
    }

    /// The number of marks of one layer.
    pub(crate) fn layer_stride(&self) -> usize {
        // SAFETY: there is a first iterator.
        unsafe { (*self.first).step_l as usize }
    }
}

/// `opj_pi_next`: the packet, or None for 0.
///
/// # Safety
///
/// The pointer is to one of the iterators that openjp2 has made.
unsafe fn next(pi: *mut opj_pi_iterator_t) -> Option<Packet> {
    (opj_pi_next(pi) != 0).then(|| [(*pi).layno, (*pi).resno, (*pi).compno, (*pi).precno])
}

impl Drop for Iterators {
    fn drop(&mut self) {
        opj_pi_destroy(self.first, self.count);
    }
}
