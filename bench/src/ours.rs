//! Our C exports as safe functions: slices in, `Result` out.

use oracle::bounds::Grid;

/// A refusal's number, as document 01 lists them.
#[derive(Clone, Copy, Debug, PartialEq)]
pub struct Refusal(pub i32);

mod exports {
    extern "C" {
        pub fn bonxigarth_whole_run(
            sheet: *const u8,
            sheet_len: usize,
            table: *mut u8,
            table_len: usize,
            marks: *mut u8,
            marks_len: usize,
            output: *mut u8,
            output_len: usize,
        ) -> i32;

        #[cfg(stepped)]
        pub fn bonxigarth_stepped_run(
            sheet: *const u8,
            sheet_len: usize,
            table: *mut u8,
            table_len: usize,
            marks: *mut u8,
            marks_len: usize,
            output: *mut u8,
            output_len: usize,
        ) -> i32;

        pub fn bonxigarth_setup(
            sheet: *const u8,
            sheet_len: usize,
            table: *mut u8,
            table_len: usize,
            marks: *mut u8,
            marks_len: usize,
            reports: *mut u8,
            reports_len: usize,
        ) -> i32;

        pub fn bonxigarth_tile_bounds(
            x0: u32,
            y0: u32,
            x1: u32,
            y1: u32,
            tx0: u32,
            ty0: u32,
            tdx: u32,
            tdy: u32,
            tw: u32,
            th: u32,
            tileno: u32,
            output: *mut u8,
            output_len: usize,
        ) -> i32;
    }
}

/// An export that is lent a sheet, a table, marks and an output.
type OnSheet = unsafe extern "C" fn(*const u8, usize, *mut u8, usize, *mut u8, usize, *mut u8, usize) -> i32;

fn call(export: OnSheet, sheet: &[u8], table: &mut [u8], marks: &mut [u8], output: &mut [u8]) -> i32 {
    // SAFETY: four slices with their own lengths; the three that are written are not shared.
    unsafe {
        export(
            sheet.as_ptr(),
            sheet.len(),
            table.as_mut_ptr(),
            table.len(),
            marks.as_mut_ptr(),
            marks.len(),
            output.as_mut_ptr(),
            output.len(),
        )
    }
}

/// A run of a sheet that is lent a table, marks and an output.
pub type Run = fn(&[u8], &mut [u8], &mut [u8], &mut [u8]) -> Result<usize, Refusal>;

/// Runs a whole sheet and answers the number of packets written to `output`.
pub fn whole_run(
    sheet: &[u8],
    table: &mut [u8],
    marks: &mut [u8],
    output: &mut [u8],
) -> Result<usize, Refusal> {
    counted(call(exports::bonxigarth_whole_run, sheet, table, marks, output))
}

/// The same, made by setup and single steps: every progression opened, and stepped until it ends.
#[cfg(stepped)]
pub fn stepped_run(
    sheet: &[u8],
    table: &mut [u8],
    marks: &mut [u8],
    output: &mut [u8],
) -> Result<usize, Refusal> {
    counted(call(exports::bonxigarth_stepped_run, sheet, table, marks, output))
}

/// Sets a sheet up and writes what setup reports, big-endian, to the first 16 bytes of `reports`.
pub fn setup(sheet: &[u8], table: &mut [u8], marks: &mut [u8], reports: &mut [u8]) -> Result<(), Refusal> {
    done(call(exports::bonxigarth_setup, sheet, table, marks, reports))
}

/// Writes tx0, ty0, tx1 and ty1, big-endian, to the first 16 bytes of `output`.
pub fn tile_bounds(grid: &Grid, output: &mut [u8]) -> Result<(), Refusal> {
    let [x0, y0, x1, y1, tx0, ty0, tdx, tdy, tw, th, tileno] = grid.words();
    // SAFETY: a slice with its own length.
    let answer = unsafe {
        exports::bonxigarth_tile_bounds(
            x0,
            y0,
            x1,
            y1,
            tx0,
            ty0,
            tdx,
            tdy,
            tw,
            th,
            tileno,
            output.as_mut_ptr(),
            output.len(),
        )
    };
    done(answer)
}

fn counted(answer: i32) -> Result<usize, Refusal> {
    usize::try_from(answer).map_err(|_| Refusal(answer))
}

fn done(answer: i32) -> Result<(), Refusal> {
    if answer == 0 {
        Ok(())
    } else {
        Err(Refusal(answer))
    }
}
