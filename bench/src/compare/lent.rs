//! Ours against the model: answers, what is written, and that nothing else changes, with buffers of many
//! lengths between guard bytes.

use std::fmt::Debug;

use oracle::bounds::Grid;

use super::{same, same_list};
use crate::model::{Answer, Lent};
use crate::ours::{self, Refusal};
use crate::random::Random;

/// The most steps times resolutions for which a run is made by single steps, too.
const STEPPED: usize = 5_000;

/// Guard bytes on either side of a buffer.
const GUARD: usize = 40;

/// A buffer between guard bytes, filled with a pattern that a write is unlikely to repeat.
struct Buffer {
    bytes: Vec<u8>,
    before: Vec<u8>,
}

impl Buffer {
    fn new(length: usize, salt: u8) -> Buffer {
        let bytes: Vec<u8> =
            (0..length + 2 * GUARD).map(|place| (place as u8).wrapping_mul(37) ^ salt | 4).collect();
        Buffer { before: bytes.clone(), bytes }
    }

    fn lent(&mut self) -> &mut [u8] {
        let end = self.bytes.len() - GUARD;
        &mut self.bytes[GUARD..end]
    }

    /// Whether exactly this was written at the buffer's start.
    fn expect(&self, what: &str, written: &[u8]) -> Result<(), String> {
        let mut expected = self.before.clone();
        expected[GUARD..GUARD + written.len()].copy_from_slice(written);
        same_list(&format!("{what} with {GUARD} guard bytes before"), &expected, &self.bytes)
    }
}

/// A sheet with exactly what it needs lent, and once more with other lengths.
pub fn sheet(bytes: &[u8], expected: &Result<Answer, i32>) -> Result<(), String> {
    let random = &mut Random::at(bytes.len() as u64, bytes.iter().map(|&byte| byte as u64).sum());
    let needs = expected.as_ref().map_or(Lent { table: 64, marks: 64, output: 1024 }, Answer::needs);
    run(bytes, expected, needs)?;
    run(bytes, expected, other_lengths(random, needs))?;
    let needs = Lent { output: 16, ..needs };
    set_up(bytes, expected, needs)?;
    set_up(bytes, expected, other_lengths(random, needs))
}

/// Lengths around what is needed: none, one short, right, one more, many more.
pub fn other_lengths(random: &mut Random, needs: Lent) -> Lent {
    let mut around = |length: usize| match random.below(8) {
        0 => 0,
        1 => length.saturating_sub(1),
        2 => random.below(length as u64 + 1) as usize,
        3 => length + 1,
        4 | 5 => length + random.below(100) as usize,
        _ => length,
    };
    Lent { table: around(needs.table), marks: around(needs.marks), output: around(needs.output) }
}

/// A whole run with these lengths lent; and where that is little work, the same by single steps.
pub fn run(bytes: &[u8], expected: &Result<Answer, i32>, lent: Lent) -> Result<(), String> {
    let due = accepted(expected, lent).map(|answer| {
        let written = [big_endian(&answer.table), answer.marks.clone(), big_endian(&answer.packets)];
        (answer.packets.len(), written)
    });
    #[cfg(stepped)]
    if is_stepped(expected) {
        let by_steps = |table: &mut [u8], marks: &mut [u8], output: &mut [u8]| {
            ours::stepped_run(bytes, table, marks, output)
        };
        call("our run by steps", lent, due.clone(), by_steps)?;
    }
    call("our run", lent, due, |table, marks, output| ours::whole_run(bytes, table, marks, output))
}

/// Whether a sheet is also run by single steps: each tests every resolution for soundness.
pub fn is_stepped(expected: &Result<Answer, i32>) -> bool {
    let work = |answer: &Answer| {
        let steps = answer.packets.len() + answer.sheet.progressions.count();
        steps * answer.table.len()
    };
    cfg!(stepped) && expected.as_ref().map_or(0, work) <= STEPPED
}

/// Setup with these lengths lent, the output for what it reports.
pub fn set_up(bytes: &[u8], expected: &Result<Answer, i32>, lent: Lent) -> Result<(), String> {
    let due = accepted(expected, Lent { output: usize::MAX, ..lent }).and_then(|answer| {
        if lent.output < 16 {
            return Err(-8);
        }
        let cleared = vec![0; answer.marks.len()];
        Ok(((), [big_endian(&answer.table), cleared, big_endian(&[answer.reports.words()])]))
    });
    call("our setup", lent, due, |table, marks, reports| ours::setup(bytes, table, marks, reports))
}

/// What a sheet gives with these lengths lent, or the number of its refusal.
fn accepted(expected: &Result<Answer, i32>, lent: Lent) -> Result<&Answer, i32> {
    let answer = expected.as_ref().map_err(|&number| number)?;
    answer.fits(lent).map(|()| answer)
}

/// One call with these lengths lent: what is due is its answer and what stands then at the start of table, marks
/// and output, or a refusal's number, and then nothing has changed.
fn call<T: Debug + PartialEq>(
    what: &str,
    lent: Lent,
    due: Result<(T, [Vec<u8>; 3]), i32>,
    ours: impl FnOnce(&mut [u8], &mut [u8], &mut [u8]) -> Result<T, Refusal>,
) -> Result<(), String> {
    let mut table = Buffer::new(lent.table, 0x5a);
    let mut marks = Buffer::new(lent.marks, 0xc3);
    let mut output = Buffer::new(lent.output, 0x96);
    let answer = ours(table.lent(), marks.lent(), output.lent());

    let (due, [words, marked, written]) = match due {
        Ok((answer, written)) => (Ok(answer), written),
        Err(number) => (Err(Refusal(number)), Default::default()),
    };
    same(&format!("{what} with {lent:?}"), &due, &answer)?;
    table.expect(&format!("table of {what}"), &words)?;
    marks.expect(&format!("marks of {what}"), &marked)?;
    output.expect(&format!("output of {what}"), &written)
}

/// Tile bounds with outputs of many lengths.
pub fn grid(grid: &Grid, expected: &Result<[u32; 4], i32>) -> Result<(), String> {
    for length in [16, 15, 0, 33] {
        let mut output = Buffer::new(length, 0x69);
        let answer = ours::tile_bounds(grid, output.lent());
        let outcome = expected.and_then(|bounds| if length < 16 { Err(-8) } else { Ok(bounds) });
        same(&format!("ours with {length} bytes"), &outcome.map(|_| ()).map_err(Refusal), &answer)?;
        let written = outcome.map_or(Vec::new(), |bounds| big_endian(&[bounds]));
        output.expect("our tile bounds", &written)?;
    }
    Ok(())
}

fn big_endian(quadruples: &[[u32; 4]]) -> Vec<u8> {
    quadruples.iter().flatten().flat_map(|word| word.to_be_bytes()).collect()
}
