//! Sheets at the limits, with what is lent and the model's number.

use super::{bytes, padded};
use crate::generate::limits;
use crate::model::{self, Answer, Lent, Points};

/// Of the file's cases.
pub const KIND: u32 = 4;

/// Setup is lent no output.
const NO_LIMIT: usize = usize::MAX;
/// Enough for any sheet that is accepted.
const PLENTY: Lent = Lent { table: 8448, marks: 65_536, output: NO_LIMIT };
const NOTHING: Lent = Lent { table: 0, marks: 0, output: NO_LIMIT };
/// Of the accepted sheets that are this short, each so many one is lent too little as well.
const SHORT: usize = 256;
const OFTEN: usize = 8;

pub fn cases() -> Vec<Vec<u8>> {
    cases_of(limits::sheets())
}

pub fn cases_beside_wide() -> Vec<Vec<u8>> {
    cases_of(limits::sheets_beside_wide())
}

pub fn cases_mixed() -> Vec<Vec<u8>> {
    cases_of(limits::sheets_mixed())
}

/// A refused sheet with plenty lent or nothing, by turns; an accepted one with what it needs, and some with
/// too little.
fn cases_of(sheets: Vec<Vec<u8>>) -> Vec<Vec<u8>> {
    let mut cases = Vec::new();
    let mut accepted = 0;
    for (place, sheet) in sheets.into_iter().enumerate() {
        let answer = model::run(&sheet, Points::Candidates);
        let needs = match &answer {
            Ok(answer) => Lent { output: NO_LIMIT, ..answer.needs() },
            Err(_) if place % 2 == 0 => PLENTY,
            Err(_) => NOTHING,
        };
        cases.push(case(&sheet, &answer, needs));
        if answer.is_ok() && sheet.len() <= SHORT {
            if accepted % OFTEN == 0 {
                cases.extend(too_little(needs).map(|lent| case(&sheet, &answer, lent)));
            }
            accepted += 1;
        }
    }
    cases
}

/// One short, in the table, in the marks, and in both.
fn too_little(needs: Lent) -> [Lent; 4] {
    let table = needs.table - 1;
    let marks = needs.marks.saturating_sub(1);
    [Lent { table, ..needs }, Lent { marks, ..needs }, Lent { table, marks, ..needs }, NOTHING]
}

fn case(sheet: &[u8], answer: &Result<Answer, i32>, lent: Lent) -> Vec<u8> {
    let fits = answer.as_ref().map_err(|&number| number).and_then(|answer| answer.fits(lent));
    let number = fits.err().unwrap_or(0);
    let mut payload = bytes(&[sheet.len() as u32, lent.table as u32, lent.marks as u32, number as u32]);
    payload.extend(padded(sheet));
    payload
}
