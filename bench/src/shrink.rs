//! Makes a failing sheet smaller while it still fails.

use std::time::{Duration, Instant};

use oracle::sheet::{bytes_of, Component, Progressions, Record, Sheet};

use crate::model;

/// How long to try.
const LIMIT: Duration = Duration::from_secs(20);

/// The smallest failing sheet that single changes lead to.
pub fn smallest(mut bytes: Vec<u8>, fails: impl Fn(&[u8]) -> bool) -> Vec<u8> {
    let start = Instant::now();
    'smaller: loop {
        for candidate in smaller(&bytes) {
            if start.elapsed() > LIMIT {
                return bytes;
            }
            if fails(&candidate) {
                bytes = candidate;
                continue 'smaller;
            }
        }
        return bytes;
    }
}

/// Sheets with a part left out or a word made smaller, the boldest changes first.
fn smaller(bytes: &[u8]) -> Vec<Vec<u8>> {
    let mut candidates = Vec::new();
    match model::read(bytes) {
        Ok(sheet) => candidates.extend(without_a_part(&sheet).iter().map(Sheet::bytes)),
        Err(_) => candidates.extend(without_a_record(bytes)),
    }
    if bytes.len().is_multiple_of(32) {
        candidates.extend(with_a_smaller_word(&records_of(bytes)).iter().map(|records| bytes_of(records)));
    }
    candidates
}

fn without_a_part(sheet: &Sheet) -> Vec<Sheet> {
    let mut candidates = Vec::new();
    if let Progressions::Ranges(ranges) = &sheet.progressions {
        for place in 0..ranges.len() {
            let whole = Progressions::WholeTile(ranges[place].prg);
            candidates.push(Sheet { progressions: whole, ..sheet.clone() });
            let mut ranges = ranges.clone();
            ranges.remove(place);
            if !ranges.is_empty() {
                candidates.push(Sheet { progressions: Progressions::Ranges(ranges), ..sheet.clone() });
            }
        }
    }
    for compno in 0..sheet.components.len() {
        let mut fewer = sheet.clone();
        fewer.components.remove(compno);
        if !fewer.components.is_empty() {
            candidates.push(fewer);
        }
    }
    for (compno, Component { resolutions, .. }) in sheet.components.iter().enumerate() {
        for resno in 0..resolutions.len() {
            let mut fewer = sheet.clone();
            fewer.components[compno].resolutions.remove(resno);
            if resolutions.len() > 1 {
                candidates.push(fewer);
            }
        }
    }
    candidates.extend(nearer(sheet));
    candidates
}

/// The tile moved towards the origin.
fn nearer(sheet: &Sheet) -> Vec<Sheet> {
    let mut candidates = Vec::new();
    for divisor in [1, 2, 16] {
        let (x, y) = (sheet.tx0 / divisor, sheet.ty0 / divisor);
        if x > 0 {
            candidates.push(Sheet { tx0: sheet.tx0 - x, tx1: sheet.tx1 - x, ..sheet.clone() });
        }
        if y > 0 {
            candidates.push(Sheet { ty0: sheet.ty0 - y, ty1: sheet.ty1 - y, ..sheet.clone() });
        }
    }
    candidates
}

fn without_a_record(bytes: &[u8]) -> Vec<Vec<u8>> {
    let without = |place: usize| {
        let end = (place + 32).min(bytes.len());
        [&bytes[..place], &bytes[end..]].concat()
    };
    (0..bytes.len()).step_by(32).map(without).collect()
}

fn with_a_smaller_word(records: &[Record]) -> Vec<Vec<Record>> {
    let changes: [fn(u32) -> u32; 5] =
        [|_| 0, |_| 1, |word| word / 2, |word| word - word / 8, |word| word.saturating_sub(1)];
    let mut candidates = Vec::new();
    for change in changes {
        for (place, record) in records.iter().enumerate() {
            for (word, &value) in record.iter().enumerate().skip(1) {
                if change(value) < value {
                    let mut records = records.to_vec();
                    records[place][word] = change(value);
                    candidates.push(records);
                }
            }
        }
    }
    candidates
}

fn records_of(bytes: &[u8]) -> Vec<Record> {
    let word = |bytes: &[u8]| u32::from_be_bytes(bytes.try_into().unwrap());
    bytes
        .chunks_exact(32)
        .map(|record| std::array::from_fn(|place| word(&record[4 * place..4 * place + 4])))
        .collect()
}
