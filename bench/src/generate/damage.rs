//! Sheets with something wrong: each field out of range by one, wrong kinds, unnamed words, missing and
//! left-over records, wrong lengths.

use oracle::sheet::{bytes_of, Record, Sheet};

use crate::random::Random;

/// A sheet with one or two things wrong (or, rarely, still right).
pub fn any(random: &mut Random, sheet: &Sheet) -> Vec<u8> {
    let mut records = sheet.records();
    if random.once_in(4) {
        damage_records(random, &mut records);
    }
    if random.once_in(8) {
        return cut(random, bytes_of(&records));
    }
    damage_records(random, &mut records);
    bytes_of(&records)
}

fn damage_records(random: &mut Random, records: &mut Vec<Record>) {
    let place = random.below(records.len() as u64) as usize;
    match random.below(8) {
        0 => {
            records.remove(place);
        }
        1 => records.insert(place, records[place]),
        2 => records[place][0] = random.between(0, 7),
        3 => records[place][random.between(1, 7) as usize] = random.edge(),
        4 => records.push([random.between(0, 6), 0, 0, 0, 0, 0, 0, 0]),
        5 => {
            let word = &mut records[place][random.between(0, 7) as usize];
            *word = if random.once_in(2) { word.wrapping_add(1) } else { word.wrapping_sub(1) };
        }
        6 => {
            let count = random.one_of(&[5, 6, 7]);
            records[0][count] = random.one_of(&[0, 1, 2, 16, 17, 32, 33, 34, 65_535, 65_536]);
        }
        _ => beyond_range(random, &mut records[place]),
    }
    // Records left over beyond the most a sheet may have.
    if random.once_in(64) {
        let filler = [4, 0, 0, 0, 1, 1, 1, 0];
        records.resize(random.between(570, 580) as usize, filler);
    }
}

/// A field just below or just above its range, by the record's kind.
fn beyond_range(random: &mut Random, record: &mut Record) {
    let (word, value) = match record[0] {
        1 => random.one_of(&[
            (1, record[3].wrapping_add(1)),
            (2, record[4].wrapping_add(1)),
            (5, 0),
            (5, 65_536),
            (6, 0),
            (6, 17),
            (7, 0),
            (7, 33),
        ]),
        2 => random.one_of(&[(1, 0), (1, 256), (2, 0), (2, 256), (3, 0), (3, 34)]),
        3 => random.one_of(&[(1, 16), (2, 16), (3, 1), (7, 1)]),
        4 | 6 => random.one_of(&[(2, 33), (4, 65_536), (5, 34), (7, 1), (2, 32), (4, 65_535), (5, 33)]),
        _ => random.one_of(&[(2, 1), (6, 1), (7, 1)]),
    };
    record[word] = value;
}

/// Another number of bytes: none, or no multiple of 32, or too many.
fn cut(random: &mut Random, mut bytes: Vec<u8>) -> Vec<u8> {
    match random.below(4) {
        0 => bytes.clear(),
        1 => bytes.truncate(random.below(bytes.len() as u64) as usize),
        2 => bytes.resize(bytes.len() + random.between(1, 40) as usize, 0),
        _ => bytes.resize(32 * random.between(576, 579) as usize, 0),
    }
    bytes
}
