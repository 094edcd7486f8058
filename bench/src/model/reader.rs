//! 01, 'The sheet' and 'Numbers that come back': -1, -2 and -3.

use oracle::sheet::{Component, Progressions, Range, Record, Sheet};

const MALFORMED: i32 = -2;
const OUT_OF_RANGE: i32 = -3;

/// The records in order; the first bad one decides.
pub fn read(bytes: &[u8]) -> Result<Sheet, i32> {
    if bytes.is_empty() || !bytes.len().is_multiple_of(32) || bytes.len() / 32 > 577 {
        return Err(-1);
    }
    let mut records = bytes.chunks_exact(32).map(record_of);

    let [_, tx0, ty0, tx1, ty1, layers, components, progressions] = next(&mut records, 1, 8)?;
    in_range(tx0 <= tx1 && ty0 <= ty1)?;
    in_range((1..=65_535).contains(&layers))?;
    in_range((1..=16).contains(&components) && (1..=32).contains(&progressions))?;

    let mut read_components = Vec::new();
    for _ in 0..components {
        read_components.push(component(&mut records)?);
    }
    let progressions = read_progressions(&mut records, progressions)?;
    if records.next().is_some() {
        return Err(MALFORMED);
    }
    Ok(Sheet { tx0, ty0, tx1, ty1, layers, components: read_components, progressions })
}

fn component(records: &mut impl Iterator<Item = Record>) -> Result<Component, i32> {
    let [_, dx, dy, count, ..] = next(records, 2, 4)?;
    in_range((1..=255).contains(&dx) && (1..=255).contains(&dy) && (1..=33).contains(&count))?;
    let mut resolutions = Vec::new();
    for _ in 0..count {
        let [_, pdx, pdy, ..] = next(records, 3, 3)?;
        in_range(pdx <= 15 && pdy <= 15)?;
        resolutions.push((pdx, pdy));
    }
    Ok(Component { dx, dy, resolutions })
}

/// All of kind 4 or 6, or exactly one of kind 5.
fn read_progressions(records: &mut impl Iterator<Item = Record>, count: u32) -> Result<Progressions, i32> {
    let mut ranges = Vec::new();
    for _ in 0..count {
        let record = records.next().ok_or(MALFORMED)?;
        let [kind, prg, resno0, compno0, layno1, resno1, compno1, unnamed] = record;
        match kind {
            4 | 6 => {
                well_formed(unnamed == 0)?;
                in_range(resno0 <= 32 && resno1 <= 33 && layno1 <= 65_535)?;
                let prg = prg as i32;
                ranges.push(Range { prg, resno0, compno0, layno1, resno1, compno1, mixed: kind == 6 });
            }
            5 => {
                well_formed(count == 1 && record[2..].iter().all(|&word| word == 0))?;
                return Ok(Progressions::WholeTile(prg as i32));
            }
            _ => return Err(MALFORMED),
        }
    }
    Ok(Progressions::Ranges(ranges))
}

/// The next record, of this kind and with zeros after its named words.
fn next(records: &mut impl Iterator<Item = Record>, kind: u32, named: usize) -> Result<Record, i32> {
    let record = records.next().ok_or(MALFORMED)?;
    well_formed(record[0] == kind && record[named..].iter().all(|&word| word == 0))?;
    Ok(record)
}

fn well_formed(holds: bool) -> Result<(), i32> {
    if holds {
        Ok(())
    } else {
        Err(MALFORMED)
    }
}

fn in_range(holds: bool) -> Result<(), i32> {
    if holds {
        Ok(())
    } else {
        Err(OUT_OF_RANGE)
    }
}

fn record_of(bytes: &[u8]) -> Record {
    let mut record = [0; 8];
    for (word, bytes) in record.iter_mut().zip(bytes.chunks_exact(4)) {
        *word = u32::from_be_bytes(bytes.try_into().unwrap());
    }
    record
}
