//! Steps from cursors of small sheets, with the model's answers: from every position of every progression, from
//! cursors that are wrong by one in a field, and over tables that are changed or lent too short.

use oracle::sheet::Sheet;

use super::{bytes, lent_table, padded, sample};
use crate::commands::show::from_words;
use crate::generate;
use crate::model::{self, Cursor, Place, Position, Step, Steps, VIEWERS};
use crate::random::Random;

/// Of the file's cases.
pub const KIND: u32 = 5;

const SEED: u64 = 3000;
const SEED_BESIDE_WIDE: u64 = 3001;
const SEED_MIXED: u64 = 3002;
const SHEETS_MIXED: usize = 12;
/// Sheets of each order, alone; and sheets with several progressions.
const SHEETS_OF_AN_ORDER: usize = 5;
const SHEETS_OF_SEVERAL: usize = 12;
/// Positions of a sheet, in all its progressions.
const FEWEST: usize = 2;
const MOST: usize = 12;
const MOST_RECORDS: usize = 20;
const MOST_MARKS: usize = 64;

/// How a stored cursor comes from what its number names: from a position as it is, from a position with one
/// of its seven fields (the progression first) one more or one less, or from a progression.
pub const AS_IT_IS: u32 = 0;
const CHANGES: std::ops::RangeInclusive<u32> = 1..=14;
pub const FRESH: u32 = 15;
pub const ENDED: u32 = 16;

pub fn cases() -> Vec<Vec<u8>> {
    cases_of(SEED, sheets())
}

/// Small sheets: those of document 01 and some of every order.
pub fn sheets() -> Vec<Sheet> {
    [known(), sample()].concat()
}

/// Sheets with steps of more than 32 bits in a component that no progression asks of.
pub fn cases_beside_wide() -> Vec<Vec<u8>> {
    let wide = format!("2 1 1 18, {}", "3 15 15,".repeat(18));
    let luma = "2 1 1 2, 3 1 1, 3 2 2,";
    let words = [
        format!("1 0 0 8 4 1 2 1, {luma} {wide} 4 4 0 0 1 33 1"),
        format!("1 1 0 9 4 1 2 2, {wide} {luma} 4 4 1 1 1 2 2, 4 4 0 1 1 33 2"),
    ];
    cases_of(SEED_BESIDE_WIDE, words.map(|words| model::read(&from_words(&words).unwrap()).unwrap()))
}

/// Small sheets with progressions of kind 6.
pub fn cases_mixed() -> Vec<Vec<u8>> {
    let sheets = (0..)
        .map(|place| generate::sheets::mixed(&mut Random::at(SEED_MIXED, place)))
        .filter(|sheet| sheet.progressions.any_mixed() && is_small(sheet))
        .take(SHEETS_MIXED);
    cases_of(SEED_MIXED, sheets)
}

fn cases_of(seed: u64, sheets: impl IntoIterator<Item = Sheet>) -> Vec<Vec<u8>> {
    let random = &mut Random::at(seed, 0);
    let mut cases = Vec::new();
    for sheet in sheets {
        let steps = Steps::of(sheet.clone()).unwrap();
        let clear = vec![0; steps.marks_needed()];
        let mixed: Vec<u8> = clear.iter().map(|_| random.below(256) as u8 & random.below(256) as u8).collect();
        let mut viewers = (0..=VIEWERS).cycle();
        let mut seen = |cursors: Vec<Named>| cursors.into_iter().zip(&mut viewers).collect::<Vec<_>>();
        cases.push(case(&sheet, &steps, &clear, &seen(plain_cursors(&steps)), &alterations(&steps)));
        let cursors = [plain_cursors(&steps), wrong_cursors(&steps)].concat();
        cases.push(case(&sheet, &steps, &mixed, &seen(cursors), &[]));
    }
    cases
}

/// Sheets of document 01, with no positions at all among them.
fn known() -> Vec<Sheet> {
    let a = "2 1 1 2, 3 4 4, 3 5 5";
    let words = [
        format!("1 0 0 64 32 2 1 1, {a}, 5 2"),
        format!("1 0 0 64 32 2 1 2, {a}, 4 0 0 0 1 2 1, 4 2 0 0 2 2 1"),
        "1 5 0 40 16 1 1 1, 2 1 1 1, 3 4 4, 5 2".into(),
        "1 7 0 7 9 1 1 1, 2 1 1 1, 3, 5 2".into(),
        format!("1 0 0 64 32 2 1 1, {a}, 4 2 0 0 2 2 2"),
        "1 4294934528 0 T 1 1 1 1, 2 1 1 1, 3 15 15, 5 2".into(),
        format!("1 0 0 64 32 2 1 1, {a}, 4 0 0 0 0 2 1"),
        format!("1 0 0 64 32 2 1 1, {a}, 5 -1"),
    ];
    words.map(|words| model::read(&from_words(&words).unwrap()).unwrap()).to_vec()
}

/// Small accepted sheets of every order.
fn sample() -> Vec<Sheet> {
    sample::sheets(SEED, SHEETS_OF_AN_ORDER, SHEETS_OF_SEVERAL, |_, _, sheet| is_small(sheet))
}

fn is_small(sheet: &Sheet) -> bool {
    let Some(steps) = Steps::of(sheet.clone()) else {
        return false;
    };
    sheet.records().len() <= MOST_RECORDS
        && steps.marks_needed() <= MOST_MARKS
        && (FEWEST..=MOST).contains(&steps.positions.iter().flatten().count())
}

/// A cursor as it is stored: what it comes from, and how.
#[derive(Clone, Copy)]
pub struct Named {
    pub number: u32,
    pub change: u32,
}

/// Fresh, ended, and at each position; also of a progression that there is not.
fn plain_cursors(steps: &Steps) -> Vec<Named> {
    let progressions = 0..=steps.positions.len() as u32;
    let ends = progressions.flat_map(|number| [FRESH, ENDED].map(|change| Named { number, change }));
    let positions = 0..listed(steps).len() as u32;
    ends.chain(positions.map(|number| Named { number, change: AS_IT_IS })).collect()
}

fn wrong_cursors(steps: &Steps) -> Vec<Named> {
    let positions = 0..listed(steps).len() as u32;
    positions.flat_map(|number| CHANGES.map(move |change| Named { number, change })).collect()
}

/// What stands in a position's row: its progression, layer, resolution, component, precinct, x and y.
pub type Row = [u32; 7];

/// The positions of all progressions in turn.
pub fn listed(steps: &Steps) -> Vec<Row> {
    let progressions = (0..).zip(&steps.positions);
    progressions.flat_map(|(k, positions)| positions.iter().map(move |position| row(k, position))).collect()
}

fn row(progression: u32, position: &Position) -> Row {
    let [layer, resolution, component, precinct] = position.packet;
    [progression, layer, resolution, component, precinct, position.x, position.y]
}

pub fn cursor(rows: &[Row], named: Named, viewer: u32) -> Cursor {
    match named.change {
        FRESH => Cursor { viewer, progression: named.number, place: Place::Fresh },
        ENDED => Cursor { viewer, progression: named.number, place: Place::Ended },
        change => {
            let mut row = rows[named.number as usize];
            if change != AS_IT_IS {
                let field = &mut row[(change as usize - 1) / 2];
                *field = if change % 2 == 1 { field.wrapping_add(1) } else { field.wrapping_sub(1) };
            }
            let [progression, layer, resolution, component, precinct, x, y] = row;
            let packet = [layer, resolution, component, precinct];
            Cursor { viewer, progression, place: Place::At(Position { packet, x, y }) }
        }
    }
}

/// A step from the fresh cursor of the first progression over other bytes: how many of the table and of the
/// marks are lent, and a byte of the table with bits of it changed.
#[derive(Clone, Copy)]
struct Alteration {
    table: usize,
    marks: usize,
    place: usize,
    bits: u8,
}

/// Lengths around those needed, and a byte of each word of the table changed, and the first after it.
fn alterations(steps: &Steps) -> Vec<Alteration> {
    let (table, marks) = (steps.table.len(), steps.marks_needed());
    let lent = |table, marks| Alteration { table, marks, place: 0, bits: 0 };
    let mut list = vec![lent(table + 1, marks + 1), lent(table - 1, marks), lent(0, marks)];
    if marks > 0 {
        list.extend([lent(table, marks - 1), lent(table, 0)]);
    }
    let places = (0..table / 4).map(|word| 4 * word + (word + word / 4) % 4);
    list.extend(places.map(|place| Alteration { table, marks, place, bits: 1 << (place % 8) }));
    list.push(Alteration { table: table + 1, marks, place: table, bits: 255 });
    list
}

fn case(
    sheet: &Sheet,
    steps: &Steps,
    marks: &[u8],
    cursors: &[(Named, u32)],
    alterations: &[Alteration],
) -> Vec<u8> {
    let sheet = sheet.bytes();
    let rows = listed(steps);
    let counts = [sheet.len(), marks.len(), steps.table.len(), rows.len(), cursors.len(), alterations.len()];
    let mut payload = bytes(&counts.map(|count| count as u32));
    payload.extend(sheet);
    payload.extend(padded(marks));
    payload.extend(bytes(rows.as_flattened()));
    for &(named, viewer) in cursors {
        let cursor = cursor(&rows, named, viewer);
        let answer = outcome(&rows, cursor.progression, steps.step(marks, cursor));
        payload.extend(bytes(&[viewer, named.number, named.change, answer]));
    }
    for alteration in alterations {
        let answer = outcome(&rows, 0, altered(steps, marks, *alteration));
        let Alteration { table, marks, place, bits } = *alteration;
        payload.extend(bytes(&[table as u32, marks as u32, place as u32, bits as u32, answer]));
    }
    payload
}

fn altered(steps: &Steps, marks: &[u8], alteration: Alteration) -> Step {
    let table = lent_table(&steps.table, alteration.table, alteration.place, alteration.bits);
    let mut lent = marks.to_vec();
    lent.resize(alteration.marks, 0);
    let fresh = Cursor { viewer: 0, progression: 0, place: Place::Fresh };
    steps.over(&table).map_or(Step::Unsound, |over| over.step(&lent, fresh))
}

/// 0, -9, or which position's packet is found, counted from 1.
pub fn outcome(rows: &[Row], progression: u32, step: Step) -> u32 {
    match step {
        Step::Packet(position) => {
            let found = row(progression, &position);
            rows.iter().position(|&row| row == found).unwrap() as u32 + 1
        }
        Step::Ended => 0,
        Step::Unsound => -9i32 as u32,
    }
}
