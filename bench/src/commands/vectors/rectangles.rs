//! Rectangles of precincts, with the model's answers: of precincts all over a sheet, of numbers that there are
//! not, and over tables that are changed or lent too short.

use std::collections::BTreeSet;

use oracle::sheet::{Component, Sheet};

use super::{bytes, lent_table, sample};
use crate::commands::show::from_words;
use crate::generate::limits;
use crate::model::geometry::{Resolution, Tile};
use crate::model::{self, Rectangle, Steps};
use crate::random::Random;

/// Of the file's cases.
pub const KIND: u32 = 6;

const SEED: u64 = 4000;
/// Sheets of each order, alone; and sheets with several progressions.
const SHEETS_OF_AN_ORDER: usize = 10;
const SHEETS_OF_SEVERAL: usize = 10;
const MOST_RECORDS: usize = 40;
/// Of a resolution that has no more precincts every one is asked for.
const EVERY_PRECINCT: u64 = 12;
/// Of a sheet, over its table as it is; numbers that are not there come beside them.
const MOST_PRECINCTS: usize = 48;
/// Words of the table in which a byte is changed.
const CHANGED_WORDS: usize = 8;

pub fn cases() -> Vec<Vec<u8>> {
    let random = &mut Random::at(SEED, 0);
    let sheets = known().into_iter().chain(at_limits()).chain(sample());
    let mut cases = Vec::new();
    for sheet in distinct(sheets) {
        let steps = Steps::of(sheet.clone()).unwrap();
        let questions = [plain(random, &steps), altered(random, &steps)].concat();
        cases.push(case(&sheet, &steps, &questions));
    }
    cases
}

/// Sheets of document 01, with no precincts in some of them, and others that reach the last coordinate.
fn known() -> Vec<Sheet> {
    let deep = "3 15 15,".repeat(17);
    let words = [
        "1 0 0 64 32 2 1 1, 2 1 1 2, 3 4 4, 3 5 5, 5 2",
        "1 5 0 40 16 1 1 1, 2 1 1 1, 3 4 4, 5 2",
        "1 1 0 2 1 1 1 1, 2 4 1 1, 3, 5",
        "1 7 0 7 9 1 1 1, 2 1 1 1, 3, 5 2",
        "1 0 0 9 9 1 2 1, 2 2 2 1, 3 4 4, 2 3 3 1, 3 4 4, 5 4",
        &format!("1 0 0 9 9 1 1 1, 2 1 1 17, {deep} 5 4"),
        "1 4294934528 0 T 1 1 1 1, 2 1 1 1, 3 15 15, 5 2",
        "1 T-99 T-7 T T 1 1 1, 2 1 1 3, 3 3 0, 3 4 1, 3 5 2, 5 3",
        "1 T-1 T-1 T T 1 1 1, 2 1 255 2, 3, 3 15 1, 5 1",
        "1 2147483648 T-1 T T 1 1 1, 2 1 1 1, 3 15 15, 5",
        "1 0 2863311530 1 T 1 1 1, 2 3 5 3, 3 0 15, 3 15 15, 3 1 15, 5 1",
    ];
    words.map(|words| model::read(&from_words(words).unwrap()).unwrap()).to_vec()
}

fn at_limits() -> Vec<Sheet> {
    limits::sheets().iter().filter_map(|bytes| Some(model::accept(bytes).ok()?.0)).collect()
}

/// Accepted sheets of every order, all but a few with a resolution of several columns and rows.
fn sample() -> Vec<Sheet> {
    sample::sheets(SEED, SHEETS_OF_AN_ORDER, SHEETS_OF_SEVERAL, |_, number, sheet| {
        sheet.records().len() <= MOST_RECORDS
            && model::judge(sheet).is_ok_and(|tile| number % 8 == 0 || has_a_raster(&tile))
    })
}

fn has_a_raster(tile: &Tile) -> bool {
    tile.resolutions().any(|resolution| resolution.x.count > 1 && resolution.y.count > 1)
}

/// One of the sheets that differ in nothing but layers and progressions.
fn distinct(sheets: impl Iterator<Item = Sheet>) -> Vec<Sheet> {
    let mut kept: Vec<Sheet> = Vec::new();
    for sheet in sheets {
        if !kept.iter().any(|other| shape(other) == shape(&sheet)) {
            kept.push(sheet);
        }
    }
    kept
}

fn shape(sheet: &Sheet) -> ([u32; 4], &[Component]) {
    ([sheet.tx0, sheet.ty0, sheet.tx1, sheet.ty1], &sheet.components)
}

/// A component, resolution and precinct.
type Named = [u32; 3];

/// What is asked for, over how many bytes of the table, and with which bits of a byte changed.
#[derive(Clone, Copy)]
struct Question {
    table: usize,
    place: usize,
    bits: u8,
    named: Named,
}

/// Over the table as it is.
fn plain(random: &mut Random, steps: &Steps) -> Vec<Question> {
    let table = steps.table.len();
    let named = [precincts(random, &steps.tile), absent(&steps.tile)].concat();
    named.into_iter().map(|named| Question { table, place: 0, bits: 0, named }).collect()
}

/// Precincts of every resolution, and the first that it has not got; some of all these, if they are many.
fn precincts(random: &mut Random, tile: &Tile) -> Vec<Named> {
    let mut list: Vec<Named> = Vec::new();
    for (c, r, resolution) in tile.numbered() {
        list.extend(numbers(random, resolution).into_iter().map(|k| [c, r, k as u32]));
    }
    while list.len() > MOST_PRECINCTS {
        list.remove(random.below(list.len() as u64) as usize);
    }
    list
}

fn numbers(random: &mut Random, resolution: &Resolution) -> BTreeSet<u64> {
    let (count, width) = (resolution.precincts(), resolution.x.count);
    if count <= EVERY_PRECINCT {
        (0..=count).collect()
    } else {
        let between = random.below(count);
        [0, 1, width - 1, width, between, count - 1, count].into()
    }
}

/// The first component and the first resolution of each that there is not, and large numbers. 2^28 entries of
/// 16 bytes are 2^32.
fn absent(tile: &Tile) -> Vec<Named> {
    let components = (0..).zip(&tile.components);
    let mut list: Vec<Named> = components.map(|(c, resolutions)| [c, resolutions.len() as u32, 0]).collect();
    list.push([tile.components.len() as u32, 0, 0]);
    for large in [1 << 28, u32::MAX] {
        list.extend([[large, 0, 0], [0, large, 0], [0, 0, large], [large; 3]]);
    }
    list
}

/// Over more and fewer bytes, and with a byte changed, in some words of the table or after it.
fn altered(random: &mut Random, steps: &Steps) -> Vec<Question> {
    let table = steps.table.len();
    let first = Question { table, place: 0, bits: 0, named: [0; 3] };
    let no_such = [u32::MAX; 3];
    let mut list = vec![
        Question { table: table + 1, ..first },
        Question { table: table + 1, place: table, bits: 255, ..first },
        Question { table: table - 1, ..first },
        Question { table: table - 1, named: no_such, ..first },
        Question { table: 0, ..first },
    ];
    let entries: Vec<Named> = steps.tile.numbered().map(|(c, r, _)| [c, r, 0]).collect();
    for _ in 0..CHANGED_WORDS.min(table / 4) {
        let word = random.below(table as u64 / 4) as usize;
        let place = 4 * word + random.one_of(&[0, 1, 2, 3, 3, 3]);
        let bits = 1 << random.one_of(&[0, 0, 1, 1, 2, 3, 7]);
        let named = random.one_of(&[entries[word / 4], entries[word / 4], no_such]);
        list.push(Question { table, place, bits, named });
    }
    list
}

fn case(sheet: &Sheet, steps: &Steps, questions: &[Question]) -> Vec<u8> {
    let sheet = sheet.bytes();
    let counts = [sheet.len(), steps.marks_needed(), steps.table.len(), questions.len()];
    let mut payload = bytes(&counts.map(|count| count as u32));
    payload.extend(sheet);
    for question in questions {
        let answer = answer(steps, question);
        let Question { table, place, bits, named } = *question;
        payload.extend(bytes(&[table as u32, place as u32, bits as u32]));
        payload.extend(bytes(&named));
        payload.extend(bytes(&[answer.err().unwrap_or(0) as u32]));
        payload.extend(bytes(&answer.unwrap_or_default().map(|bound| bound as u32)));
    }
    payload
}

/// -9 comes before -14. Where samples are few the rectangle must be the counted one.
fn answer(steps: &Steps, question: &Question) -> Result<Rectangle, i32> {
    let table = lent_table(&steps.table, question.table, question.place, question.bits);
    let tile = steps.over(&table).ok_or(-9)?.tile;
    let [c, r, k] = question.named;
    let rectangle = model::rectangle(&tile, c, r, k)?;
    if let Some(counted) = model::counted(&tile.components[c as usize][r as usize]) {
        assert_eq!(counted[k as usize], rectangle);
    }
    Ok(rectangle)
}
