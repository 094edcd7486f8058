//! What the hosts of eight viewers do over one sheet: joining, opening and stepping at random, each host from the
//! cursors that it has, over marks of any bytes and over those of setup, with the model's answers; and all of them
//! running the sheet, each at its own point of it, with the answers of a run of its own. Each with the totals after.

use std::collections::VecDeque;

use oracle::sheet::Sheet;

use super::steps::{self, Named, Row, AS_IT_IS, ENDED, FRESH};
use super::{bytes, padded};
use crate::compare::is_sparse;
use crate::generate;
use crate::model::{self, Cursor, Step, Steps, VIEWERS};
use crate::random::Random;

/// Of the file's cases.
pub const KIND: u32 = 7;

const SEED: u64 = 5000;
/// Calls of a trace at random.
const CALLS: usize = 120;
/// Of a sheet that is drawn: bytes of its table, and marks; and bytes of a case.
const MOST_BYTES: usize = 480;
const MOST_MARKS: usize = 160;
const LONGEST: usize = 65_536;

/// What a call is.
const JOIN: u32 = 0;
const OPEN: u32 = 1;
const STEP: u32 = 2;

pub fn cases() -> Vec<Vec<u8>> {
    three_of_each(SEED, steps::sheets()).collect()
}

/// Of sheets drawn from a seed.
pub fn cases_drawn(seed: u64, count: usize) -> Vec<Vec<u8>> {
    let drawn = (0..).map(|place| generate::sheet(seed, place)).filter(|bytes| !is_sparse(bytes));
    let sheets = drawn.filter_map(|bytes| model::read(&bytes).ok()).filter(is_stored).take(count);
    three_of_each(!seed, sheets).filter(|payload| payload.len() <= LONGEST).collect()
}

fn three_of_each(seed: u64, sheets: impl IntoIterator<Item = Sheet>) -> impl Iterator<Item = Vec<u8>> {
    (0..).zip(sheets).flat_map(move |(place, sheet)| {
        let random = &mut Random::at(seed, place);
        [at_random(&sheet, false, random), at_random(&sheet, true, random), together(&sheet, random)]
    })
}

/// The program that replays them has room for its table, its marks and its calls.
fn is_stored(sheet: &Sheet) -> bool {
    let Ok(tile) = model::judge(sheet) else {
        return false;
    };
    16 * tile.resolutions().count() <= MOST_BYTES && tile.marks_needed() as usize <= MOST_MARKS
}

/// A call as it is stored: what it is, the marks lent, its viewer, where its progression or cursor comes from, and
/// what it is answered.
type Call = [u32; 6];

/// The cursors of a viewer's host, as they are stored.
type Held = Vec<Named>;

/// What calls go by and change: the marks, and each viewer's packets still to come.
struct World {
    marks: Vec<u8>,
    totals: Totals,
}

type Totals = [u32; VIEWERS as usize];

/// Over marks as setup leaves them, where the totals are those counted in full after every call; or over any bytes,
/// where they are what the calls have made of setup's.
fn at_random(sheet: &Sheet, clear: bool, random: &mut Random) -> Vec<u8> {
    let steps = Steps::of(sheet.clone()).unwrap();
    let rows = steps::listed(&steps);
    let byte = |random: &mut Random| if clear { 0 } else { random.below(256) as u8 };
    let before: Vec<u8> = (0..steps.marks_needed()).map(|_| byte(random)).collect();
    let mut world = World { marks: before.clone(), totals: at_start(&steps) };
    let mut held = vec![Held::new(); VIEWERS as usize + 1];
    let mut calls = Vec::new();
    for _ in 0..CALLS {
        calls.push(call(&steps, &rows, &mut world, &mut held, random));
        assert!(!clear || (0..VIEWERS).all(|v| world.totals[v as usize] == steps.to_come(&world.marks, v)));
    }
    stored(sheet, &steps, &rows, [&before, &world.marks], world.totals, &calls)
}

/// Setup gives every viewer all packets that some progression admits.
fn at_start(steps: &Steps) -> Totals {
    [steps.to_come(&vec![0; steps.marks_needed()], 0); VIEWERS as usize]
}

/// Every viewer runs every progression. First each makes some of its calls, no two as many; then they go on by turns.
fn together(sheet: &Sheet, random: &mut Random) -> Vec<u8> {
    let steps = Steps::of(sheet.clone()).unwrap();
    let rows = steps::listed(&steps);
    let clear = vec![0; steps.marks_needed()];
    let mut left: Vec<VecDeque<Call>> = (0..VIEWERS).map(|viewer| alone(&steps, &rows, viewer).into()).collect();
    let mut calls = Vec::new();
    for (viewer, own) in left.iter_mut().enumerate() {
        let first = own.len() * (viewer + 1) / (VIEWERS as usize + 1);
        calls.extend(own.drain(..first));
    }
    while left.iter().any(|own| !own.is_empty()) {
        calls.extend(left[random.below(VIEWERS as u64) as usize].pop_front());
    }
    let mut marks = clear.clone();
    steps.positions.iter().flatten().for_each(|&position| marks[steps.mark_of(position)] = u8::MAX);
    stored(sheet, &steps, &rows, [&clear, &marks], [0; VIEWERS as usize], &calls)
}

/// A viewer's run of its own: each progression opened, stepped to its end, and once more.
fn alone(steps: &Steps, rows: &[Row], viewer: u32) -> Vec<Call> {
    let mut marks = vec![0u8; steps.marks_needed()];
    let mut calls = Vec::new();
    let lent = marks.len() as u32;
    for number in 0..steps.positions.len() as u32 {
        let mut named = Named { number, change: FRESH };
        calls.push([OPEN, lent, viewer, number, FRESH, 0]);
        loop {
            let cursor = steps::cursor(rows, named, viewer);
            let step = steps.step(&marks, cursor);
            calls.push([STEP, lent, viewer, named.number, named.change, steps::outcome(rows, number, step)]);
            let Step::Packet(position) = step else { break };
            marks[steps.mark_of(position)] |= 1 << viewer;
            named = moved(rows, cursor, step).unwrap();
        }
        calls.push([STEP, lent, viewer, number, ENDED, 0]);
    }
    calls
}

fn stored(
    sheet: &Sheet,
    steps: &Steps,
    rows: &[Row],
    marks: [&[u8]; 2],
    totals: Totals,
    calls: &[Call],
) -> Vec<u8> {
    let sheet = sheet.bytes();
    let counts = [sheet.len(), marks[0].len(), steps.table.len(), rows.len(), calls.len()];
    let mut payload = bytes(&counts.map(|count| count as u32));
    payload.extend(bytes(&totals));
    payload.extend(sheet);
    payload.extend(marks.into_iter().flat_map(padded));
    payload.extend(bytes(rows.as_flattened()));
    payload.extend(bytes(calls.as_flattened()));
    payload
}

/// Some viewer's next call; once in a while by one that there is not, or with a mark too few.
fn call(steps: &Steps, rows: &[Row], world: &mut World, held: &mut [Held], random: &mut Random) -> Call {
    let viewer = if random.once_in(30) { VIEWERS } else { random.below(VIEWERS as u64) as u32 };
    let lent = world.marks.len() - (!world.marks.is_empty() && random.once_in(30)) as usize;
    let marks = &mut world.marks[..lent];
    let held = &mut held[viewer as usize];
    let of = |what, named: Named, outcome| [what, lent as u32, viewer, named.number, named.change, outcome];
    if random.once_in(12) {
        let answer = steps.join(marks, viewer);
        if answer == 0 {
            world.totals[viewer as usize] = at_start(steps)[viewer as usize];
        }
        return of(JOIN, Named { number: 0, change: AS_IT_IS }, answer as u32);
    }
    if held.is_empty() || random.once_in(12) {
        let number = random.below(steps.positions.len() as u64 + 1) as u32;
        let answer = steps.open(marks, viewer, number);
        if answer.is_ok() || viewer == VIEWERS {
            held.push(Named { number, change: FRESH });
        }
        return of(OPEN, Named { number, change: FRESH }, answer.err().unwrap_or(0) as u32);
    }
    let place = random.below(held.len() as u64) as usize;
    let named = held[place];
    let cursor = steps::cursor(rows, named, viewer);
    let step = steps.step(marks, cursor);
    let outcome = steps::outcome(rows, cursor.progression, step);
    if let Step::Packet(position) = step {
        marks[steps.mark_of(position)] |= 1 << viewer;
        let total = &mut world.totals[viewer as usize];
        *total = total.saturating_sub(1);
    }
    held[place] = moved(rows, cursor, step).unwrap_or(named);
    of(STEP, named, outcome)
}

/// The cursor that a step answers; none where it is refused.
fn moved(rows: &[Row], cursor: Cursor, step: Step) -> Option<Named> {
    match step {
        Step::Packet(_) => {
            let found = steps::outcome(rows, cursor.progression, step);
            Some(Named { number: found - 1, change: AS_IT_IS })
        }
        Step::Ended => Some(Named { number: cursor.progression, change: ENDED }),
        Step::Unsound => None,
    }
}
