//! Sheets for storing: so many of each order.

use oracle::sheet::Sheet;

use crate::generate::{self, exhaustive};
use crate::random::Random;

/// Sheets at the places of a seed, until there are enough of each order alone and enough others. What suits is
/// told by the place, the number of sheets so far, and the sheet.
pub fn sheets(
    seed: u64,
    of_an_order: usize,
    others: usize,
    suits: impl Fn(u64, usize, &Sheet) -> bool,
) -> Vec<Sheet> {
    let mut left = [of_an_order; 5];
    let mut others_left = others;
    let mut sheets = Vec::new();
    for place in 0.. {
        if left == [0; 5] && others_left == 0 {
            break;
        }
        let sheet = candidate(seed, place);
        let left = match sheet.progressions.orders()[..] {
            [order @ 0..=4] => &mut left[order as usize],
            _ => &mut others_left,
        };
        if *left > 0 && suits(place, sheets.len(), &sheet) {
            *left -= 1;
            sheets.push(sheet);
        }
    }
    sheets
}

/// Now and then a small sheet of the exhaustive families, else a random one.
fn candidate(seed: u64, place: u64) -> Sheet {
    let random = &mut Random::at(seed, place);
    if random.once_in(8) {
        let family = &exhaustive::FAMILIES[random.below(3) as usize];
        (family.sheet)(random.below(family.count))
    } else {
        generate::sheets::usual(random)
    }
}
