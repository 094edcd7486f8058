//! Sheets at the limits: each field just inside and just outside its range, each word that must be 0, wrong
//! kinds, missing and left-over records, two faults at once, numbers of marks and grids around their limits.

use oracle::sheet::{bytes_of, Record};

use crate::commands::show::from_words;

/// 01's sheet A, and one with two components and two progressions.
const A: &str = "1 0 0 64 32 2 1 1, 2 1 1 2, 3 4 4, 3 5 5, 5 2";
const B: &str = "1 3 5 70 40 3 2 2, 2 1 1 1, 3 4 4, 2 2 2 1, 3 3 3, 4 0 0 0 1 1 1, 4 4 0 0 3 33 2";

pub fn sheets() -> Vec<Vec<u8>> {
    let (a, b) = (records(A), records(B));
    let mut sheets = vec![bytes_of(&a), bytes_of(&b)];
    sheets.extend(changed_words(&a, 0));
    // Of B only the kind of record that A has not.
    sheets.extend(changed_words(&b, 5));
    sheets.extend([&a, &b].into_iter().flat_map(|base| other_records(base)));
    sheets.extend(other_lengths(bytes_of(&a)));
    sheets.extend(two_faults(&a));
    let in_words = [whole_tiles(), counts(), marks(), grids()].concat();
    sheets.extend(in_words.iter().map(|words| from_words(words).unwrap()));
    sheets
}

/// A plane with steps of more than 32 bits beside one without, and ranges of components that reach it or not, or
/// that there are not.
pub fn sheets_beside_wide() -> Vec<Vec<u8>> {
    let wide = format!("2 1 1 33, {}", "3 15 15,".repeat(33));
    let luma = "2 1 1 2, 3 1 1, 3 2 2,";
    let mut sheets = Vec::new();
    for components in [format!("{luma} {wide}"), format!("{wide} {luma}")] {
        for prg in [2, 3, 4] {
            for [compno0, compno1] in [[0, 1], [1, 2], [0, 2], [0, 0], [1, 0], [1, 1], [2, 2], [0, 3], [1, 3]]
            {
                sheets.push(format!("1 0 0 8 4 1 2 1, {components} 4 {prg} 0 {compno0} 1 33 {compno1}"));
            }
        }
        sheets.push(format!("1 0 0 8 4 1 2 1, {components} 5 4"));
        // Two progressions, of which one may be refused; and one that asks nothing.
        for changes in [
            "4 4 0 0 1 33 1, 4 4 0 1 1 33 2",
            "4 4 0 0 1 33 1, 4 4 0 0 1 2 1",
            "4 0 0 0 1 33 2, 4 4 0 1 1 33 2",
        ] {
            sheets.push(format!("1 0 0 8 4 1 2 2, {components} {changes}"));
        }
    }
    sheets.iter().map(|words| from_words(words).unwrap()).collect()
}

/// Progressions of kind 6: each word at its edges, beside kinds 4 and 5, on grids that kind 4 has not agreed, and with
/// steps of more than 32 bits.
pub fn sheets_mixed() -> Vec<Vec<u8>> {
    let planes = "2 2 1 1, 3 4 4, 2 3 1 1, 3 4 4";
    let with = |count: usize, changes: &str| format!("1 1 0 64 32 1 2 {count}, {planes}, {changes}");
    let (mixed, plain) = ("6 2 0 0 1 1 2", "4 0 0 0 1 1 2");
    let mut sheets = changed_words(&records(&with(1, mixed)), 5);
    let mut words: Vec<String> = (0..6).map(|prg| with(1, &format!("6 {prg} 0 0 1 1 2"))).collect();
    words.extend([
        with(2, &format!("{mixed}, {plain}")),
        with(2, &format!("{plain}, {mixed}")),
        with(2, &format!("{mixed}, {mixed}")),
        with(2, &format!("{mixed}, 4 3 0 0 1 1 2")),
        with(2, &format!("4 4 0 0 1 1 2, {mixed}")),
        with(2, &format!("{mixed}, 5 2")),
        with(2, &format!("5 2, {mixed}")),
        with(1, &format!("{mixed}, 5 2")),
        with(1, &format!("5 2, {mixed}")),
    ]);
    let wide = format!("2 1 1 18, {}", "3 15 15,".repeat(18));
    for prg in 0..5 {
        for compno1 in 1..=3 {
            let luma = "2 1 1 1, 3 1 1";
            words.push(format!("1 0 0 8 4 1 2 1, {luma}, {wide} 6 {prg} 0 0 1 33 {compno1}"));
        }
    }
    sheets.extend(words.iter().map(|words| from_words(words).unwrap()));
    sheets
}

fn records(words: &str) -> Vec<Record> {
    let bytes = from_words(words).unwrap();
    let word = |bytes: &[u8]| u32::from_be_bytes(bytes.try_into().unwrap());
    bytes.chunks_exact(32).map(|record| std::array::from_fn(|i| word(&record[4 * i..4 * i + 4]))).collect()
}

/// Every word from this record on, changed to each of its edges.
fn changed_words(base: &[Record], from: usize) -> Vec<Vec<u8>> {
    let mut sheets = Vec::new();
    for place in from..base.len() {
        for word in 0..8 {
            for value in edges(&base[place], word) {
                let mut records = base.to_vec();
                records[place][word] = value;
                sheets.push(bytes_of(&records));
            }
        }
    }
    sheets
}

/// The values next to the ends of a word's range, on either side.
fn edges(record: &Record, word: usize) -> Vec<u32> {
    match (record[0], word) {
        (kind, 0) => (0..8).filter(|&other| other != kind).collect(),
        (1, 1 | 2) => vec![record[word + 2], record[word + 2] + 1],
        (1, 3 | 4) => vec![record[word - 2], record[word - 2].wrapping_sub(1)],
        (1, 5) => vec![0, 1, 65_535, 65_536],
        (1, 6) => vec![0, 2, 16, 17],
        (1, 7) => vec![0, 2, 32, 33],
        (2, 1 | 2) => vec![0, 1, 255, 256],
        (2, 3) => vec![0, 3, 33, 34],
        (3, 1 | 2) => vec![0, 15, 16],
        (4..=6, 1) => vec![1, 3, 5, u32::MAX, 1 << 31],
        (4 | 6, 2) => vec![32, 33],
        (4 | 6, 3 | 6) => vec![2, 3, u32::MAX],
        (4 | 6, 4) => vec![0, 65_535, 65_536],
        (4 | 6, 5) => vec![0, 33, 34],
        _ => vec![1],
    }
}

/// Records missing, doubled, and left over.
fn other_records(base: &[Record]) -> Vec<Vec<u8>> {
    let mut sheets: Vec<Vec<u8>> = (1..base.len()).map(|end| bytes_of(&base[..end])).collect();
    for place in 0..base.len() {
        let (before, after) = base.split_at(place);
        sheets.push(bytes_of(&[before, &after[1..]].concat()));
        sheets.push(bytes_of(&[before, &after[..1], after].concat()));
    }
    let left_over = (0..8).map(|kind| [base, &[[kind, 0, 0, 0, 0, 0, 0, 0]]].concat());
    sheets.extend(left_over.map(|records| bytes_of(&records)));
    sheets
}

/// None, too short, no multiple of 32.
fn other_lengths(base: Vec<u8>) -> Vec<Vec<u8>> {
    let lengths = [0, 1, 31, 33, 63, base.len() - 1, base.len() + 1, base.len() + 31];
    lengths.map(|length| base.iter().copied().chain([0; 32]).take(length).collect()).to_vec()
}

/// Two faults in one sheet: the earlier record decides, in a record kind and unnamed words.
fn two_faults(base: &[Record]) -> Vec<Vec<u8>> {
    let faults = [(0, 5, 0), (1, 1, 0), (1, 4, 1), (2, 0, 4), (2, 1, 16), (3, 2, 16), (3, 7, 1), (4, 2, 1)];
    let mut sheets = Vec::new();
    for (place, first) in faults.iter().enumerate() {
        for second in &faults[place + 1..] {
            let mut records = base.to_vec();
            for &(place, word, value) in [first, second] {
                records[place][word] = value;
            }
            sheets.push(bytes_of(&records));
        }
    }
    sheets
}

/// A sheet with these progressions.
fn with_progressions(count: usize, progressions: &str) -> String {
    format!("1 0 0 64 32 2 1 {count}, 2 1 1 1, 3 4 4, {progressions}")
}

/// Kind 5 alone, twice, and beside kind 4.
fn whole_tiles() -> Vec<String> {
    let range = "4 0 0 0 1 1 1";
    vec![
        with_progressions(1, "5 1"),
        with_progressions(2, "5 1"),
        with_progressions(1, "5 1, 5 1"),
        with_progressions(2, "5 1, 5 1"),
        with_progressions(2, &format!("{range}, 5 1")),
        with_progressions(2, &format!("5 1, {range}")),
        with_progressions(1, &format!("5 1, {range}")),
        with_progressions(1, &format!("{range}, 5 1")),
    ]
}

/// As many components, resolutions, progressions and records as there may be, and one more.
fn counts() -> Vec<String> {
    let progressions = |count| with_progressions(count, &"4 1 0 0 1 1 1,".repeat(count));
    let components = |count| format!("1 0 0 9 9 1 {count} 1, {} 5 1", "2 1 1 1, 3,".repeat(count));
    let component = |count| format!("2 1 1 {count}, {}", "3 15 15,".repeat(count));
    let resolutions = |count| format!("1 0 0 9 9 1 1 1, {} 5 1", component(count));
    let largest = |left_over: usize| {
        let progressions = "4 0 0 0 1 33 16,".repeat(32 + left_over);
        format!("1 0 0 9 9 1 16 32, {} {progressions}", component(33).repeat(16))
    };
    let mut sheets = vec![largest(0), largest(1)];
    sheets.extend([1, 32, 33].map(progressions));
    sheets.extend([1, 16, 17].map(components));
    sheets.extend([1, 33, 34].map(resolutions));
    sheets
}

/// Numbers of marks around 65,536, and such as wrap at 2^32 or 2^64.
fn marks() -> Vec<String> {
    let sizes: [(u64, u64, u64); 20] = [
        (65_535, 1, 1),
        (65_536, 1, 1),
        (65_537, 1, 1),
        (256, 256, 1),
        (256, 257, 1),
        (1, 1, 65_535),
        (1, 2, 32_768),
        (2, 1, 32_769),
        (3, 1, 21_845),
        (1, 3, 21_846),
        (1 << 16, 1 << 16, 1),
        (1 << 31, 2, 1),
        (1 << 16, 1 << 15, 2),
        (1 << 31, 1 << 31, 1),
        (1 << 31, 1 << 31, 4),
        (1 << 31, 1 << 31, 8),
        (1 << 25, 1 << 25, 1 << 14),
        (u32::MAX as u64, 1, 1),
        (u32::MAX as u64, u32::MAX as u64, 1),
        (u32::MAX as u64, u32::MAX as u64, 65_535),
    ];
    let mut sheets: Vec<String> = sizes
        .iter()
        .map(|(width, height, layers)| format!("1 0 0 {width} {height} {layers} 1 1, 2 1 1 1, 3, 5 1"))
        .collect();
    // The most layers, resolutions and components, and as many precincts as may be.
    let deepest = "2 1 1 33,".to_string() + &"3,".repeat(33) + &"2 1 1 1, 3,".repeat(15);
    sheets.push(format!("1 0 0 T T 65535 16 1, {deepest} 5 1"));
    sheets.push(format!("1 0 0 11 11 1 16 1, {deepest} 5 1"));
    sheets.push(format!("1 0 0 12 11 1 16 1, {deepest} 5 1"));
    sheets
}

/// Grids that are agreed and that are not, in every order and one beyond.
fn grids() -> Vec<String> {
    let mut sheets = Vec::new();
    for prg in 0..6 {
        let mut of_two = |[dx, dy, other_dx, other_dy]: [u32; 4]| {
            let components = format!("2 {dx} {dy} 1, 3 4 4, 2 {other_dx} {other_dy} 1, 3 4 4");
            sheets.push(format!("1 1 0 9 9 1 2 1, {components}, 5 {prg}"));
        };
        of_two([2, 1, 3, 1]);
        of_two([1, 2, 1, 3]);
        of_two([2, 1, 4, 3]);
        // One that has no precincts counts as well.
        of_two([3, 1, 255, 1]);
        of_two([4, 1, 255, 1]);
    }
    let deep = |d: &str, count: usize, prg: usize| {
        format!("1 0 0 9 9 1 1 1, 2 {d} {count}, {} 5 {prg}", "3 15 15,".repeat(count))
    };
    for prg in [1, 2, 4] {
        // 127·2^25 is below 2^32, and 128·2^25 is 2^32; on either axis.
        sheets.extend(["127 127", "128 127", "127 128"].map(|d| deep(d, 11, prg)));
        sheets.extend([deep("1 1", 17, prg), deep("2 2", 17, prg), deep("1 1", 18, prg)]);
    }
    let two_and_three = "2 2 2 1, 3 4 4, 2 3 3 1, 3 4 4";
    // A progression with no positions is tested, too, in whatever place. The grid comes before the marks, and
    // shape and ranges before the grid.
    sheets.push(format!("1 0 0 9 9 1 2 2, {two_and_three}, 4 0 0 0 1 1 2, 4 2 0 0 0 0 0"));
    sheets.push(format!("1 0 0 9 9 1 2 2, {two_and_three}, 4 3 0 9 1 1 9, 4 0 0 0 1 1 2"));
    sheets.push(format!("1 0 0 9 9 1 2 2, {two_and_three}, 4 1 0 0 1 1 2, 4 4 0 0 1 1 2"));
    sheets.push(format!("1 0 0 T T 1 2 1, {two_and_three}, 5 2"));
    sheets.push(format!("1 0 0 T T 1 2 1, {two_and_three}, 5 4"));
    sheets.push(format!("1 0 0 T T 1 2 1, {two_and_three}, 5 2 1"));
    sheets.push(format!("1 0 0 T T 1 2 1, {two_and_three}, 4 2 33"));
    sheets
}
