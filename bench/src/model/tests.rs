//! 01's sheets A and P-a to P-l, those of 02's P5 and P6, and slow ones, through the model; and the rectangles of their precincts.

use super::{
    accept, counted, read, rectangle, run, Answer, Cursor, Place, Points, Position, Rectangle, Step, Steps,
};
use crate::commands::show::from_words;

const A: &str = "1 0 0 64 32 2 1 1, 2 1 1 2, 3 4 4, 3 5 5";

fn ask(words: &str) -> Result<Answer, i32> {
    run(&from_words(words).unwrap(), Points::Candidates)
}

fn listed(words: &str) -> Vec<[u32; 4]> {
    ask(words).unwrap_or_else(|number| panic!("refused {number}")).packets
}

/// Sheet A with these progressions (A has one; two need a count of 2).
fn a_with(progressions: &str) -> String {
    let head = if progressions.contains(',') { A.replace(" 2 1 1, 2", " 2 1 2, 2") } else { A.to_string() };
    head + "," + progressions
}

#[test]
fn p_a_lists_the_eight() {
    let answer = ask(&a_with("5 2")).ok().unwrap();
    let expected = [[0, 0, 0, 0], [1, 0, 0, 0], [0, 0, 0, 1], [1, 0, 0, 1]];
    let upper = expected.map(|[l, _, c, k]| [l, 1, c, k]);
    assert_eq!(answer.packets, [expected, upper].concat());
    assert_eq!(answer.table, [[4, 4, 2, 1], [5, 5, 2, 1]]);
    assert_eq!(answer.marks.len(), 8);
}

#[test]
fn p_b_lists_layer_after_layer() {
    let layers: Vec<u32> = listed(&a_with("5 0")).iter().map(|packet| packet[0]).collect();
    assert_eq!(layers, [0, 0, 0, 0, 1, 1, 1, 1]);
}

#[test]
fn p_c_keeps_marks_between_progressions() {
    let packets = listed(&a_with("4 0 0 0 1 2 1, 4 2 0 0 2 2 1"));
    assert_eq!(packets.iter().map(|packet| packet[0]).collect::<Vec<_>>(), [0, 0, 0, 0, 1, 1, 1, 1]);
}

#[test]
fn p_d_starts_inside_a_precinct() {
    let answer = ask("1 5 0 40 16 1 1 1, 2 1 1 1, 3 4 4, 5 2").ok().unwrap();
    assert_eq!(answer.table, [[4, 4, 3, 1]]);
    assert_eq!(answer.packets, [[0, 0, 0, 0], [0, 0, 0, 1], [0, 0, 0, 2]]);
}

#[test]
fn p_e_and_p_f_have_nothing() {
    assert_eq!(ask("1 1 0 2 1 1 1 1, 2 4 1 1, 3, 5").ok().unwrap().table, [[0, 0, 0, 1]]);
    let empty = ask("1 7 0 7 9 1 1 1, 2 1 1 1, 3, 5 2").ok().unwrap();
    assert!(empty.marks.is_empty() && empty.packets.is_empty());
}

#[test]
fn p_g_takes_an_end_at_the_number_of_components() {
    assert!(listed(&a_with("4 2 0 0 2 2 2")).is_empty());
    assert_eq!(listed(&a_with("4 2 0 0 2 2 1")), listed(&a_with("5 2")));
}

#[test]
fn p_h_and_p_i_test_the_grid() {
    let two_and_three = |prg: u32| format!("1 0 0 9 9 1 2 1, 2 2 2 1, 3 4 4, 2 3 3 1, 3 4 4, 5 {prg}");
    assert_eq!(ask(&two_and_three(2)).err(), Some(-4));
    assert!(ask(&two_and_three(0)).is_ok() && ask(&two_and_three(4)).is_ok());
    let deep = |d: u32| format!("1 0 0 9 9 1 1 1, 2 {d} {d} 17, {} 5 4", "3 15 15,".repeat(17));
    assert_eq!(ask(&deep(2)).err(), Some(-4));
    assert!(ask(&deep(1)).is_ok());
}

#[test]
fn order_4_asks_of_its_components_alone() {
    let alpha = |changes: &str| {
        let resolutions = "3 15 15,".repeat(33);
        format!("1 0 0 8 4 1 2 1, 2 1 1 2, 3 1 1, 3 2 2, 2 1 1 33, {resolutions} {changes}")
    };
    let luma = [[0, 0, 0, 0], [0, 1, 0, 0], [0, 0, 0, 1], [0, 1, 0, 1]];
    assert_eq!(listed(&alpha("4 4 0 0 1 33 1")), luma);
    assert!(listed(&alpha("4 4 0 0 1 33 3")).is_empty() && listed(&alpha("4 4 0 1 1 33 1")).is_empty());
    for refused in ["4 4 0 0 1 33 2", "4 4 0 1 1 33 2", "5 4", "4 2 0 0 1 33 1", "4 3 0 2 1 33 1"] {
        assert_eq!(ask(&alpha(refused)).err(), Some(-4));
    }
}

#[test]
fn kind_6_goes_over_steps_that_do_not_divide() {
    let planes = |changes: &str| {
        let count = changes.matches(',').count() + 1;
        format!("1 0 0 64 32 1 2 {count}, 2 2 1 1, 3 4 4, 2 3 1 1, 3 4 4, {changes}")
    };
    let of = |packets: &[[u32; 2]]| packets.iter().map(|&[c, k]| [0, 0, c, k]).collect::<Vec<_>>();
    let by_points = of(&[[0, 0], [1, 0], [0, 1], [1, 1], [0, 2], [1, 2], [0, 3], [1, 3]]);
    let by_components = of(&[[0, 0], [0, 1], [0, 2], [0, 3], [1, 0], [1, 1], [1, 2], [1, 3]]);
    assert_eq!(listed(&planes("6 2 0 0 1 1 2")), by_points);
    assert_eq!(listed(&planes("6 3 0 0 1 1 2")), by_points);
    assert_eq!(listed(&planes("6 4 0 0 1 1 2")), by_components);
    assert_eq!(listed(&planes("4 0 0 0 1 1 1, 6 2 0 0 1 1 2")), by_components);
    assert_eq!(listed(&planes("6 3 0 0 1 1 2, 4 0 0 0 1 1 1")), by_points);
    assert_eq!(ask(&planes("6 2 0 0 1 1 2, 4 2 0 0 1 1 2")).err(), Some(-4));
    for refused in ["6 2 0 0 1 1 2, 5 2", "5 2, 6 2 0 0 1 1 2", "6 2 0 0 1 1 2 1", "7 2 0 0 1 1 2"] {
        assert_eq!(ask(&planes(refused)).err(), Some(-2));
    }
    let wide = |change: &str| format!("1 0 0 1 1 1 1 1, 2 1 1 18, {} {change}", "3 15 15,".repeat(18));
    assert_eq!(ask(&wide("6 2 0 0 1 33 1")).err(), Some(-4));
    assert!(ask(&wide("6 1 0 0 1 33 1")).is_ok() && ask(&wide("6 4 0 1 1 33 1")).is_ok());
}

#[test]
fn p_j_ends_at_the_last_coordinate() {
    assert_eq!(listed("1 4294934528 0 T 1 1 1 1, 2 1 1 1, 3 15 15, 5 2"), [[0, 0, 0, 0]]);
}

#[test]
fn p_k_and_p_l_have_no_positions() {
    assert!(listed(&a_with("4 0 0 0 0 2 1")).is_empty());
    assert!(listed(&a_with("5 -1")).is_empty() && listed(&a_with("5 5")).is_empty());
}

#[test]
fn slow_sheets_are_not_slow_here() {
    let rows = "1 0 1 T 64 1 2 32, 2 1 255 1, 3 0 15, 2 255 1 1, 3 15 0,".to_string();
    assert_eq!(listed(&(rows + &"4 2 0 0 1 33 2,".repeat(32))).len(), 32_445);
    let square = "1 0 0 32768 32768 1 2 1, 2 1 1 1, 3 0 15, 2 1 1 1, 3 15 0, 5 3";
    assert_eq!(listed(square).len(), 65_536);
    assert!(listed("1 0 1 T 2 1 1 1, 2 1 255 1, 3, 5 2").is_empty());
}

#[test]
fn the_first_bad_record_decides() {
    let refused = |words: &str| ask(words).err().unwrap();
    assert_eq!(refused(""), -1);
    assert_eq!(refused("1 0 0 1 1 1 1 1, 2 0 1 1"), -3);
    assert_eq!(refused("1 0 0 1 1 1 1 1, 2 0 1 1 1"), -2);
    assert_eq!(refused("1 0 0 1 1 1 1 1, 2 1 1 1, 3"), -2);
    assert_eq!(refused("1 0 0 1 1 1 1 1, 2 1 1 1, 3, 5, 5"), -2);
    assert_eq!(refused("1 0 0 1 1 1 1 2, 2 1 1 1, 3, 5"), -2);
    assert_eq!(refused("1 0 0 1 1 1 1 2, 2 1 1 1, 3, 4, 5"), -2);
    assert_eq!(refused("1 0 0 1 1 1 1 33, 2 1 1 1, 3, 5"), -3);
    assert_eq!(refused("1 0 0 65536 65536 1 1 1, 2 1 1 1, 3, 5"), -5);
}

/// Every packet that steps find, from the fresh cursor of each progression to its 0, in turn.
fn stepped(words: &str) -> Vec<Position> {
    let steps = Steps::of(read(&from_words(words).unwrap()).unwrap()).unwrap();
    let mut marks = vec![0; steps.marks_needed()];
    let mut found = Vec::new();
    for progression in 0..steps.positions.len() as u32 {
        let mut cursor = Cursor { viewer: 0, progression, place: Place::Fresh };
        while let Step::Packet(position) = steps.step(&marks, cursor) {
            marks[steps.mark_of(position)] = 1;
            found.push(position);
            cursor.place = Place::At(position);
        }
    }
    found
}

#[test]
fn steps_list_what_the_run_lists() {
    for progressions in ["5 0", "5 1", "5 2", "5 3", "5 4", "4 0 0 0 1 2 1, 4 2 0 0 2 2 1"] {
        let packets: Vec<_> = stepped(&a_with(progressions)).iter().map(|position| position.packet).collect();
        assert_eq!(packets, listed(&a_with(progressions)));
    }
}

#[test]
fn positions_have_the_point_where_they_are_met() {
    let columns = |prg: u32| format!("1 5 0 40 16 1 1 1, 2 1 1 1, 3 4 4, 5 {prg}");
    let met =
        |prg| stepped(&columns(prg)).iter().map(|position| (position.x, position.y)).collect::<Vec<_>>();
    assert_eq!(met(2), [(5, 0), (16, 0), (32, 0)]);
    assert_eq!(met(0), [(0, 0); 3]);
}

#[test]
fn a_step_refuses_what_is_not_sound() {
    let steps = Steps::of(read(&from_words(&a_with("5 2")).unwrap()).unwrap()).unwrap();
    let marks = [0; 8];
    let at = |packet, x, y| Cursor { viewer: 0, progression: 0, place: Place::At(Position { packet, x, y }) };
    let step = |cursor| steps.step(&marks, cursor);
    assert!(matches!(step(at([0, 0, 0, 1], 32, 0)), Step::Packet(_)));
    assert_eq!(step(at([1, 1, 0, 1], 32, 0)), Step::Ended);
    assert_eq!(step(at([0, 0, 0, 1], 33, 0)), Step::Unsound);
    assert_eq!(step(at([2, 0, 0, 1], 32, 0)), Step::Unsound);
    let fresh = Cursor { viewer: 0, progression: 0, place: Place::Fresh };
    assert_eq!(step(Cursor { progression: 1, ..fresh }), Step::Unsound);
    assert_eq!(step(Cursor { viewer: 8, ..fresh }), Step::Unsound);
    assert_eq!(steps.step(&marks[1..], fresh), Step::Unsound);
}

#[test]
fn a_table_is_sound_if_setup_writes_it() {
    let steps = Steps::of(read(&from_words(&a_with("5 0")).unwrap()).unwrap()).unwrap();
    let over = |changes: &[(usize, u8)]| {
        let mut table = steps.table.clone();
        changes.iter().for_each(|&(place, byte)| table[place] = byte);
        steps.over(&table).is_some()
    };
    assert!(over(&[]) && steps.over(&steps.table[1..]).is_none());
    // Another width, and an exponent that gives one.
    assert!(!over(&[(11, 1)]) && !over(&[(3, 5)]));
    // Exponents that change no count; both of them change the smallest step.
    assert!(over(&[(7, 5)]) && over(&[(23, 6)]) && !over(&[(7, 5), (23, 6)]));
}

/// The rectangles of a resolution of component 0, which are also counted; -14 is what comes after them.
fn rectangles(words: &str, resolution: u32) -> Vec<Rectangle> {
    let (_, tile) = accept(&from_words(words).unwrap()).ok().unwrap();
    let asked = |precinct| rectangle(&tile, 0, resolution, precinct);
    let by_grid: Vec<Rectangle> = (0..).map_while(|precinct| asked(precinct).ok()).collect();
    assert_eq!(counted(&tile.components[0][resolution as usize]).as_ref(), Some(&by_grid));
    assert_eq!([asked(by_grid.len() as u32), asked(u32::MAX)], [Err(-14); 2]);
    by_grid
}

#[test]
fn rectangles_of_a_are_whole_cells() {
    assert_eq!(rectangles(&a_with("5 2"), 0), [[0, 0, 16, 16], [16, 0, 32, 16]]);
    assert_eq!(rectangles(&a_with("5 2"), 1), [[0, 0, 32, 32], [32, 0, 64, 32]]);
}

#[test]
fn rectangles_are_clipped_to_the_resolution() {
    let columns = "1 5 0 40 16 1 1 1, 2 1 1 1, 3 4 4, 5 2";
    assert_eq!(rectangles(columns, 0), [[5, 0, 16, 16], [16, 0, 32, 16], [32, 0, 40, 16]]);
    let far = "1 4294934528 0 T 1 1 1 1, 2 1 1 1, 3 15 15, 5 2";
    assert_eq!(rectangles(far, 0), [[4_294_934_528, 0, 4_294_967_295, 1]]);
    // Two rows, dx 2 and one level: 3..10 by 1..5 becomes 2..5 by 1..5, then 1..3 by 1..3.
    let rows = "1 3 1 10 5 1 1 1, 2 2 1 2, 3 1 1, 3 2 1, 5 0";
    assert_eq!(rectangles(rows, 0), [[1, 1, 2, 2], [2, 1, 3, 2], [1, 2, 2, 3], [2, 2, 3, 3]]);
    let upper = [[2, 1, 4, 2], [4, 1, 5, 2], [2, 2, 4, 4], [4, 2, 5, 4], [2, 4, 4, 5], [4, 4, 5, 5]];
    assert_eq!(rectangles(rows, 1), upper);
}

#[test]
fn an_empty_resolution_has_no_rectangles() {
    assert!(rectangles("1 1 0 2 1 1 1 1, 2 4 1 1, 3, 5", 0).is_empty());
    assert!(rectangles("1 7 0 7 9 1 1 1, 2 1 1 1, 3, 5 2", 0).is_empty());
}

#[test]
fn a_rectangle_refuses_what_the_table_has_not_got() {
    let (_, tile) = accept(&from_words(&a_with("5 2")).unwrap()).ok().unwrap();
    for [component, resolution] in [[1, 0], [u32::MAX, 0], [0, 2], [0, u32::MAX], [1, 1]] {
        assert_eq!(rectangle(&tile, component, resolution, 0), Err(-14));
    }
}
