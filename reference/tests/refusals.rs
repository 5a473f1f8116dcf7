//! Numbers 1 to 9: which comes first, and that nothing is written.

use stage2_reference::generate::pattern;
use stage2_reference::{
    check, fit, run, Checked, Fitted, Ran, Rooms, DEAD_ROW, FUEL_LIMIT, NODE_ROW, REPORT_ROOM, STORE_ROOM,
};

const LOADS: &[u8] = b"$!$!0 (+-*/)\nA$\na!F1\n$$\nA\n";
const FLAG_FAULT: &[u8] = b"$!$!0 (+-*/\nA$\n$$\n";

/// The lengths of the rows, the store and the report that a run is lent.
#[derive(Clone, Copy)]
struct Sizes {
    nodes: usize,
    dead: usize,
    store: usize,
    report: usize,
}

/// The least that are legal.
const LEAST: Sizes = Sizes { nodes: NODE_ROW, dead: DEAD_ROW, store: STORE_ROOM, report: REPORT_ROOM };

/// For each of them this length, the others being legal.
fn each_of(length: usize) -> [Sizes; 4] {
    [
        Sizes { nodes: length, ..LEAST },
        Sizes { dead: length, ..LEAST },
        Sizes { store: length, ..LEAST },
        Sizes { report: length, ..LEAST },
    ]
}

fn run_with(text: &[u8], fuel: u64, sizes: Sizes) -> Ran {
    let Sizes { nodes, dead, store, report } = sizes;
    let mut rooms =
        Rooms { output: pattern(100), second: pattern(100), store: pattern(store), report: pattern(report) };
    let untouched = rooms.clone();
    let ran = run(text, fuel, nodes, dead, &mut rooms);
    if (1..=9).contains(&ran.number) {
        assert_eq!(rooms, untouched);
        assert_eq!(ran, Ran { number: ran.number, line: ran.line, ..Ran::default() });
    }
    ran
}

#[test]
fn causes_of_number_1() {
    let one = Ran { number: 1, ..Ran::default() };
    for fuel in [0, FUEL_LIMIT + 1, u64::MAX] {
        assert_eq!(run_with(LOADS, fuel, LEAST), one);
    }
    for sizes in each_of(0) {
        assert_eq!(run_with(LOADS, 1, sizes), one);
    }
    let short = [
        Sizes { nodes: 2_047, ..LEAST },
        Sizes { dead: 51_455, ..LEAST },
        Sizes { store: 8_703, ..LEAST },
        Sizes { report: 2_047, ..LEAST },
    ];
    for sizes in short {
        assert_eq!(run_with(LOADS, 1, sizes), one);
    }
    let least = Sizes { nodes: 2_048, dead: 51_456, store: 8_704, report: 2_048 };
    assert_eq!(run_with(LOADS, 2, least).number, 0);
    let longer = Sizes { nodes: 2_049, dead: 51_457, store: 8_705, report: 2_049 };
    assert_eq!(run_with(LOADS, FUEL_LIMIT, longer).number, 0);
}

#[test]
fn checking_and_fitting_take_the_node_row() {
    assert_eq!(check(LOADS, 2_047), Checked { number: 1, line: 0 });
    assert_eq!(check(LOADS, 2_048), Checked { number: 0, line: 4 });
    let one = Fitted { number: 1, ..Fitted::default() };
    assert_eq!(fit(LOADS, 2_047, DEAD_ROW, b"A"), one);
    // The root, the byte and the end.
    assert_eq!(fit(LOADS, 2_048, DEAD_ROW, b"A"), Fitted { line: 2, places: 3, ..Fitted::default() });
}

#[test]
fn fitting_takes_the_row_of_dead_places() {
    // A bit for each of 2,048 nodes at each of 201 positions.
    assert_eq!(DEAD_ROW * 8, 2_048 * 201);
    let one = Fitted { number: 1, ..Fitted::default() };
    for dead in [0, 51_455] {
        assert_eq!(fit(LOADS, NODE_ROW, dead, b"A"), one);
        assert_eq!(fit(FLAG_FAULT, NODE_ROW, dead, b"A"), one);
        assert_eq!(fit(LOADS, NODE_ROW, dead, &[b'A'; 201]), one);
    }
    for dead in [51_456, 51_457, 1_000_000] {
        assert_eq!(fit(LOADS, NODE_ROW, dead, b"A"), Fitted { line: 2, places: 3, ..Fitted::default() });
    }
}

#[test]
fn one_before_two_before_three() {
    let with_zero = [FLAG_FAULT, &[0]].concat();
    assert_eq!(run_with(&with_zero, 0, LEAST).number, 1);
    for sizes in each_of(0) {
        assert_eq!(run_with(&with_zero, 1, sizes).number, 1);
    }
    assert_eq!(run_with(&with_zero, 1, LEAST), Ran { number: 2, ..Ran::default() });
    let refused = Ran { number: 3, line: 1, ..Ran::default() };
    assert_eq!(run_with(FLAG_FAULT, 1, LEAST), refused);
    assert_eq!(check(&with_zero, 0).number, 1);
    assert_eq!(check(&with_zero, NODE_ROW), Checked { number: 2, line: 0 });
    assert_eq!(check(FLAG_FAULT, NODE_ROW), Checked { number: 3, line: 1 });
}

#[test]
fn lines_downward_then_the_lowest_number() {
    let flag = "$!$!0 (+-*/)\n";
    let long = "A".repeat(201);
    for (body, number, line) in [
        // A long template with ten placeholders.
        (format!("{long}!!!!!!!!!!$\n$$\n"), 4, 2),
        // 7 stands above 4.
        (format!("A$\n!!\n{long}\n$$\n"), 7, 3),
        // A long code line that is also malformed.
        (format!("A$\n{long}!!\n$$\n"), 4, 3),
        // 6 stands above 5.
        ("A$\n$\nA$\n$\n!!!!!!!!!!$\n$$\n".to_string(), 6, 4),
        // The missing layout has the line of the macro's end, above 6.
        ("A$\n!F1\n$\nA$\n$$\n".to_string(), 7, 4),
        // Nothing ends the section.
        ("A$\n$\nB$\n$".to_string(), 8, 5),
        ("A$\n!!".to_string(), 7, 3),
    ] {
        let text = flag.to_string() + &body;
        assert_eq!(check(text.as_bytes(), NODE_ROW), Checked { number, line }, "{body}");
        let ran = run_with(text.as_bytes(), 1, LEAST);
        assert_eq!((ran.number, ran.line), (number, line), "{body}");
    }
}

#[test]
fn the_node_limit_holds_with_a_longer_row() {
    let path = concat!(env!("CARGO_MANIFEST_DIR"), "/../vectors/run/number-09-nodes-2049.text");
    let text = std::fs::read(path).unwrap();
    assert_eq!(check(&text, 1_000_000), Checked { number: 9, line: 22 });
}

#[test]
fn a_long_line_is_fitted_after_loading() {
    let long = [b'A'; 201];
    let fitted = |text, line| fit(text, NODE_ROW, DEAD_ROW, line);
    assert_eq!(fitted(LOADS, &long), Fitted { number: 11, ..Fitted::default() });
    assert_eq!(fitted(FLAG_FAULT, &long), Fitted { number: 3, line: 1, ..Fitted::default() });
    assert_eq!(fitted(LOADS, &long[..200]), Fitted { places: 2, ..Fitted::default() });
}

#[test]
fn a_fitted_line_is_taken_whole() {
    let text = b"$!$!0 (+-*/)\nA!$\n$$\n";
    // The root, the byte, the placeholder at five positions and the end; atoms are looked
    // for at all but the last of the five.
    let mut expected = Fitted { line: 2, places: 8, bytes: 4, ..Fitted::default() };
    expected.start[0] = 1;
    expected.length[0] = 4;
    assert_eq!(fit(text, NODE_ROW, DEAD_ROW, b"A\0\n$!"), expected);
}
