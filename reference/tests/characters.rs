//! Conversions 5 and 8 and iterations without a list on well-formed and
//! malformed rows, compared with the standard library's strings.

mod common;

use std::str::{self, Utf8Error};

use common::{run_text, Left};
use stage2_reference::Ran;

/// What rows are made of: characters of one to four bytes, a letter with its
/// accent apart, and malformed bytes of each kind.
const UNITS: [&[u8]; 12] = [
    b"A",
    "é".as_bytes(),
    "e\u{301}".as_bytes(),
    "€".as_bytes(),
    "😀".as_bytes(),
    b"\x80",
    b"\xC3",
    b"\xE2\x82",
    b"\xC0\xAF",
    b"\xED\xA0\x80",
    b"\xF4\x90\x80\x80",
    b"\xFF",
];

/// All rows of at most three units.
fn rows() -> Vec<Vec<u8>> {
    let mut rows = vec![Vec::new()];
    let mut longest = rows.clone();
    for _ in 0..3 {
        longest = longest.iter().flat_map(|row| UNITS.map(|unit| [row, unit].concat())).collect();
        rows.extend_from_slice(&longest);
    }
    rows
}

/// Runs a body with a row as parameter 1.
fn run_row(body: &str, row: &[u8]) -> Left {
    let text = [b"$!$!0 (+-*/)\nC:!$\n", body.as_bytes(), b"$$\nC:", row, b"\n"].concat();
    run_text(&text, 1_000, 1_000)
}

/// Compares number, events and output of a body with what is expected of a row;
/// the rest of the answer is the same for all of them.
fn assert_left(body: &str, row: &[u8], number: u64, events: u64, output: &str) {
    let left = run_row(body, row);
    let line = 4 + body.lines().count() as u64;
    let output_length = output.len() as u64;
    let expected = Ran { number, line, events, output: output_length, second: 0, store: 1, report: 23 };
    assert_eq!(left.ran, expected, "{body:?} {row:02X?}");
    assert_eq!(left.output, output.as_bytes(), "{body:?} {row:02X?}");
    assert_eq!(left.report, b"template,calls\n2,1\n0,0\n", "{body:?} {row:02X?}");
}

#[test]
fn lengths_count_characters() {
    for row in rows() {
        match str::from_utf8(&row) {
            Ok(text) => assert_left("!15!F1\n", &row, 0, 2, &format!("{}\n", text.chars().count())),
            Err(_) => assert_left("!15!F1\n", &row, 21, 2, ""),
        }
    }
}

#[test]
fn values_are_code_points() {
    for row in rows() {
        let points = str::from_utf8(&row).map(|text| text.chars().map(u32::from).collect::<Vec<u32>>());
        match points.as_deref() {
            Ok([point]) => assert_left("!18!F1\n", &row, 0, 2, &format!("{point}\n")),
            Ok(_) => assert_left("!18!F1\n", &row, 16, 2, ""),
            Err(_) => assert_left("!18!F1\n", &row, 21, 2, ""),
        }
    }
}

#[test]
fn passes_take_characters() {
    for row in rows() {
        let whole = str::from_utf8(&row);
        let valid = whole.as_ref().map_or_else(Utf8Error::valid_up_to, |text| text.len());
        let taken = str::from_utf8(&row[..valid]).unwrap();
        // An empty row has one pass too.
        let passes =
            if row.is_empty() { vec![""] } else { taken.split("").filter(|p| !p.is_empty()).collect() };
        let output: String = passes.iter().map(|piece| format!("<{piece}>\n")).collect();
        // The line offered, the opening line, and two lines a pass.
        let events = 2 + 2 * passes.len() as u64;
        let number = if whole.is_ok() { 0 } else { 21 };
        assert_left("!10!27\n<!20!23>!F1\n!F8\n", &row, number, events, &output);
    }
}

/// What is stored before a malformed character stays, and is listed.
#[test]
fn the_store_is_listed_after_21() {
    let stored = |body: &str| {
        let left = run_row(&format!("!F3\n{body}\n"), b"\xC3");
        (left.ran.number, left.ran.events, left.store)
    };
    assert_eq!(stored("!15!F1"), (21, 3, b"\xC3\n\n".to_vec()));
    assert_eq!(stored("!18"), (21, 3, b"\xC3\n\n".to_vec()));
    assert_eq!(stored("!10!27\n!F8"), (21, 3, b"\xC3\n\n".to_vec()));
    // Conversion 2 is carried out before the conversion that fails.
    let left = run_row("!12!15\n", b"\xC3");
    assert_eq!((left.ran.number, left.ran.events, &left.store[..]), (21, 2, &b"\xC3\n1\n"[..]));
    assert_eq!(left.ran.store, 4);
}

/// A parameter is tested by conversions 5 and 8 alone, and an iteration with a
/// list takes bytes.
#[test]
fn nothing_else_is_tested() {
    for row in rows() {
        let body = "!10!26\n!F3\n!11!F10\n!12!F10\n!10!27\u{1}\n!F8\n!F1\n111\n";
        assert_eq!(run_row(body, &row).ran.number, 0, "{row:02X?}");
    }
}
