//! The proved check and fit, and the reference's, on random texts and lines.

mod common;

use common::{any_dead, for_texts, shown, Numbers, Rows, LONGEST_DEAD};
use stage2_compare::{check, fit};
use stage2_reference::generate::Size;
use stage2_reference::{self as reference, DEAD_ROW, NODE_ROW};

/// How much of the rows is lent.
#[derive(Clone, Copy, Debug)]
struct Lengths {
    nodes: usize,
    dead: usize,
}

/// The least that are legal.
const LEAST: Lengths = Lengths { nodes: NODE_ROW, dead: DEAD_ROW };

/// Compares both calls on a text and a line with rows of these lengths; gives the
/// numbers of the two answers.
fn compare(text: &[u8], rows: &mut Rows, lengths: Lengths, line: &[u8]) -> (u64, u64) {
    let Lengths { nodes, dead } = lengths;
    let checked = check(text, rows.nodes(nodes));
    assert_eq!(checked, reference::check(text, nodes), "check, {nodes} nodes: {}", shown(text));
    let (node_row, dead_row) = rows.lend(nodes, dead);
    let fitted = fit(text, node_row, dead_row, line);
    assert_eq!(
        fitted,
        reference::fit(text, nodes, dead, line),
        "fit, {lengths:?}: {} line: {}",
        shown(text),
        shown(line)
    );
    (checked.number, fitted.number)
}

/// Lengths that are mostly legal: with short rows the text is not even read.
fn any_lengths(turn: u64) -> Lengths {
    let nodes = match turn % 40 {
        0 => NODE_ROW - 1,
        odd if odd % 2 == 1 => NODE_ROW,
        _ => 3_000,
    };
    Lengths { nodes, dead: any_dead(turn) }
}

/// Random texts, each with lines that resemble its templates. All of `expected`
/// must be met among the numbers of the answers.
fn compare_random(size: Size, expected: &[u64]) {
    let mut rows = Rows::up_to(3_000, LONGEST_DEAD);
    let mut numbers = Numbers::default();
    let mut turn = 0;
    for_texts(size, |generator, text| {
        for _ in 0..3 {
            let mut line = generator.line(text, Size::Large);
            // Bytes that no input line of a text can have.
            if turn % 5 == 0 {
                line.insert(line.len() / 2, if turn % 2 == 0 { 0 } else { 10 });
            }
            let (checked, fitted) = compare(text, &mut rows, any_lengths(turn), &line);
            numbers.add(checked);
            numbers.add(fitted);
            turn += 1;
        }
    });
    numbers.assert_met(expected);
}

/// Lines of every length up to one past the limit.
fn compare_lengths(text: &[u8], byte: u8) {
    let mut rows = Rows::least();
    for length in 0..=201 {
        let (_, fitted) = compare(text, &mut rows, LEAST, &vec![byte; length]);
        assert_eq!(fitted, if length > 200 { 11 } else { 0 }, "length {length}");
    }
}

#[test]
fn small_texts() {
    compare_random(Size::Small, &[0, 1, 3, 4, 5, 6, 7, 8, 11]);
}

#[test]
fn large_texts() {
    compare_random(Size::Large, &[0, 1, 2, 3, 4, 5, 6, 7, 8, 9, 11]);
}

#[test]
fn lines_of_every_length() {
    for byte in [b'A', b'x', b'(', b'!', 0, 10, 255] {
        compare_lengths(b"$!$!0 (+-*/)\n!$\n$\nA!$\n$\n!A!x!$\n$$\n", byte);
    }
}

#[test]
fn rows_of_every_kind() {
    let text = b"$!$!0 (+-*/)\nA!$\n$$\n";
    let mut rows = Rows::up_to(70_000, 70_000);
    for nodes in [0, 1, 2_047, 2_048, 2_049, 65_535, 65_536, 70_000] {
        for dead in [0, 1, 51_455, 51_456, 51_457, 65_535, 65_536, 70_000] {
            let (checked, fitted) = compare(text, &mut rows, Lengths { nodes, dead }, b"AB");
            let number = |legal| if legal { 0 } else { 1 };
            let expected = (number(nodes >= 2_048), number(nodes >= 2_048 && dead >= 51_456));
            assert_eq!((checked, fitted), expected, "{nodes} nodes, {dead} bytes");
        }
    }
}

#[test]
fn texts_of_the_greatest_length() {
    for length in [65_535, 65_536, 65_537] {
        let mut text = b"$!$!0 (+-*/)\nA!$\n$$\n".to_vec();
        text.resize(length, b'x');
        compare(&text, &mut Rows::least(), LEAST, b"AB");
    }
}
