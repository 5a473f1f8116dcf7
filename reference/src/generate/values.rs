//! Numbers near the ends of the range of values, expressions with them, and
//! texts that value, compare, skip and count passes by them.

use super::random::Random;
use super::SMALL_TEXT;

/// One past the ends of ranges and of counts of digits, and the least number
/// whose square is outside; the end of the range of values is likeliest.
const PLACES: [u128; 10] = [
    1 << 31,
    1 << 32,
    3_037_000_500,
    1 << 62,
    1 << 63,
    1 << 63,
    1 << 63,
    1 << 64,
    10u128.pow(18),
    10u128.pow(19),
];

const SMALL: [&str; 9] = ["0", "1", "1", "(-1)", "2", "3", "007", "10", "65536"];

/// The greatest value, its negation, the least, which has to be computed, and the
/// one quotient that is outside.
const ENDS: [&str; 6] = [
    "9223372036854775807",
    "9223372036854775807",
    "(-9223372036854775807)",
    "(-9223372036854775807-1)",
    "(-9223372036854775807-1)",
    "(-9223372036854775807-1)/(-1)",
];

/// The names in expressions; C is never stored.
const NAMES: [&str; 7] = ["A", "A", "A", "B", "B", "B", "C"];

/// What makes an expression malformed, mostly.
const DAMAGE: [&str; 7] = [" ", "(", ")", "-", "*", "A", "7"];

/// Stored texts that are no number of 1 to 19 digits, or just are one.
const STORED: [&str; 14] = [
    "0",
    "-0",
    "-1",
    "9223372036854775807",
    "9223372036854775808",
    "-9223372036854775808",
    "-9223372036854775809",
    "9999999999999999999",
    "0000000000000000001",
    "00000000000000000001",
    "-00000000000000000001",
    "",
    "-",
    "+1",
];

fn near_a_place(random: &mut Random) -> u128 {
    random.pick(&PLACES) + 1 - random.below(4) as u128
}

/// The digits of a number near a range's end, now and then after zeros.
pub fn digits(random: &mut Random) -> String {
    let number = near_a_place(random);
    match random.weighted(&[75, 15, 10]) {
        0 => number.to_string(),
        1 => format!("{number:0width$}", width = random.between(18, 21)),
        _ => format!("{number:0width$}", width = random.between(22, 40)),
    }
}

/// How many lines to skip or passes to make: far more than there can be.
pub fn count(random: &mut Random) -> &'static str {
    random.pick(&["2147483647", "4294967296", "4611686018427387904", "9223372036854775807"])
}

/// A text to store, mostly a number of 18 to 20 digits.
pub fn stored(random: &mut Random) -> String {
    if random.chance(50) {
        return random.pick(&STORED).to_string();
    }
    let (sign, number) = (random.pick(&["", "-"]), near_a_place(random));
    format!("{sign}{number:0width$}", width = random.between(1, 20))
}

/// An expression, mostly legal in form. `depth` is how deep brackets may nest.
fn expression(random: &mut Random, depth: usize) -> String {
    let mut row = String::new();
    if random.chance(25) {
        row += random.pick(&["-", "-", "+"]);
    }
    row += &operand(random, depth);
    for _ in 0..random.below(if depth > 0 { 3 } else { 2 }) {
        row += random.pick(&["+", "-", "*", "/"]);
        row += &operand(random, depth);
    }
    if random.chance(3) {
        row.insert_str(random.below(row.len() + 1), random.pick(&DAMAGE));
    }
    row
}

fn operand(random: &mut Random, depth: usize) -> String {
    match random.weighted(&[25, 25, 15, 20, 15]) {
        0 => digits(random),
        1 => random.pick(&SMALL).to_string(),
        2 => random.pick(&ENDS).to_string(),
        3 => random.pick(&NAMES).to_string(),
        _ if depth > 0 => format!("({})", expression(random, depth - 1)),
        _ => "()".to_string(),
    }
}

/// An end, a count or a small number, hardly ever outside the range.
fn end_count_or_small(random: &mut Random) -> &'static str {
    match random.weighted(&[45, 35, 20]) {
        0 => count(random),
        1 => random.pick(&SMALL),
        _ => random.pick(&ENDS),
    }
}

/// An expression, and what is stored under the names in it.
pub fn with_names(random: &mut Random) -> (String, [(&'static str, String); 2]) {
    (expression(random, 2), [("A", stored(random)), ("B", stored(random))])
}

/// What is done with the expression in parameter 1. A value that was written may
/// be stored and valued again; A is a side of comparisons.
const STATEMENTS: [&str; 15] = [
    "!14!F1\n",
    "!14,!14!F1\n",
    "!14!16\n!14!F1\n",
    "!14!26\nB!16\n!F3\n!11!F1\n",
    "!10-1!16\n!14!F1\n",
    "!F4\nx!F1\ny!F1\n",
    "1!F7\n!F4\nx!F1\n!F8\n",
    "W!10\nx!F1\n",
    "!10!36\n!F51\nx!F1\n",
    "!10!F7\nx!F1\n!F8\n",
    "!10!F7\n!F9\n!F8\nx!F1\n",
    "A!26\n1!36\n!F60\nx!F1\ny!F1\n",
    "A!26\n1!36\n!F61\nx!F1\ny!F1\n",
    "A!26\n1!36\n!F6-\nx!F1\ny!F1\n",
    "A!26\n1!36\n!F6+\nx!F1\ny!F1\n",
];

/// A small text about values: a macro with a statement, one that stores, one
/// that skips in its caller, and lines for the first two.
pub fn text(random: &mut Random) -> Vec<u8> {
    let statement = random.pick(&STATEMENTS);
    let mut text = format!("$!$!0 (+-*/)\nS!=!$\n!F3\n$\nW!$\n!F4\n$\nV!$\n{statement}$$\n");
    for _ in 0..random.between(2, 6) {
        let line = match random.weighted(&[30, 30, 40]) {
            0 => format!("S{}={}\n", random.pick(&["A", "B"]), stored(random)),
            1 => format!("V{}\n", expression(random, 1)),
            _ => format!("V{}\n", end_count_or_small(random)),
        };
        if text.len() + line.len() > SMALL_TEXT {
            break;
        }
        text += &line;
    }
    text.into_bytes()
}
