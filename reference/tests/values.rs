//! Values of expressions, through conversion 4: examples, both ends of the range,
//! and random ones against 128 bits.

mod common;

use std::collections::BTreeMap;

use common::{run_text, Dice};
use stage2_reference::generate::Generator;

const GREATEST: &str = "9223372036854775807";
const LEAST: &str = "-9223372036854775808";

/// The value of an expression as it is written, or `None` for fault 15. `stored`
/// lists names and their texts.
fn value(expression: &str, stored: &[(&str, &str)]) -> Option<String> {
    let mut text = "$#$!0 (+-*/)\nV:\n".to_string();
    for (name, stored_text) in stored {
        text += &format!("{name}!16\n{stored_text}!26\n!F3\n");
    }
    text += &format!("{expression}!16\n!14!F1\n$$\nV:\n");
    let left = run_text(text.as_bytes(), 1_000, 100);
    match left.ran.number {
        0 => Some(std::str::from_utf8(&left.output).unwrap().strip_suffix('\n').unwrap().to_string()),
        15 => None,
        number => panic!("{expression}: {number}"),
    }
}

fn assert_value(expression: &str, expected: &str) {
    assert_eq!(value(expression, &[]).as_deref(), Some(expected), "{expression}");
}

fn assert_fault(expression: &str) {
    assert_eq!(value(expression, &[]), None, "{expression}");
}

/// Compares each row's expression with its value; `None` is fault 15.
fn assert_values(stored: &[(&str, &str)], rows: &[(&str, Option<&str>)]) {
    for (expression, expected) in rows {
        assert_eq!(value(expression, stored).as_deref(), *expected, "{expression}");
    }
}

/// The last three are 01's overflows at the ends of 64 bits; with the numbers
/// that 01 has they are values.
#[test]
fn examples_of_document_01() {
    assert_value("", "0");
    assert_value("2-3*4", "-10");
    assert_value("(-7)/2", "-3");
    assert_value("2147483647+1", "2147483648");
    assert_value("(-2147483647-1)/(-1)", "2147483648");
    assert_value("-2147483648", "-2147483648");
    assert_fault("5/0");
    assert_fault("9223372036854775807+1");
    assert_fault("(-9223372036854775807-1)/(-1)");
    assert_fault("-9223372036854775808");
}

#[test]
fn levels_and_signs() {
    assert_value("10-4-3", "3");
    assert_value("100/7/2", "7");
    assert_value("7/2*2", "6");
    assert_value("-7/2", "-3");
    assert_value("7/(-2)", "-3");
    assert_value("-2*3+1", "-5");
    assert_value("+2*3", "6");
    assert_value("(2+3)*(4-5)", "-5");
    assert_value("((((1))))", "1");
}

#[test]
fn empty_expressions_and_signs_alone() {
    for expression in ["()", "(())", "-()", "+()", "()+()", "()*5", "-0"] {
        assert_value(expression, "0");
    }
    for expression in
        ["-", "+", "(-)", "--1", "+-1", "1-", "*1", "1**1", "1+-1", "1*-1", "/", "()()", "1()", "()1"]
    {
        assert_fault(expression);
    }
}

#[test]
fn malformed_expressions() {
    for expression in [" ", " 1", "1 ", "1 +1", "(", ")", "(1", "1)", ")1(", "12A", "A", "A 1", "1A", "?"] {
        assert_fault(expression);
    }
}

#[test]
fn operands_at_the_end() {
    assert_value("9223372036854775807", GREATEST);
    assert_value("000000000000000000000000009223372036854775807", GREATEST);
    assert_value(&("0".repeat(170) + "1"), "1");
    for expression in [
        "9223372036854775808",
        "00000000000000000009223372036854775808",
        "9999999999999999999",
        "18446744073709551615",
        "18446744073709551616",
        "18446744073709551617",
        "99999999999999999999999999999999999999999",
        "-9223372036854775808",
        "0*9223372036854775808",
    ] {
        assert_fault(expression);
    }
    assert_fault(&"9".repeat(190));
}

/// Steps that `steps_on_edges_against_128_bits` does not make: signs at the start,
/// and faults before the last step.
#[test]
fn signs_and_later_steps_at_the_ends() {
    assert_values(
        &[("A", LEAST)],
        &[
            ("-9223372036854775807", Some("-9223372036854775807")),
            ("-9223372036854775807+(-1)", Some(LEAST)),
            ("-9223372036854775807+(-2)", None),
            ("-9223372036854775807-1", Some(LEAST)),
            ("-9223372036854775807-2", None),
            ("-2147483648*4294967296", None),
            ("-(-9223372036854775807)", Some(GREATEST)),
            ("-(-9223372036854775807-1)", None),
            ("+(-9223372036854775807-1)", Some(LEAST)),
            ("-(A+1)", Some(GREATEST)),
            ("9223372036854775807+1-1", None),
            ("9223372036854775807*2/2", None),
            ("0*(9223372036854775807+1)", None),
            ("0*(1/0)", None),
        ],
    );
}

#[test]
fn names_and_their_texts() {
    for (text, expected) in [
        ("5", Some("5")),
        ("-5", Some("-5")),
        ("-0", Some("0")),
        ("0000000000000000012", Some("12")),
        ("-0000000000000000012", Some("-12")),
        ("9223372036854775807", Some(GREATEST)),
        ("9223372036854775808", None),
        ("-9223372036854775808", Some(LEAST)),
        ("-9223372036854775809", None),
        ("9999999999999999999", None),
        ("-9999999999999999999", None),
        ("999999999999999999", Some("999999999999999999")),
        ("00000000000000000001", None),
        ("-00000000000000000001", None),
        ("+5", None),
        ("-", None),
        ("--1", None),
        ("", None),
        ("1+1", None),
        ("(1)", None),
        (" 1", None),
        ("B", None),
    ] {
        assert_eq!(value("A", &[("A", text), ("B", "1")]).as_deref(), expected, "{text}");
    }
}

#[test]
fn names_are_the_longest_rows() {
    assert_values(
        &[("A", "2"), ("A1", "3"), ("A#.", "4"), ("A0", "5")],
        &[
            ("A*A1", Some("6")),
            ("A#.", Some("4")),
            ("A0-A", Some("3")),
            ("-A", Some("-2")),
            ("(A)", Some("2")),
            ("AA", None),
            ("A(1)", None),
            ("1A", None),
            ("A 1", None),
        ],
    );
}

/// Numbers on both sides of each place where a range or a count of digits ends.
fn edges() -> Vec<i128> {
    let places = [0, 10, 1 << 31, 1 << 32, 3_037_000_499, 1 << 62, 10i128.pow(18), i128::from(i64::MAX)];
    let near = places.iter().flat_map(|place| (-2..=2).map(move |by| place + by));
    let mut edges: Vec<i128> = near.flat_map(|number| [number, -number]).filter(|&n| in_range(n)).collect();
    edges.push(i64::MIN.into());
    edges.sort();
    edges.dedup();
    edges
}

fn in_range(number: i128) -> bool {
    i64::try_from(number).is_ok()
}

/// A number as an operand; the least has to be computed.
fn operand(number: i128) -> String {
    match number {
        0.. => number.to_string(),
        _ if number == i128::from(i64::MIN) => format!("({}-1)", number + 1),
        _ => format!("({number})"),
    }
}

/// Compares the four operations on two numbers, written and stored, with what
/// they give on 128 bits.
fn compare_pair(a: i128, b: i128) {
    let stored = [("A", &*a.to_string()), ("B", &*b.to_string())];
    for (sign, exact) in
        [("+", Some(a + b)), ("-", Some(a - b)), ("*", Some(a * b)), ("/", (b != 0).then(|| a / b))]
    {
        let expected = exact.filter(|&number| in_range(number)).map(|number| number.to_string());
        let written = format!("{}{sign}{}", operand(a), operand(b));
        assert_eq!(value(&written, &[]), expected, "{written}");
        assert_eq!(value(&format!("A{sign}B"), &stored), expected, "{stored:?} {sign}");
    }
}

#[test]
fn steps_on_edges_against_128_bits() {
    let edges = edges();
    for &a in &edges {
        let negated = Some(-a).filter(|&number| in_range(number)).map(|number| number.to_string());
        assert_eq!(value("-A", &[("A", &a.to_string())]), negated, "-({a})");
        edges.iter().for_each(|&b| compare_pair(a, b));
    }
}

/// Pairs of all widths, so that sums, products and quotients of each are met.
#[test]
fn steps_on_random_numbers_against_128_bits() {
    let mut dice = Dice(1);
    let mut number = || {
        let word = dice.word();
        let shift = word >> 58;
        i128::from((word.rotate_left(29) as i64) >> shift)
    };
    for _ in 0..3_000 {
        compare_pair(number(), number());
    }
}

/// Why an expression gives 15.
#[derive(Clone, Copy, Debug, PartialEq, Eq, PartialOrd, Ord)]
enum Cause {
    Form,
    NotStored,
    StoredForm,
    ZeroDivisor,
    Operand,
    Stored,
    Sign,
    Sum,
    Difference,
    Product,
    Quotient,
}

/// How many causes there are.
const CAUSES: usize = Cause::Quotient as usize + 1;

/// The value of an expression on 128 bits. It is split at its last operator, as
/// that is the last step, and so read in another way than the reference reads it.
fn exact_value(row: &str, stored: &[(&str, &str)]) -> Result<i128, Cause> {
    if row.is_empty() {
        return Ok(0);
    }
    match last_outside(row, "+-")? {
        None => exact_product(row, stored),
        Some(0) => {
            let product = exact_product(&row[1..], stored)?;
            in_range_or(if row.starts_with('-') { -product } else { product }, Cause::Sign)
        }
        Some(at) => {
            let sum = exact_value(&row[..at], stored)?;
            let product = exact_product(&row[at + 1..], stored)?;
            match &row[at..=at] {
                "+" => in_range_or(sum + product, Cause::Sum),
                _ => in_range_or(sum - product, Cause::Difference),
            }
        }
    }
}

fn exact_product(row: &str, stored: &[(&str, &str)]) -> Result<i128, Cause> {
    let Some(at) = last_outside(row, "*/")? else {
        return exact_operand(row, stored);
    };
    let product = exact_product(&row[..at], stored)?;
    let operand = exact_operand(&row[at + 1..], stored)?;
    match &row[at..=at] {
        "*" => in_range_or(product * operand, Cause::Product),
        _ if operand == 0 => Err(Cause::ZeroDivisor),
        _ => in_range_or(product / operand, Cause::Quotient),
    }
}

fn exact_operand(row: &str, stored: &[(&str, &str)]) -> Result<i128, Cause> {
    if let Some(inner) = row.strip_prefix('(').and_then(|rest| rest.strip_suffix(')')) {
        return exact_value(inner, stored);
    }
    if row.is_empty() || row.contains([' ', '(', '+', '-', '*', '/', ')']) {
        return Err(Cause::Form);
    }
    if row.starts_with(|byte: char| byte.is_ascii_digit()) {
        return in_range_or(exact_digits(row).ok_or(Cause::Form)?, Cause::Operand);
    }
    let (_, text) = stored.iter().find(|(name, _)| *name == row).ok_or(Cause::NotStored)?;
    let row = text.strip_prefix('-').unwrap_or(text);
    let number = exact_digits(row).filter(|_| row.len() <= 19).ok_or(Cause::StoredForm)?;
    in_range_or(if text.starts_with('-') { -number } else { number }, Cause::Stored)
}

/// The number of a row of digits, or one outside any range where it is too long.
fn exact_digits(row: &str) -> Option<i128> {
    let is_number = !row.is_empty() && row.bytes().all(|byte| byte.is_ascii_digit());
    is_number.then(|| format!("0{}", row.trim_start_matches('0')).parse().unwrap_or(i128::MAX))
}

fn in_range_or(number: i128, cause: Cause) -> Result<i128, Cause> {
    Some(number).filter(|&number| in_range(number)).ok_or(cause)
}

/// Where the last of some operators stands outside of brackets.
fn last_outside(row: &str, operators: &str) -> Result<Option<usize>, Cause> {
    let (mut depth, mut last) = (0, None);
    for (at, byte) in row.char_indices() {
        match byte {
            '(' => depth += 1,
            ')' if depth == 0 => return Err(Cause::Form),
            ')' => depth -= 1,
            _ if depth == 0 && operators.contains(byte) => last = Some(at),
            _ => {}
        }
    }
    if depth == 0 {
        Ok(last)
    } else {
        Err(Cause::Form)
    }
}

/// Expressions of the generator, which must meet each cause often, and values
/// beyond 32 bits in both directions.
#[test]
fn random_expressions_against_128_bits() {
    let mut generator = Generator::new(21);
    let mut causes: BTreeMap<Cause, usize> = BTreeMap::new();
    let (mut above, mut below) = (0, 0);
    for _ in 0..20_000 {
        let (expression, texts) = generator.expression();
        let stored: Vec<(&str, &str)> = texts.iter().map(|(name, text)| (*name, &**text)).collect();
        let exact = exact_value(&expression, &stored);
        let expected = exact.ok().map(|number| number.to_string());
        assert_eq!(value(&expression, &stored), expected, "{expression} {stored:?}");
        match exact {
            Ok(number) => {
                above += usize::from(number > 1 << 32);
                below += usize::from(number < -(1 << 32));
            }
            Err(cause) => *causes.entry(cause).or_default() += 1,
        }
    }
    println!("{causes:?}, values beyond 32 bits: {above} and {below}");
    assert_eq!(causes.len(), CAUSES, "{causes:?}");
    assert!(causes.values().all(|&count| count > 100), "{causes:?}");
    assert!(above > 1_000 && below > 1_000, "{above} {below}");
}
