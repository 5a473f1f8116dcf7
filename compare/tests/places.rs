//! The proved fit and the reference's on lines that keep a search busy: how many
//! places both take up, how many bytes both read for atoms, that the worst lines are
//! fast, and that nested brackets take no longer than the bytes read for them.

mod common;

use std::time::{Duration, Instant};

use common::{answered, for_brackets_texts, for_places_texts, least_times, shown, Rows};
use stage2_compare::cases::{bracket_lines, bracket_texts, nested, text_of};
use stage2_compare::fit;
use stage2_compare::lent::Lent;
use stage2_reference::generate::{Generator, Size};
use stage2_reference::{self as reference, most_places, Fitted, DEAD_ROW, NODE_ROW};

/// What a line may take.
const LONGEST: Duration = Duration::from_millis(10);

/// How often a line is timed, until it is fast: other work on the machine only
/// lengthens a time.
const TIMES: usize = 40;

/// How often times are taken in turn, to see how they grow. The least of each counts,
/// which other work on the machine disturbs least.
const ROUNDS: usize = 100;

/// How much more than the bytes read a time may grow, since times are never exact. A
/// scan that read the inner brackets again at each depth would grow twice as much.
const ALLOWANCE: f64 = 1.5;

/// Compares fitting a line, and places and bytes with their bounds; gives the answer.
fn compare(text: &[u8], rows: &mut Rows, line: &[u8]) -> Fitted {
    let (nodes, dead) = rows.lend(NODE_ROW, DEAD_ROW);
    let fitted = fit(text, nodes, dead, line);
    let expected = reference::fit(text, NODE_ROW, DEAD_ROW, line);
    assert_eq!(fitted, expected, "{} line: {}", shown(text), shown(line));
    let legal = match most_places(text, line) {
        Some(most) if fitted.number == 0 => {
            (1..=most).contains(&fitted.places) && fitted.bytes <= fitted.places * line.len() as u64
        }
        _ => (fitted.places, fitted.bytes) == (0, 0),
    };
    let Fitted { places, bytes, .. } = fitted;
    assert!(legal, "{places} places, {bytes} bytes: {} line: {}", shown(text), shown(line));
    fitted
}

/// Calls a test with random texts of a kind and a size.
type ForTexts = fn(Size, &mut dyn FnMut(&mut Generator, &[u8]));

/// All lines of random texts, each against its text. Unless the texts are few, calls
/// and no calls must be among those that count many places, or bytes.
fn compare_texts(for_texts: ForTexts, size: Size, count: fn(Fitted) -> u64, many: u64) {
    let mut rows = Rows::least();
    let (mut texts, mut calls, mut others) = (0, 0, 0);
    for_texts(size, &mut |_, text| {
        texts += 1;
        for line in text.split(|&byte| byte == b'\n') {
            let fitted = compare(text, &mut rows, line);
            calls += u64::from(fitted.line > 0 && count(fitted) >= many);
            others += u64::from(fitted.line == 0 && count(fitted) >= many);
        }
    });
    println!("{many} and more: {calls} calls and {others} others in {texts} texts");
    assert!(texts < 1_000 || calls * 100 > texts && others * 20 > texts, "{calls} {others}");
}

fn compare_places(size: Size, many: u64) {
    compare_texts(|size, test| for_places_texts(size, test), size, |fitted| fitted.places, many);
}

fn compare_bytes(size: Size, many: u64) {
    compare_texts(|size, test| for_brackets_texts(size, test), size, |fitted| fitted.bytes, many);
}

#[test]
fn small_texts() {
    compare_places(Size::Small, 100);
}

#[test]
fn large_texts() {
    compare_places(Size::Large, 1_000);
}

#[test]
fn small_texts_about_brackets() {
    compare_bytes(Size::Small, 50);
}

#[test]
fn large_texts_about_brackets() {
    compare_bytes(Size::Large, 500);
}

/// Places and bytes of both implementations, side by side.
#[test]
fn long_brackets() {
    let mut rows = Rows::least();
    println!("{:38} {:>18} {:>18}", "", "places of both", "bytes of both");
    for (templates, text) in bracket_texts() {
        for (name, line) in bracket_lines() {
            let (text, line) = (text.as_bytes(), line.as_bytes());
            let (nodes, dead) = rows.lend(NODE_ROW, DEAD_ROW);
            let both = [fit(text, nodes, dead, line), reference::fit(text, NODE_ROW, DEAD_ROW, line)];
            let (places, bytes) = (both.map(|fitted| fitted.places), both.map(|fitted| fitted.bytes));
            println!(
                "{templates:22} {name:15} {:9} {:8} {:9} {:8}",
                places[0], places[1], bytes[0], bytes[1]
            );
            assert_eq!(both, [compare(text, &mut rows, line); 2], "{templates}, {name}");
        }
    }
}

/// Lines that fit and lines that leave marks, in turn, each with random bytes in
/// the row, with every mark, and with what the last line left.
#[test]
fn marks_are_fresh_for_each_line() {
    let text = text_of(["!a!b!c", "!a!d"].map(String::from)).into_bytes();
    let mut rows = Rows::least();
    for _ in 0..3 {
        // Not a multiple of three, so that each line meets each kind of row.
        for (line, template) in [("aabc", 2), ("aab", 0), ("aad", 4), ("aa", 0), ("abc", 2)] {
            assert_eq!(compare(&text, &mut rows, line.as_bytes()).line, template, "{line}");
        }
    }
}

/// The least time that fitting a line takes, and its answer.
fn time_of(text: &[u8], line: Vec<u8>) -> (Duration, Fitted) {
    let text = text.to_vec();
    answered(move || timed(&text, &line))
}

fn timed(text: &[u8], line: &[u8]) -> (Duration, Fitted) {
    let mut rows = Rows::least();
    let fitted = compare(text, &mut rows, line);
    let (nodes, dead) = rows.lend(NODE_ROW, DEAD_ROW);
    let mut least = Duration::MAX;
    for turn in 0..TIMES {
        let start = Instant::now();
        let again = fit(text, nodes, dead, line);
        least = least.min(start.elapsed());
        assert_eq!(again, fitted);
        if turn >= 5 && least <= LONGEST {
            break;
        }
    }
    (least, fitted)
}

/// Templates of nine placeholders that share everything but what stands after it.
fn shared(ends: &str) -> Vec<u8> {
    text_of(ends.chars().map(|end| format!("!a!a!a!a!a!a!a!a!{end}"))).into_bytes()
}

/// 128 templates, 2,047 nodes: all rows of seven a's and placeholders, each with a
/// tail of its own. In a line of a's nearly every node is met at every position.
fn crowded() -> Vec<u8> {
    let element = |at: usize, place: usize| if at >> place & 1 == 1 { '!' } else { 'a' };
    let row = |at: usize| -> String { (0..7).map(|place| element(at, place)).collect() };
    text_of((0..128).map(|at| row(at) + "!!aaaaaaaaaab")).into_bytes()
}

/// A line of so many bytes that repeats a row and has an end of its own.
fn line_of(row: &str, length: usize, end: &str) -> Vec<u8> {
    row.bytes().cycle().take(length - end.len()).chain(end.bytes()).collect()
}

/// Fits a line of 20 and one of 200 bytes, which must be what they are meant to
/// be; gives the longer one's time and places.
fn measured(case: &str, text: &[u8], row: &str, end: &str, template: u64) -> (Duration, u64) {
    let (short, _) = time_of(text, line_of(row, 20, end));
    let (time, fitted) = time_of(text, line_of(row, 200, end));
    let ratio = time.as_secs_f64() / short.as_secs_f64();
    println!("{case:30} {:7} places {time:>9.1?}, {ratio:5.1} times as long as 20 bytes", fitted.places);
    assert_eq!((fitted.number, fitted.line), (0, template), "{case}");
    (time, fitted.places)
}

#[test]
fn the_worst_lines_are_fast() {
    let texts = |templates: &[&str]| text_of(templates.iter().map(|row| row.to_string())).into_bytes();
    let nine = "!a!a!a!a!a!a!a!a!c";
    // Each text with what its lines repeat, their end, and the template's line.
    let cases = [
        ("nowhere", shared("b"), "a", "", 0),
        ("nowhere, 20 templates", shared("bcdefghijklmnopqrstu"), "a", "", 0),
        ("nowhere, no separators", texts(&["!!!!!!!!!b"]), "a", "", 0),
        ("nowhere, brackets", shared("b(c"), "(a)a", "", 0),
        ("nowhere, brackets between", texts(&["!(!)!(!)!(!)!(!)!b"]), "()", "", 0),
        ("at the last place", texts(&[nine, "!ab!!!!!!!!"]), "a", "b", 4),
        ("at the last place, alone", texts(&[nine, "!b"]), "a", "b", 4),
        ("at the first place", shared("b"), "a", "b", 2),
    ];
    for (case, text, row, end, template) in cases {
        let (time, _) = measured(case, &text, row, end, template);
        assert!(time <= LONGEST, "{case}: {time:?}");
    }
}

/// As many places as can be, which is most of the bound.
#[test]
fn the_most_places_are_fast() {
    let text = crowded();
    let most = most_places(&text, &[b'a'; 200]).unwrap();
    assert_eq!(most, 2_047 * 201);
    let (time, places) = measured("nowhere, 2,047 nodes", &text, "a", "", 0);
    assert!(places * 5 > most * 4, "{places} of {most}");
    assert!(time <= 10 * LONGEST, "{time:?}");
}

/// A run that offers a hundred such lines, and writes them all.
#[test]
fn a_run_of_the_worst_lines_is_fast() {
    let lines = [line_of("a", 200, ""), b"\n".to_vec()].concat().repeat(100);
    let text = [shared("b"), lines.clone()].concat();
    let [time] = answered(move || {
        let mut lent = Lent::default();
        let ran = lent.run_proved(&text);
        assert_eq!((ran.number, ran.events), (0, 100));
        assert!(lent.rooms.output[..ran.output as usize] == lines);
        least_times(5, [&text])
    });
    println!("100 lines: {time:.1?}");
    assert!(time <= 100 * LONGEST, "{time:?}");
}

/// From 50 nested brackets to 100 the time of a line grows no faster than the bytes
/// read for it, but for the allowance. A run offers the line many times. The time of
/// as many empty lines is taken off, so that loading and what every line takes don't
/// hide the growth.
#[test]
fn the_time_of_nested_brackets_grows_as_the_bytes_read() {
    const LINES: usize = 250;
    for (templates, text) in bracket_texts() {
        let mut rows = Rows::least();
        let [few, many] =
            [50, 100].map(|depth| compare(text.as_bytes(), &mut rows, nested(depth).as_bytes()).bytes);
        let growth = many as f64 / few as f64;
        let texts = [0, 50, 100].map(|depth| text.clone() + &(nested(depth) + "\n").repeat(LINES));
        let times = answered(move || least_times(ROUNDS, texts.each_ref().map(|text| text.as_bytes())));
        let [empty, shorter, longer] = times.map(|time| time.as_secs_f64());
        let ratio = (longer - empty) / (shorter - empty);
        println!(
            "{templates:23} {few:5} and {many:5} bytes: {growth:.2} times as many, {ratio:.2} times as long"
        );
        assert!(ratio <= growth * ALLOWANCE, "{templates}: {ratio:.2}, bytes {growth:.2}");
    }
}
