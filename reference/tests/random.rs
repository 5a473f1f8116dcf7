//! Properties of random runs, and the reach of the generator.

mod common;

use std::collections::{BTreeMap, BTreeSet};

use common::{run_text, shown, Left, Sizes};
use stage2_reference::generate::{Generator, Size, SMALL_TEXT};
use stage2_reference::{check, fit, looks, most_places, Fitted, Ran, DEAD_ROW, NODE_ROW};

/// Calls `test` with random texts of both sizes.
fn for_texts(seed: u64, count: usize, test: impl FnMut(&mut Generator, &[u8])) {
    for_made(Generator::text, seed, count, test);
}

/// Calls `test` with random texts about outputs, of both sizes.
fn for_output_texts(seed: u64, count: usize, test: impl FnMut(&mut Generator, &[u8])) {
    for_made(Generator::output_text, seed, count, test);
}

/// Calls `test` with the texts that `make` makes.
fn for_made(
    make: fn(&mut Generator, Size) -> Vec<u8>,
    seed: u64,
    count: usize,
    mut test: impl FnMut(&mut Generator, &[u8]),
) {
    for size in [Size::Small, Size::Large] {
        let mut generator = Generator::new(seed);
        for _ in 0..count {
            let text = make(&mut generator, size);
            test(&mut generator, &text);
        }
    }
}

fn any_sizes(generator: &mut Generator) -> Sizes {
    Sizes { output: generator.room(), second: generator.room() }
}

/// Both outputs of a run must go on where those of another end.
fn assert_continued(first: &Left, then: &Left, text: &[u8]) {
    assert!(then.output.starts_with(&first.output), "{}", shown(text));
    assert!(then.second.starts_with(&first.second), "second output: {}", shown(text));
}

#[test]
fn more_fuel_only_continues() {
    let (mut ended, mut spent) = (0, 0);
    for_texts(11, 4_000, |generator, text| {
        let sizes = any_sizes(generator);
        let less = generator.fuel().clamp(1, 5_000);
        let more = less + generator.fuel().clamp(1, 5_000);
        let (first, then) = (run_text(text, less, sizes), run_text(text, more, sizes));
        if first.ran.number == 20 {
            spent += 1;
            assert_eq!(first.ran.events, less, "{}", shown(text));
            assert!(then.ran.events >= less, "{}", shown(text));
            assert_continued(&first, &then, text);
        } else {
            ended += 1;
            assert_eq!(first, then, "{}", shown(text));
        }
    });
    assert!(ended > 1_000 && spent > 300, "{ended} {spent}");
}

#[test]
fn more_room_only_continues() {
    let (mut full, mut second_full) = (0, 0);
    let mut test = |generator: &mut Generator, text: &[u8]| {
        let less = Sizes { output: generator.room().min(60), second: generator.room().min(60) };
        let fuel = generator.fuel().clamp(1, 2_000);
        let (first, then) = (run_text(text, fuel, less), run_text(text, fuel, 65_536));
        if first.ran.number == 13 {
            assert_continued(&first, &then, text);
            let (longer, second_longer) = (then.output.len() > less.output, then.second.len() > less.second);
            assert!(longer || second_longer, "{}", shown(text));
            full += u32::from(longer);
            second_full += u32::from(!longer);
        } else {
            assert_eq!(first, then, "{}", shown(text));
        }
    };
    for_texts(12, 3_000, &mut test);
    for_output_texts(12, 3_000, &mut test);
    println!("{full} {second_full}");
    assert!(full > 1_000 && second_full > 150, "{full} {second_full}");
}

/// What a run writes fits in rooms of just that length. With a byte less in one of
/// them its last line is missing, and all that followed.
#[test]
fn rooms_of_the_written_lengths_are_enough() {
    let (mut outputs, mut seconds) = (0, 0);
    let mut test = |generator: &mut Generator, text: &[u8]| {
        let fuel = generator.fuel().clamp(1, 500);
        let whole = run_text(text, fuel, 65_536);
        let sizes = Sizes { output: whole.output.len(), second: whole.second.len() };
        assert_eq!(run_text(text, fuel, sizes), whole, "{}", shown(text));
        let assert_full = |sizes: Sizes| {
            let left = run_text(text, fuel, sizes);
            assert_eq!(left.ran.number, 13, "{sizes:?}: {}", shown(text));
            assert_continued(&left, &whole, text);
        };
        if sizes.output > 0 {
            outputs += 1;
            assert_full(Sizes { output: sizes.output - 1, ..sizes });
        }
        if sizes.second > 0 {
            seconds += 1;
            assert_full(Sizes { second: sizes.second - 1, ..sizes });
        }
    };
    for_texts(18, 1_500, &mut test);
    for_output_texts(18, 1_500, &mut test);
    println!("{outputs} {seconds}");
    assert!(outputs > 1_000 && seconds > 1_000, "{outputs} {seconds}");
}

fn sorted_lines(output: &[u8]) -> Vec<&[u8]> {
    let mut lines: Vec<&[u8]> = output.split_inclusive(|&byte| byte == b'\n').collect();
    lines.sort();
    lines
}

/// A text with all lines of channel 4 on channel 3 gives the same but for the
/// outputs, and these have the same lines.
#[test]
fn channel_4_is_another_place_for_the_same_lines() {
    let mut written = 0;
    for_output_texts(19, 3_000, |generator, text| {
        let fuel = generator.fuel().clamp(1, 500);
        let left = run_text(text, fuel, 30_000);
        let joined = run_text(&replaced(&replaced(text, "F14", "F13"), "F24", "F23"), fuel, 60_000);
        let both = [&left.output[..], &left.second].concat();
        assert_eq!(sorted_lines(&joined.output), sorted_lines(&both), "{}", shown(text));
        let expected = Ran { output: both.len() as u64, second: 0, ..left.ran };
        assert_eq!(joined.ran, expected, "{}", shown(text));
        assert_eq!(joined.store, left.store, "{}", shown(text));
        written += u32::from(!left.output.is_empty() && !left.second.is_empty());
    });
    assert!(written > 1_000, "{written}");
}

#[test]
fn a_result_keeps_to_its_row_of_the_table() {
    for_texts(13, 4_000, |generator, text| {
        let (fuel, sizes) = (generator.fuel(), any_sizes(generator));
        // The lengths and what lies beyond them are compared in there.
        let Left { ran, store, .. } = run_text(text, fuel, sizes);
        let checked = check(text, NODE_ROW);
        if !(1..=1_000_000).contains(&fuel) {
            assert_eq!((ran.number, ran.line), (1, 0));
        } else if checked.number != 0 {
            assert_eq!((ran.number, ran.line), (checked.number, checked.line), "{}", shown(text));
        }
        if (1..=9).contains(&ran.number) {
            let refused = Ran { number: ran.number, line: ran.line, ..Ran::default() };
            assert_eq!(ran, refused, "{}", shown(text));
        } else {
            assert!(ran.number == 0 || (11..=21).contains(&ran.number), "{}", shown(text));
            assert!(ran.events <= fuel && ran.line >= checked.line, "{}", shown(text));
            assert_eq!(store.last(), Some(&b'\n'), "{}", shown(text));
        }
    });
}

/// What the first input line does is what fitting it says.
#[test]
fn a_run_begins_with_the_fitted_line() {
    let (mut calls, mut plain) = (0, 0);
    for_texts(14, 2_000, |generator, text| {
        let checked = check(text, NODE_ROW);
        let line = generator.line(text, Size::Large);
        let fitted = fit(text, NODE_ROW, DEAD_ROW, &line);
        if checked.number != 0 {
            let refused = Fitted { number: checked.number, line: checked.line, ..Fitted::default() };
            assert_eq!(fitted, refused, "{}", shown(text));
            return;
        }
        let section: Vec<&[u8]> = text.split_inclusive(|&byte| byte == b'\n').collect();
        let whole = line.len() <= 200 && !line.iter().any(|byte| [0, b'\n', text[0]].contains(byte));
        let section_ended = section[checked.line as usize - 1].ends_with(b"\n");
        if !whole || !section_ended {
            return;
        }
        let with_line = [&section[..checked.line as usize].concat(), &line[..], b"\n"].concat();
        let first = run_text(&with_line, 1, 1_000);
        if fitted.line == 0 {
            plain += 1;
            assert_eq!(first.output, [&line[..], b"\n"].concat(), "{}", shown(&with_line));
        } else {
            calls += 1;
            assert_eq!(first.output, b"", "{}", shown(&with_line));
            for (start, length) in fitted.start.iter().zip(&fitted.length) {
                assert!(start + length <= line.len() as u64, "{}", shown(&with_line));
            }
        }
    });
    assert!(calls > 500 && plain > 200, "{calls} {plain}");
}

#[test]
fn the_generator_reaches_every_number() {
    let mut numbers = BTreeSet::new();
    for_texts(15, 8_000, |generator, text| {
        let (fuel, sizes) = (generator.fuel().min(20_000), any_sizes(generator));
        numbers.insert(run_text(text, fuel, sizes).ran.number);
    });
    let all: BTreeSet<u64> = (0..=21).filter(|&number| number != 10).collect();
    assert_eq!(numbers, all);
}

/// Texts about values end with all that values lead to, often: done, 15, 18 for a
/// skip, and 20 for more passes than there is fuel.
#[test]
fn texts_about_values_reach_their_numbers() {
    let mut generator = Generator::new(16);
    let mut numbers: BTreeMap<u64, u64> = BTreeMap::new();
    for _ in 0..8_000 {
        let number = run_text(&generator.value_text(), 1_000, 4_096).ran.number;
        *numbers.entry(number).or_default() += 1;
    }
    println!("{numbers:?}");
    for number in [0, 15, 18, 20] {
        assert!(numbers.get(&number).is_some_and(|&count| count > 100), "{numbers:?}");
    }
}

/// Fits every line of random texts, and calls `test` with each text, line and answer.
/// Places and bytes are counted for number 0 alone, from the root on and within their
/// bounds.
fn for_fitted(
    make: fn(&mut Generator, Size) -> Vec<u8>,
    size: Size,
    mut test: impl FnMut(&[u8], &[u8], Fitted),
) {
    let mut generator = Generator::new(17);
    for _ in 0..4_000 {
        let text = make(&mut generator, size);
        for line in text.split(|&byte| byte == b'\n') {
            let fitted = fit(&text, NODE_ROW, DEAD_ROW, line);
            let bound = most_places(&text, line);
            let legal = match fitted.number {
                0 => {
                    (1..=bound.unwrap()).contains(&fitted.places)
                        && fitted.bytes <= fitted.places * line.len() as u64
                }
                _ => (fitted.places, fitted.bytes) == (0, 0),
            };
            assert!(legal, "{fitted:?} of {bound:?}: {} {}", shown(&text), shown(line));
            test(&text, line, fitted);
        }
    }
}

/// Texts about places have many of them, for calls and for others.
#[test]
fn texts_about_places_keep_the_search_busy() {
    for (size, many) in [(Size::Small, 100), (Size::Large, 1_000)] {
        let (mut calls, mut others) = (0, 0);
        for_fitted(Generator::places_text, size, |_, _, fitted| {
            calls += u32::from(fitted.line > 0 && fitted.places >= many);
            others += u32::from(fitted.line == 0 && fitted.places >= many);
        });
        println!("{size:?}: {calls} {others}");
        assert!(calls > 100 && others > 500, "{size:?}: {calls} {others}");
    }
}

/// Texts about brackets have many bytes read, for calls and for others, and looks
/// for atoms where there is none.
#[test]
fn texts_about_brackets_are_looked_at_everywhere() {
    for (size, many) in [(Size::Small, 50), (Size::Large, 500)] {
        let mut counts: BTreeMap<&str, u32> = BTreeMap::new();
        for_fitted(Generator::brackets_text, size, |text, line, fitted| {
            let looks = looks(text, line).unwrap_or_default();
            for (what, occurs) in [
                ("a call with many bytes", fitted.line > 0 && fitted.bytes >= many),
                ("no call, with many bytes", fitted.line == 0 && fitted.bytes >= many),
                ("a right bracket", looks.right_brackets > 0),
                ("a left bracket without a partner", looks.left_brackets > 0),
                ("the line's end", looks.line_ends > 0),
            ] {
                *counts.entry(what).or_default() += u32::from(occurs);
            }
        });
        println!("{size:?}: {counts:#?}");
        assert!(counts.values().all(|&count| count > 200), "{size:?}: {counts:#?}");
    }
}

/// The text with one row of bytes in place of another.
fn replaced(text: &[u8], part: &str, other: &str) -> Vec<u8> {
    let (mut left, mut replaced) = (text, Vec::new());
    while let Some(at) = left.windows(part.len()).position(|window| window == part.as_bytes()) {
        replaced.extend_from_slice(&left[..at]);
        replaced.extend_from_slice(other.as_bytes());
        left = &left[at + part.len()..];
    }
    replaced.extend_from_slice(left);
    replaced
}

/// A run that hardly ever lacks fuel or room.
fn run_plenty(text: &[u8]) -> Left {
    run_text(text, 500, 8_192)
}

/// Whether a run leaves something else with `other` in place of `part`.
fn matters(text: &[u8], part: &str, other: &str) -> bool {
    run_plenty(&replaced(text, part, other)) != run_plenty(text)
}

/// Whether an input line of a text is over 200 bytes.
fn has_long_line(text: &[u8]) -> bool {
    let content = |line: &[u8]| line.iter().position(|&byte| byte == text[0]).unwrap_or(line.len());
    text.split(|&byte| byte == b'\n').any(|line| content(line) > 200)
}

/// What request 4 speaks of, and whether it comes about in a text about outputs.
/// Instead of function 2 there is tried one that drops all lines (F20), one that
/// ends the run (F0), and an assignment that is of no use (96).
fn occurrences(text: &[u8]) -> [(&'static str, bool); 15] {
    let ran = run_plenty(text).ran;
    let dropping = run_plenty(&replaced(text, "F2", "F20")).ran;
    let longer = run_plenty(&[text, b"\nz\n"].concat()).ran;
    let reads = matters(text, "F2", "96");
    let done = ran.number == 0;
    [
        ("a line on channel 4", matters(text, "F14", "F10")),
        ("a layout on channel 4", matters(text, "\n!F14\n", "\n!F10\n")),
        ("channel 4 is full", run_text(text, 500, Sizes { output: 8_192, second: 9 }).ran.number == 13),
        ("a copy without digit", matters(text, "F2\n", "F20\n")),
        ("a copy to channel 3", matters(text, "F23", "F20")),
        ("a copy to channel 4", matters(text, "F24", "F20")),
        ("a copy to channel 0", matters(text, "F20", "960")),
        ("a copy in an iteration", reads && matters(text, "!F8\n", "!F9\n!F8\n")),
        ("a copy in a nested call", reads && matters(text, "\nC!10\n", "\n!96\n")),
        ("a copy that reads no line", !reads && matters(text, "F2", "F0")),
        ("a copy up to a line", done && reads && ran.events < longer.events),
        ("a copy up to the end", done && reads && ran.events == longer.events && ran.line < longer.line),
        ("a long line copied", ran.number == 11 && dropping.number != 11),
        ("a long line not measured", done && has_long_line(text)),
        ("malformed code", ran.number == 7),
    ]
}

#[test]
fn texts_about_outputs_are_about_all_of_it() {
    let mut counts: BTreeMap<&str, u32> = BTreeMap::new();
    for_output_texts(20, 2_000, |_, text| {
        for (what, occurs) in occurrences(text) {
            *counts.entry(what).or_default() += u32::from(occurs);
        }
    });
    println!("{counts:#?}");
    assert!(counts.values().all(|&count| count > 100), "{counts:#?}");
}

/// Not only texts about outputs, of which there are some 500 here, use channel 4
/// and copy.
#[test]
fn any_text_may_use_both_outputs() {
    let (mut written, mut copied) = (0, 0);
    for_texts(21, 4_000, |_, text| {
        written += u32::from(matters(text, "F14", "F10"));
        copied += u32::from(matters(text, "F2", "96"));
    });
    println!("{written} {copied}");
    assert!(written > 550 && copied > 550, "{written} {copied}");
}

#[test]
fn small_texts_are_small_and_a_seed_decides() {
    let mut first = Generator::new(3);
    let mut second = Generator::new(3);
    for _ in 0..1_000 {
        let text = first.text(Size::Small);
        assert!(text.len() <= SMALL_TEXT);
        assert_eq!(text, second.text(Size::Small));
        assert!(first.character_text().len() <= SMALL_TEXT);
        assert!(first.value_text().len() <= SMALL_TEXT);
        assert!(first.places_text(Size::Small).len() <= SMALL_TEXT);
        assert!(first.brackets_text(Size::Small).len() <= SMALL_TEXT);
        assert!(first.output_text(Size::Small).len() <= SMALL_TEXT);
        assert!(first.uses_text(Size::Small).len() <= SMALL_TEXT);
        second.character_text();
        second.value_text();
        second.places_text(Size::Small);
        second.brackets_text(Size::Small);
        second.output_text(Size::Small);
        second.uses_text(Size::Small);
    }
    assert_ne!(Generator::new(4).text(Size::Small), Generator::new(5).text(Size::Small));
}
