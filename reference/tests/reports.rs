//! Request 7: the usage report. What is expected of the texts was worked out on paper,
//! point by point; of random texts, from the lines that their runs offer.

mod common;

use std::collections::BTreeMap;

use common::{run_text, shown, text, Left, Sizes};
use stage2_reference::generate::{pattern, Generator, Size};
use stage2_reference::{check, counts, fit, run, run_telling, Ran, Rooms, DEAD_ROW, NODE_ROW};

/// A report with these rows, which stand here in one line.
fn report(rows: &str) -> String {
    format!("template,calls\n{}\n", rows.replace(' ', "\n"))
}

/// Compares number, line and events of a run, and its report's rows.
fn assert_run(left: &Left, end: [u64; 3], rows: &str, case: &str) {
    let ran = &left.ran;
    assert_eq!([ran.number, ran.line, ran.events], end, "{case}");
    assert_eq!(String::from_utf8_lossy(&left.report), report(rows), "{case}");
}

/// The same for a text with plenty of fuel and room.
fn assert_left(rest: &str, end: [u64; 3], rows: &str) {
    assert_run(&run_text(text(rest).as_bytes(), 1_000, 1_000), end, rows, rest);
}

/// The same with so much fuel.
fn assert_fuel(rest: &str, fuel: u64, end: [u64; 3], rows: &str) {
    assert_run(&run_text(text(rest).as_bytes(), fuel, 1_000), end, rows, &format!("fuel {fuel}: {rest}"));
}

/// The same with so many bytes of room for channel 3, and none for channel 4.
fn assert_room(rest: &str, output: usize, end: [u64; 3], rows: &str) {
    let left = run_text(text(rest).as_bytes(), 1_000, Sizes { output, second: 0 });
    assert_run(&left, end, rows, &format!("room {output}: {rest}"));
}

#[test]
fn a_run_that_offers_nothing_has_a_report() {
    assert_left("A$\n$\nB!$\nx!F1\n$$\n", [0, 6, 0], "2,0 4,0 0,0");
    // The only line is too long to be offered.
    assert_left(&format!("A$\n$$\n{}\n", "x".repeat(201)), [11, 4, 0], "2,0 0,0");
}

/// In the tree A and Z come first, and the placeholder last.
#[test]
fn templates_stand_in_the_texts_order() {
    let section = "Z$\n$\n!$\n$\nA!$\n$\nA$\n$$\n";
    assert_left(&format!("{section}A\nAB\nZ\nZ\nx\n)(\n"), [0, 15, 6], "2,2 4,1 6,1 8,1 0,1");
    assert_left(&format!("{section}A\n"), [0, 10, 1], "2,0 4,0 6,0 8,1 0,0");
}

/// Code lines, layouts and ends have line numbers too.
#[test]
fn a_template_is_named_by_its_line() {
    let section = format!("A$\nx!F1\n!F1\n1\n{}$\nB$\n$$\n", "\n".repeat(100));
    assert_left(&format!("{section}B\nB\n"), [0, 110, 2], "2,0 107,2 0,0");
}

#[test]
fn built_lines_count_like_input_lines() {
    // The call calls another, which offers two lines that pass.
    assert_left("A!$\n!10\n$\nB$\nx\nC\n$$\nAB\nx\n", [0, 10, 8], "2,1 5,1 0,3");
    // Twelve passes.
    assert_left("G$\n12!F7\nA\n!F8\n$\nA$\n$$\nG\n", [0, 9, 38], "2,1 7,12 0,0");
}

#[test]
fn the_empty_template_is_one_too() {
    assert_left("$\n$$\n\n$ note\nx\n", [0, 6, 3], "2,2 0,1");
}

/// The first piece of two may be empty, which comes before any other piece, so that the
/// other template is left with empty lines.
#[test]
fn a_template_may_be_dead() {
    let section = "!$\n$\n!!$\n$$\n";
    assert_left(&format!("{section}a\nb\n"), [0, 7, 2], "2,0 4,2 0,0");
    assert_left(&format!("{section}a\n\n)\n"), [0, 8, 3], "2,1 4,1 0,1");
}

/// Lines that function 1 writes or a layout, that function 2 copies or drops, and that
/// a skip drops.
#[test]
fn lines_that_are_not_offered_do_not_count() {
    let section = "C!$\n!10!F1\n!F14\n1\n!F2\n$\nS$\n1!16\n!F4\n$$\n";
    let left = run_text(text(&format!("{section}CE\nA\nCE\nE\nS\nx\ny\n")).as_bytes(), 100, 100);
    assert_run(&left, [0, 18, 8], "2,1 8,1 0,1", section);
    assert_eq!((&left.output[..], &left.second[..]), (&b"E\nA\nCE\ny\n"[..], &b"E\n"[..]));
    assert_left("C!$\n!F20\n$$\nCE\nCE\nx\nE\n", [0, 8, 2], "2,1 0,0");
    assert_left("A$\nx!F10\n!F10\n1\n$$\nA\n", [0, 7, 3], "2,1 0,0");
}

#[test]
fn function_0_ends_the_counting() {
    assert_left("A$\n!F0\n$$\nx\nA\nA\n", [0, 6, 3], "2,1 0,1");
}

/// The line that lacks room is decided; those that no one offers are none.
#[test]
fn a_line_counts_even_if_13_follows() {
    assert_room("A$\n$$\nA\nxy\nz\n", 2, [13, 5, 2], "2,1 0,1");
    assert_room("A$\n$$\nA\nxy\nz\n", 3, [13, 6, 3], "2,1 0,2");
    assert_room("A$\nxy\n$$\nA\n", 2, [13, 5, 3], "2,1 0,1");
    assert_room("A$\nxy!F1\n$$\nA\n", 2, [13, 5, 2], "2,1 0,0");
    assert_room("A$\nxy!F14\n$$\nA\n", 2, [13, 5, 2], "2,1 0,0");
    assert_room("A$\n!F1\nxy\n$$\nA\n", 2, [13, 6, 2], "2,1 0,0");
    assert_room("C!$\n!F2\n$$\nCE\nxy\nE\n", 2, [13, 6, 2], "2,1 0,0");
}

/// Thirteen lines are offered, of which the last opens no call.
#[test]
fn a_line_counts_even_if_14_follows() {
    assert_left("A!$\nA!10x\n$$\nA\n", [14, 5, 25], "2,13 0,0");
    assert_fuel("A!$\nA!10x\n$$\nA\n", 25, [14, 5, 25], "2,13 0,0");
    assert_fuel("A!$\nA!10x\n$$\nA\n", 24, [20, 5, 24], "2,12 0,0");
    // The twelfth call may pass a line through.
    assert_left("A!$\nA!10x\n$\nAxxxxxxxxxxx$\n)\n$$\nA\n", [0, 8, 25], "2,11 5,1 0,1");
}

#[test]
fn a_long_line_does_not_count() {
    let rest = |length: usize| format!("A$\n$$\nA\n{}\nA\n", "x".repeat(length));
    assert_left(&rest(201), [11, 5, 1], "2,1 0,0");
    assert_left(&rest(200), [0, 6, 3], "2,2 0,1");
}

#[test]
fn the_line_beyond_the_fuel_does_not_count() {
    let rest = "A$\nx\n$$\nA\nA\n";
    assert_fuel(rest, 1, [20, 5, 1], "2,1 0,0");
    assert_fuel(rest, 2, [20, 5, 2], "2,1 0,0");
    assert_fuel(rest, 3, [20, 6, 3], "2,1 0,1");
    assert_fuel(rest, 4, [20, 6, 4], "2,2 0,1");
    assert_fuel(rest, 5, [20, 6, 5], "2,2 0,1");
    assert_fuel(rest, 6, [0, 6, 6], "2,2 0,2");
}

/// Each of them at the call's first code line, after a line that passes.
#[test]
fn every_other_number_has_a_report() {
    for (number, code, argument) in [
        (12, "!10!10!10", &[b'x'; 80][..]),
        (15, "!14", b"5/0"),
        (16, "!18", b"ab"),
        (17, ")!27,\n!F8", b""),
        (18, "!F4", b"-1"),
        (21, "!15", b"\xff"),
        (21, "!10!27\n!F8", b"\xff"),
    ] {
        // The section's end is the line after the code, and the call the second after that.
        let line = 3 + code.lines().count() as u64 + 2;
        let rest = [text("A:!$\n").as_bytes(), code.as_bytes(), b"\n$$\n)\nA:", argument, b"\nA:\n"].concat();
        assert_run(&run_text(&rest, 100, 100), [number, line, 3], "2,1 0,1", code);
    }
    // 41 lines store 8,077 bytes, and the next one has no room for its own.
    let row = "x".repeat(194);
    let lines: String = (10..52).map(|name| format!("a{name}={row}\n")).collect();
    assert_left(&format!("!=!$\n!F3\n$$\n{lines}x\n"), [19, 46, 84], "2,42 0,0");
}

/// No byte is written without a run, and the others stay after one.
#[test]
fn rooms_for_the_report() {
    let run_in = |length, text: &str| {
        let mut rooms = Rooms { report: pattern(length), ..Rooms::with_outputs(100, 100) };
        let ran = run(text.as_bytes(), 100, NODE_ROW, DEAD_ROW, &mut rooms);
        (ran, rooms.report)
    };
    let loads = text("A$\n$$\nA\nx\n");
    for length in [0, 1, 23, 2_047] {
        assert_eq!(run_in(length, &loads), (Ran { number: 1, ..Ran::default() }, pattern(length)));
    }
    let expected = report("2,1 0,1").into_bytes();
    for length in [2_048, 2_049, 10_000] {
        let (ran, left) = run_in(length, &loads);
        assert_eq!((ran.number, ran.report), (0, expected.len() as u64));
        assert_eq!(left, [&expected, &pattern(length)[expected.len()..]].concat());
        let refused = Ran { number: 8, line: 2, ..Ran::default() };
        assert_eq!(run_in(length, &text("A$\n")), (refused, pattern(length)));
    }
}

/// Calls `test` with random texts of any kind and with texts about uses, of both sizes.
fn for_texts(seed: u64, count: usize, mut test: impl FnMut(&mut Generator, &[u8])) {
    for size in [Size::Small, Size::Large] {
        let mut generator = Generator::new(seed);
        for place in 0..count {
            let text = if place % 2 == 0 { generator.text(size) } else { generator.uses_text(size) };
            test(&mut generator, &text);
        }
    }
}

/// The lines of a loaded text's templates, by nothing but the ends of its macros.
fn template_lines(text: &[u8]) -> Vec<u64> {
    let end = text[2];
    let (mut lines, mut due) = (Vec::new(), true);
    for (line, number) in text.split(|&byte| byte == b'\n').zip(1..).skip(1) {
        if due {
            lines.push(number);
        } else if line.starts_with(&[end, end]) {
            break;
        }
        due = !due && line.first() == Some(&end);
    }
    lines
}

/// The report that a text has when these lines are offered: each is fitted by itself.
fn report_of(text: &[u8], offered: &[Vec<u8>]) -> String {
    let mut counts: BTreeMap<u64, u64> = BTreeMap::new();
    for line in offered {
        *counts.entry(fit(text, NODE_ROW, DEAD_ROW, line).line).or_default() += 1;
    }
    let lines = template_lines(text).into_iter().chain([0]);
    let rows: Vec<String> = lines.map(|line| format!("{line},{}", counts.get(&line).unwrap_or(&0))).collect();
    report(&rows.join(" "))
}

/// A report's rows: the line and the count.
fn rows(report: &[u8]) -> Vec<(u64, u64)> {
    let report = str::from_utf8(report).unwrap();
    let rows = report.strip_prefix("template,calls\n").unwrap().lines();
    rows.map(|row| row.split_once(',').unwrap())
        .map(|(a, b)| (a.parse().unwrap(), b.parse().unwrap()))
        .collect()
}

/// All counts of a report together.
fn total(report: &[u8]) -> u64 {
    rows(report).iter().map(|(_, count)| count).sum()
}

/// The lines that a run offers are those that its events tell of, and the report counts
/// each by the template that fitting it gives, whichever number ends the run.
#[test]
fn counts_add_up_to_the_lines_offered() {
    let mut numbers: BTreeMap<u64, u64> = BTreeMap::new();
    for_texts(31, 4_000, |generator, text| {
        let fuel = generator.fuel().clamp(1, 3_000);
        let sizes = Sizes { output: generator.room(), second: generator.room() };
        let left = run_text(text, fuel, sizes);
        let mut offered: Vec<Vec<u8>> = Vec::new();
        let mut tell = |line: &[u8]| offered.push(line.to_vec());
        let told = run_telling(text, fuel, NODE_ROW, DEAD_ROW, &mut sizes.rooms(), &mut tell);
        assert_eq!(told, left.ran, "{}", shown(text));
        *numbers.entry(told.number).or_default() += 1;
        if (1..=9).contains(&told.number) {
            assert!(offered.is_empty() && left.report.is_empty(), "{}", shown(text));
            return;
        }
        assert_eq!(String::from_utf8_lossy(&left.report), report_of(text, &offered), "{}", shown(text));
        assert_eq!(total(&left.report), offered.len() as u64, "{}", shown(text));
        assert_eq!(rows(&left.report).len(), counts(text).unwrap().macros + 1, "{}", shown(text));
        assert!(offered.len() as u64 <= told.events && left.report.len() <= 2_048, "{}", shown(text));
    });
    println!("{numbers:?}");
    for number in (11..=21).chain([0]) {
        assert!(numbers.get(&number).is_some_and(|&count| count > 5), "{numbers:?}");
    }
}

/// One event more adds at most one to one of the counts, and leaves the lines alone. The
/// first event is always a line offered.
#[test]
fn an_event_adds_at_most_one_line() {
    let (mut added, mut others) = (0, 0);
    for_texts(32, 400, |_, text| {
        let events = run_text(text, 40, 1_000).ran.events;
        let runs: Vec<Vec<(u64, u64)>> =
            (1..=events).map(|fuel| rows(&run_text(text, fuel, 1_000).report)).collect();
        assert!(runs.first().is_none_or(|rows| rows.iter().map(|row| row.1).sum::<u64>() == 1));
        for pair in runs.windows(2) {
            let changed: Vec<usize> = (0..pair[0].len()).filter(|&at| pair[0][at] != pair[1][at]).collect();
            match changed[..] {
                [] => others += 1,
                [at] => {
                    let (line, count) = pair[0][at];
                    assert_eq!(pair[1][at], (line, count + 1), "{}", shown(text));
                    added += 1;
                }
                _ => panic!("{pair:?}: {}", shown(text)),
            }
        }
    });
    println!("{added} {others}");
    assert!(added > 1_000 && others > 1_000, "{added} {others}");
}

/// More fuel changes no line, and takes nothing from a count.
#[test]
fn more_fuel_only_adds_to_the_counts() {
    let (mut grown, mut spent) = (0, 0);
    for_texts(33, 3_000, |generator, text| {
        let less = generator.fuel().clamp(1, 2_000);
        let more = less + generator.fuel().clamp(1, 2_000);
        let (first, then) = (run_text(text, less, 4_096), run_text(text, more, 4_096));
        if first.ran.number != 20 {
            assert_eq!(first.report, then.report, "{}", shown(text));
            return;
        }
        let (fewer, all) = (rows(&first.report), rows(&then.report));
        assert_eq!(fewer.len(), all.len(), "{}", shown(text));
        for (a, b) in fewer.iter().zip(&all) {
            assert!(a.0 == b.0 && a.1 <= b.1, "{a:?} {b:?}: {}", shown(text));
        }
        spent += 1;
        grown += u32::from(fewer != all);
    });
    println!("{grown} of {spent}");
    assert!(grown > 500 && spent > 1_000, "{grown} of {spent}");
}

/// Whether the last event of a run is a line offered.
fn ends_with_an_offer(text: &[u8], left: &Left, sizes: Sizes) -> bool {
    let events = left.ran.events;
    events > 0 && (events == 1 || total(&run_text(text, events - 1, sizes).report) < total(&left.report))
}

/// What the report speaks of, and whether it comes about in a text.
fn occurrences(text: &[u8]) -> [(&'static str, bool); 13] {
    let left = run_text(text, 500, 8_192);
    let Left { ran, report, .. } = &left;
    let mut counts: Vec<u64> = rows(report).iter().map(|row| row.1).collect();
    let passed = counts.pop().unwrap_or(0);
    let used = counts.iter().filter(|&&count| count > 0).count();
    let narrow = Sizes { output: 5, second: 8_192 };
    let full = run_text(text, 500, narrow);
    let (few, one_more) = (run_text(text, 5, 8_192), run_text(text, 6, 8_192));
    let (spent, grown) = (few.ran.number == 20, total(&one_more.report) > total(&few.report));
    let templates: Vec<&[u8]> = text.split(|&byte| byte == b'\n').collect();
    let mut sorted: Vec<&[u8]> =
        template_lines(text).iter().map(|&line| templates[line as usize - 1]).collect();
    let unsorted = sorted.clone();
    sorted.sort();
    [
        ("two templates used", used >= 2),
        ("a template used once", counts.contains(&1)),
        ("a template used ten times", counts.iter().any(|&count| count >= 10)),
        ("a template not used", used < counts.len()),
        ("used, not used and passed", (1..counts.len()).contains(&used) && passed > 0),
        ("a line passed through", passed > 0),
        ("not in the order of their bytes", sorted != unsorted),
        ("a long line", ran.number == 11),
        ("13 at an offered line", full.ran.number == 13 && ends_with_an_offer(text, &full, narrow)),
        ("14", ran.number == 14),
        ("the fuel's end at an offered line", spent && grown),
        ("the fuel's end at a code line", spent && !grown),
        ("21", ran.number == 21),
    ]
}

/// Each of it must come about in so many of the texts that `make` makes.
fn assert_all_occur(make: fn(&mut Generator, Size) -> Vec<u8>, least: u32) {
    let mut found: BTreeMap<&str, u32> = BTreeMap::new();
    for size in [Size::Small, Size::Large] {
        let mut generator = Generator::new(34);
        for _ in 0..2_000 {
            let text = make(&mut generator, size);
            if check(&text, NODE_ROW).number == 0 {
                for (what, occurs) in occurrences(&text) {
                    *found.entry(what).or_default() += u32::from(occurs);
                }
            }
        }
    }
    println!("{found:#?}");
    assert!(found.values().all(|&count| count > least), "{found:#?}");
}

#[test]
fn texts_about_uses_are_about_all_of_it() {
    assert_all_occur(Generator::uses_text, 20);
}

#[test]
fn any_text_may_be_about_all_of_it() {
    assert_all_occur(Generator::text, 10);
}

#[test]
fn the_generators_rooms_are_of_every_kind() {
    let mut generator = Generator::new(35);
    let rooms: Vec<usize> = (0..1_000).map(|_| generator.report_room()).collect();
    let count = |kind: fn(usize) -> bool| rooms.iter().filter(|&&room| kind(room)).count();
    let met = [
        count(|room| room == 0),
        count(|room| room == 2_047),
        count(|room| room == 2_048),
        count(|room| room > 2_048),
    ];
    assert!(met.iter().all(|&count| count > 5) && met.iter().sum::<usize>() == 1_000, "{met:?}");
}
