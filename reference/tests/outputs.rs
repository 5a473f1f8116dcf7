//! Request 4: channel 4 as a second output, and input lines copied by function 2.
//! What is expected was worked out on paper, point by point.

mod common;

use common::{run_text, text, Left, Sizes};
use stage2_reference::{check, Checked, NODE_ROW};

/// A line of so many bytes.
fn row(length: usize) -> String {
    "x".repeat(length)
}

/// Compares a run with number, line and events, and with both outputs.
fn assert_run(left: &Left, end: [u64; 3], output: &str, second: &str, case: &str) {
    let ran = &left.ran;
    assert_eq!([ran.number, ran.line, ran.events], end, "{case}");
    assert_eq!(String::from_utf8_lossy(&left.output), output, "{case}");
    assert_eq!(String::from_utf8_lossy(&left.second), second, "second output: {case}");
}

/// The same for a text with plenty of fuel and room.
fn assert_left(rest: &str, end: [u64; 3], output: &str, second: &str) {
    assert_run(&run_text(text(rest).as_bytes(), 1_000, 1_000), end, output, second, rest);
}

/// The same with rooms of their own.
fn assert_rooms(rest: &str, sizes: [usize; 2], end: [u64; 3], output: &str, second: &str) {
    let sizes = Sizes { output: sizes[0], second: sizes[1] };
    let left = run_text(text(rest).as_bytes(), 1_000, sizes);
    assert_run(&left, end, output, second, &format!("{sizes:?}: {rest}"));
}

/// What checking a text with one code line gives; the line's number is 3.
fn checked(code: &str) -> Checked {
    check(text(&format!("A!$\n{code}\n$$\n")).as_bytes(), NODE_ROW)
}

const MALFORMED: Checked = Checked { number: 7, line: 3 };

#[test]
fn function_2_begins_its_line() {
    // The last two are the source's form, with the input's channel before it.
    for code in ["x!F2", "x!F24", "!10!F2", " !F20", "1!F2", "1!F24"] {
        assert_eq!(checked(code), MALFORMED, "{code}");
    }
    assert_eq!(checked("!F2"), Checked { number: 0, line: 4 });
}

#[test]
fn the_channel_is_the_byte_directly_after() {
    for (code, output, second) in [
        ("!F2", "one\n", ""),
        ("!F23", "one\n", ""),
        ("!F24", "", "one\n"),
        ("!F20", "", ""),
        ("!F2 4", "one\n", ""),
        ("!F2x0", "one\n", ""),
        // What follows is no code.
        ("!F24!", "", "one\n"),
        ("!F240", "", "one\n"),
        ("!F2!4", "one\n", ""),
        ("!F20!F9", "", ""),
    ] {
        assert_left(&format!("C!$\n{code}\n$$\nCE\none\nE\n"), [0, 7, 2], output, second);
    }
    for (code, output, second) in [
        ("x!F1", "x\n", ""),
        ("x!F13", "x\n", ""),
        ("x!F14", "", "x\n"),
        ("x!F10", "", ""),
        ("x!F1 4", "x\n", ""),
        ("x!F14!", "", "x\n"),
    ] {
        assert_left(&format!("C$\n{code}\n$$\nC\n"), [0, 5, 2], output, second);
    }
}

#[test]
fn other_digits_are_malformed() {
    for digit in 0..=9 {
        let refused = ![0, 3, 4].contains(&digit);
        for code in [format!("!F2{digit}"), format!("x!F1{digit}"), format!("!F1{digit}\nlayout")] {
            let loads = Checked { number: 0, line: 3 + code.lines().count() as u64 };
            assert_eq!(checked(&code), if refused { MALFORMED } else { loads }, "{code}");
        }
    }
}

/// The line is compared before it is measured.
#[test]
fn a_long_line_may_stop_a_copy() {
    for (channel, output, second) in
        [("", "one\ntwo\n", ""), ("3", "one\ntwo\n", ""), ("4", "two\n", "one\n"), ("0", "two\n", "")]
    {
        let long = row(201);
        let rest = format!("C!$\n!F2{channel}\n$$\nCE\none\nE{long}\ntwo\n");
        assert_left(&rest, [0, 8, 3], output, second);
    }
}

#[test]
fn channel_0_measures_nothing() {
    let rest = |channel| format!("C!$\n!F2{channel}\n$$\nCE\n{}\nE\ntwo\n", row(201));
    assert_left(&rest("0"), [0, 8, 3], "two\n", "");
    for channel in ["", "3", "4"] {
        assert_left(&rest(channel), [11, 6, 2], "", "");
    }
}

/// A copied content of 200 bytes is whole, one of 201 gives 11, and never 12, for
/// it is no built line. 11 comes before 13.
#[test]
fn a_copied_line_is_measured_before_it_is_written() {
    let rest = |length| format!("C!$\n!F24\n$$\nCE\n{}$ ignored\nE\n", row(length));
    let whole = row(200) + "\n";
    assert_left(&rest(200), [0, 7, 2], "", &whole);
    assert_rooms(&rest(200), [0, 201], [0, 7, 2], "", &whole);
    assert_rooms(&rest(200), [1_000, 200], [13, 6, 2], "", "");
    for second in [0, 1, 201, 1_000] {
        assert_rooms(&rest(201), [0, second], [11, 6, 2], "", "");
    }
}

#[test]
fn contents_are_compared_and_copied() {
    let input = "CEX\nE$X\n$EX\na$EX$\nEX$more\nend$\n";
    assert_left(&format!("C!$\n!F24\n$$\n{input}"), [0, 10, 3], "end\n", "E\n\na\n");
}

/// No content holds mark 1, so nothing stops this copy.
#[test]
fn a_parameter_that_holds_mark_1_is_never_met() {
    let text = b".!$!0 (+-*/)\nC!.\nA.!16$\n!F24$\n$$\nCx.\nA\nA.\nA.B\n";
    assert_run(&run_text(text, 100, 100), [0, 9, 3], "", "A\nA\nA\n", "A.");
    let met = b".!$!0 (+-*/)\nC!.\nA!16$\n!F24$\n$$\nCx.\nA\nA.\nA.B\n";
    assert_run(&run_text(met, 100, 100), [0, 9, 5], "A\nA\n", "", "A");
}

#[test]
fn parameter_1_has_its_present_value() {
    assert_left("C!$\nB!16\n!F24\n$$\nCA\nA\nB\nend\n", [0, 9, 4], "end\n", "A\n");
    // Each pass has its own, and the parameter regains the list.
    let each = "C!$\n!10!17,\n!F24\n!F8\n!10!F14\n$$\nCA,B\nx\nA\ny\nB\nend\n";
    assert_left(each, [0, 13, 8], "end\n", "x\ny\nA,B\n");
}

/// The stopping line is the last one read; without one it is the last of the text.
#[test]
fn every_line_of_a_copy_is_read() {
    for (channel, second) in [("4", "a\nb\n"), ("0", "")] {
        let section = format!("C!$\n!F2{channel}\n!F0\n$$\n");
        assert_left(&format!("{section}CE\na\nb\nE\nc\n"), [0, 9, 3], "", second);
        assert_left(&format!("{section}CE\na\nb\n"), [0, 8, 3], "", second);
    }
}

#[test]
fn the_next_code_line_follows() {
    let section = "C!$\n!F24\nafter!F1\n$$\n";
    assert_left(&format!("{section}CE\na\nE\n"), [0, 8, 3], "after\n", "a\n");
    assert_left(&format!("{section}CE\na\n"), [0, 7, 3], "after\n", "a\n");
    assert_left(&format!("{section}CE\n"), [0, 6, 3], "after\n", "");
    assert_left("C!$\n!F20\nafter!F1\n$$\nCE\na\n", [0, 7, 3], "after\n", "");
    // A copy that begins at the input's end.
    assert_left("C!$\n!F24\n!F24\n.!F14\n$$\nCE\na\n", [0, 8, 4], "", "a\n.\n");
}

#[test]
fn an_empty_parameter_1_reads_no_line() {
    for channel in ["", "0", "3", "4"] {
        assert_left(&format!("C!$\n!F2{channel}\n$$\nC\na\n"), [0, 6, 3], "a\n", "");
        assert_left(&format!("E$\n!F2{channel}\n$$\nE\na\n"), [0, 6, 3], "a\n", "");
        assert_left(&format!("C!$\n!16\n!F2{channel}\n$$\nCx\na\n"), [0, 7, 4], "a\n", "");
    }
}

#[test]
fn an_empty_content_is_copied_as_byte_10() {
    assert_left("C!$\n!F24\n$$\nCE\n\n$ note\nE\n", [0, 8, 2], "", "\n\n");
    assert_left("C!$\n!F2\n$$\nCE\n\n$ note\nE\n", [0, 8, 2], "\n\n", "");
}

#[test]
fn a_copy_is_one_event() {
    let many = text(&format!("C!$\n!F24\n$$\nCE\n{}", "x\n".repeat(100)));
    let run = |fuel| run_text(many.as_bytes(), fuel, 1_000);
    assert_run(&run(1), [20, 5, 1], "", "", "fuel 1");
    assert_run(&run(2), [0, 105, 2], "", &"x\n".repeat(100), "fuel 2");
    // The line after it is read and measured, and then not offered.
    let stopped = text("C!$\n!F24\n$$\nCE\nx\nE\ny\n");
    assert_run(&run_text(stopped.as_bytes(), 2, 100), [20, 8, 2], "", "x\n", "fuel 2");
}

/// The second line would be a call.
#[test]
fn copied_lines_are_not_offered() {
    assert_left("C!$\n!F24\n$$\nCE\nCE\nE\n", [0, 7, 2], "", "CE\n");
    assert_left("C!$\n!F2\n$$\nCE\nCE\nE\n", [0, 7, 2], "CE\n", "");
    assert_left("C!$\n!F20\n$$\nCE\nCE\nE\n", [0, 7, 2], "", "");
}

/// The lines before stay, and the line is that of the fault.
#[test]
fn a_copy_may_fail_midway() {
    let rest = |channel| format!("C!$\n!F2{channel}\n$$\nCE\na\nlong\nb\nE\n");
    for room in [2, 3, 6] {
        assert_rooms(&rest("4"), [1_000, room], [13, 7, 2], "", "a\n");
        assert_rooms(&rest("3"), [room, 1_000], [13, 7, 2], "a\n", "");
    }
    for room in [7, 8] {
        assert_rooms(&rest("4"), [0, room], [13, 8, 2], "", "a\nlong\n");
        assert_rooms(&rest(""), [room, 0], [13, 8, 2], "a\nlong\n", "");
    }
    assert_rooms(&rest("4"), [0, 9], [0, 9, 2], "", "a\nlong\nb\n");
    assert_rooms(&rest(""), [9, 0], [0, 9, 2], "a\nlong\nb\n", "");
    assert_rooms(&rest("0"), [0, 0], [0, 9, 2], "", "");
    let long = row(201);
    assert_left(&format!("C!$\n!F24\n$$\nCE\na\n{long}\nb\n"), [11, 7, 2], "", "a\n");
    assert_left(&format!("C!$\n!F2\n$$\nCE\na\n{long}\nb\n"), [11, 7, 2], "a\n", "");
}

#[test]
fn a_layout_is_written_on_channel_4() {
    assert_left("C!$\n!F14\n11.22\n!10!F1\n$$\nCab\n", [0, 7, 3], "ab\n", "ab.  \n");
    assert_eq!(checked("!F14"), Checked { number: 7, line: 4 });
    // Elsewhere function 1 owns none, and function 2 never does.
    assert_left("C!$\nx!F14\n11\n$$\nCab\n", [0, 6, 4], "11\n", "x\n");
    assert_left("C!$\n!F24\n11\n$$\nCab\n", [0, 6, 4], "11\n", "");
}

#[test]
fn lines_without_a_reading_go_to_channel_3() {
    assert_left("C!$\nx!F14\ny\n$$\nC\nz\n", [0, 7, 5], "y\nz\n", "x\n");
    assert_rooms("C!$\nx!F14\ny\n$$\nC\nz\n", [2, 1_000], [13, 7, 5], "y\n", "x\n");
}

#[test]
fn copies_in_iterations_and_calls_read_the_same_input() {
    let passes = "C!$\n2!F7\n!F24\n.!F14\n!F8\n$$\nCE\na\nE\nb\nE\nc\n";
    assert_left(passes, [0, 13, 9], "c\n", "a\n.\nb\n.\n");
    // The inner call's parameter is `<E`.
    let nested = "N!$\nC<!10\n!10!F14\n$\nC!$\n!F24\n$$\nNE\nE2\n<E\nb\n";
    assert_left(nested, [0, 12, 6], "b\n", "E2\nE\n");
    // A skip goes on behind the copy, and drops the next line.
    let skip = "C!$\n!F24\n1!16\n!F4\n$$\nCE\na\nE\nb\nc\n";
    assert_left(skip, [0, 11, 5], "c\n", "a\n");
}

#[test]
fn a_content_that_is_parameter_1_begins_with_it() {
    assert_left("C!$\n!F24\n$$\nCEF\nE\nF\nEF\nEFG\n", [0, 9, 3], "EFG\n", "E\nF\n");
}

/// Parameter 1 is the whole line that called, which is already read.
#[test]
fn the_calling_line_does_not_stop_its_copy() {
    assert_left("!$\n!F24\n$$\nab\ncd\nabc\nef\n", [0, 8, 4], "", "cd\n");
}

/// A room of 0 is legal, and is full once something is to be written there.
#[test]
fn rooms_of_no_bytes() {
    assert_rooms("C!$\n!F24\n$$\nCE\n", [0, 0], [0, 5, 2], "", "");
    assert_rooms("C!$\n!F24\n$$\nCE\nE\n", [0, 0], [0, 6, 2], "", "");
    assert_rooms("C!$\n!F24\n$$\nCE\n\n", [1_000, 0], [13, 6, 2], "", "");
    assert_rooms("C!$\nx!F1\n!F14\n\n$$\nC\n", [1_000, 0], [13, 7, 3], "x\n", "");
    assert_rooms("C!$\nx!F14\ny!F1\n$$\nC\n", [0, 1_000], [13, 6, 3], "", "x\n");
    assert_rooms("C!$\nx!F10\n!F10\n1\n$$\nC\n", [0, 0], [0, 7, 3], "", "");
}

/// Each output has its own room.
#[test]
fn rooms_around_a_line_of_channel_4() {
    let rest = "A$\nab!F14\n!F14\n1cd\n$$\nA\nxyz\n";
    assert_rooms(rest, [4, 0], [13, 7, 2], "", "");
    assert_rooms(rest, [4, 2], [13, 7, 2], "", "");
    assert_rooms(rest, [4, 3], [13, 7, 3], "", "ab\n");
    assert_rooms(rest, [4, 6], [13, 7, 3], "", "ab\n");
    assert_rooms(rest, [3, 7], [13, 8, 4], "", "ab\n cd\n");
    assert_rooms(rest, [4, 7], [0, 8, 4], "xyz\n", "ab\n cd\n");
}

/// Two outputs from one run.
#[test]
fn a_style_sheet_and_name_records() {
    let section = "NAME !$\n!10!F1\n.!10 { }!F14\n$\nCSS !$\n!F24\n$\nSKIP !$\n!F20\n$$\n";
    let input = "NAME Kern$\nCSS END$\nh1 {$\n}$\nEND$\nSKIP /$\nNAME Co$\n/$\nNAME Gill$\nlast$\n";
    // Four calls with six code lines, and a line that is no call.
    assert_left(
        &format!("{section}{input}"),
        [0, 21, 11],
        "Kern\nGill\nlast\n",
        ".Kern { }\nh1 {\n}\n.Gill { }\n",
    );
}
