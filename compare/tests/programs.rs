//! The proved programs on the vectors, and against the reference on long texts
//! and lines. What they say of files and arguments is in `commands.rs`.

mod files;

use std::ffi::OsStr;
use std::path::{Path, PathBuf};

use files::{answer, assert_expanded, expanded, expanded_with, files, read, root, Scratch, OPTIONS};
use stage2_reference::programs::{self, Expanded, OUTPUT_ROOM};

fn vectors() -> PathBuf {
    root().join("vectors")
}

/// What a program prints when it is called in the folder of the vectors.
fn printed<S: AsRef<OsStr>>(program: &str, arguments: &[S]) -> String {
    let path = format!("target/bin/{program}");
    let output = answer(&path, |command| command.args(arguments).current_dir(vectors()));
    assert!(output.status.success(), "{program} did not end well");
    assert!(output.stderr.is_empty(), "{program} wrote to standard error");
    String::from_utf8(output.stdout).unwrap()
}

const EXPAND: &str = "target/bin/expand";

#[test]
fn check_vectors() {
    let expected = String::from_utf8(read(&vectors().join("check/expected"))).unwrap();
    let names: Vec<&str> = expected.lines().map(|row| row.split(' ').next().unwrap()).collect();
    assert!(names.len() >= 200);
    assert_eq!(printed("check_text", &names), expected);
}

#[test]
fn fit_vectors() {
    let texts = files(&vectors().join("fit"), "text");
    assert!(texts.len() >= 15);
    for text in texts {
        let expected = String::from_utf8(read(&text.with_extension("out"))).unwrap();
        let got = printed("fit_line", &[&text, &text.with_extension("lines")]);
        assert_eq!(got, expected, "{}", text.display());
    }
}

#[test]
fn long_lines_and_texts() {
    let lines =
        [&[b'A'; 200][..], &[b'A'; 201], &[b'A'; 60_000], b"", b"AB\0\x80", &[b'B'; 5_000]].join(&b'\n');
    let mut long = b"$!$!0 (+-*/)\nA!$\n$$\n".to_vec();
    let lines_file = Scratch::new("long.lines", &lines);
    for length in [long.len(), 65_536, 65_537, 70_000] {
        long.resize(length, b'x');
        let text = Scratch::new("long.text", &long);
        let names = [text.name(), lines_file.name()];
        assert_eq!(printed("fit_line", &names), programs::fit_rows(&long, &lines), "length {length}");
        assert_eq!(
            printed("check_text", &names[..1]),
            programs::check_row(names[0], &long),
            "length {length}"
        );
    }
}

/// A file of lines has at most 65,536 bytes; the rows of that many lines fit, also
/// where the template's line has four digits and the places two.
#[test]
fn many_lines() {
    let late = format!("$!$!0 (+-*/)\nA$\n{}$\n!!!!!!!!!$\n$$\n", "\n".repeat(1_024));
    for text in [b"$!$!0 (+-*/)\n\n$$\n", late.as_bytes()] {
        let text_file = Scratch::new("many.text", text);
        for lines in [vec![b'\n'; 65_536], b"AAAAAAAAA\n".repeat(6_553), vec![b'A'; 65_536], vec![]] {
            let lines_file = Scratch::new("many.lines", &lines);
            let rows = printed("fit_line", &[text_file.name(), lines_file.name()]);
            assert!(rows == programs::fit_rows(text, &lines));
        }
    }
}

#[test]
fn run_vectors() {
    for (folder, least, least_reports) in [("run", 300, 30), ("published", 30, 0)] {
        let folder = vectors().join(folder);
        let texts = files(&folder, "text");
        assert!(texts.len() >= least && files(&folder, "second").len() >= 10);
        assert!(files(&folder, "report").len() >= least_reports);
        texts.iter().for_each(|text| assert_expanded(text));
    }
}

/// Compares all that `expand` writes for a text, with files for channel 4 and the report,
/// with the reference; gives what that writes.
fn compare(bytes: &[u8], case: &str) -> Expanded {
    let text = Scratch::new("compared.text", bytes);
    let (output, written) = expanded_with(EXPAND, text.path(), &OPTIONS.map(|(option, _)| option));
    let expected = programs::expand(bytes, OUTPUT_ROOM);
    assert!(output.stdout == expected.printed, "{case}");
    assert!(written[0] == expected.second && written[1] == expected.report, "{case}");
    expected
}

#[test]
fn long_texts_expanded() {
    let mut long = b"$!$!0 (+-*/)\nA!$\n$$\n".to_vec();
    for length in [0, long.len(), 65_535, 65_536, 65_537, 200_000] {
        long.resize(length, b'\n');
        let text = Scratch::new("expanded.text", &long);
        assert!(
            expanded(EXPAND, text.path()).stdout == programs::expand(&long, 0).printed,
            "length {length}"
        );
        compare(&long, &format!("length {length}"));
    }
}

/// Lines of 16 bytes, so many for each channel; 4,096 of them fill a room.
#[test]
fn both_outputs_up_to_the_last_byte() {
    for (first, second) in [(4_096, 4_096), (4_097, 4_096), (4_096, 4_097), (0, 4_096), (0, 4_097)] {
        let body = format!("{first}!F7\nchannel 3: line!F1\n!F8\n{second}!F7\nchannel 4: line!F14\n!F8\n");
        let bytes = format!("$!$!0 (+-*/)\nGO$\n{body}$$\nGO\n").into_bytes();
        let expected = compare(&bytes, &format!("{first} {second}"));
        assert_eq!(expected.second.len(), if first > 4_096 { 0 } else { 65_536 }, "{first} {second}");
    }
}

#[test]
fn nothing_on_standard_input() {
    assert_eq!(expanded(EXPAND, Path::new("/dev/null")).stdout, b"END 3 1 0\n");
}
