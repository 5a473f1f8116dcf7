//! The command `./why` against the reference: on the vectors, on chosen, long and random lines, and
//! on lines that are named by their number.

mod called;
mod files;

use std::ffi::OsString;
use std::os::unix::ffi::OsStringExt;
use std::path::{Path, PathBuf};

use called::*;
use files::{files, read, root, Folder};
use stage2_reference::generate::{Generator, Size};
use stage2_reference::{fit, DEAD_ROW, NODE_ROW};

/// The arguments of `./why` for a text and a line.
fn why_arguments(text: &Path, line: &[u8]) -> Vec<OsString> {
    let ended = line.starts_with(b"-").then(|| OsString::from("--"));
    let line = OsString::from_vec(line.to_vec());
    [text.as_os_str().to_os_string()].into_iter().chain(ended).chain([line]).collect()
}

/// Each line of the vectors that an argument can be.
#[test]
fn why_explains_the_lines_of_the_vectors() {
    let mut count = 0;
    for text in files(&root().join("vectors/fit"), "text") {
        let (bytes, lines) = (read(&text), read(&text.with_extension("lines")));
        let lines = lines.strip_suffix(b"\n").unwrap_or(&lines);
        for line in lines.split(|byte| *byte == b'\n').filter(|line| !line.contains(&0)) {
            assert_explained(&bytes, &why_arguments(&text, line), line);
            count += 1;
        }
    }
    assert!(count >= 200);
}

/// A text with literals that a shell or a pattern could take for something else, with nine
/// placeholders, and with the empty template.
const CHOSEN: &[u8] = b"$!$!0 (+-*/)\nA!$ a remark\n$\n!=!$\n$\n!,!,!,!,!,!,!,!,!$\n$\n$\n$\n-!$\n$\n\
    %s!*\\$\n$\n\"!\"$\n$\n ! $\n$\n\xC3!\xA9$\n$$\nA line$ a remark\n=\n";

/// Lines to fit, with a bar between two.
const CHOSEN_LINES: &str = "|A|A | A| A |  | |=|a=b|(=)=|,,,,,,,,|1,2,3,4,5,6,7,8,9|a,,,,,,,,(,)|-|--|-A|-n|--help|\
    %s%s*\\|*|\"\"|\"x\"|'|A'\"'|$|A$B|$HOME|$(ls)|`ls`|A\tB\r|A\u{1}\u{7F}|\u{FEFF}=x|A\u{FEFF}|A\u{80}\u{9F}\u{A0}\u{A1}\u{AC}\u{AD}\u{AE}|\
    A\u{1FFF}\u{2000}\u{200F}\u{2010}\u{2027}\u{2028}\u{202F}\u{2030}|A\u{2FF}\u{300}\u{33F}\u{340}\u{36F}\u{370}\u{7FF}\u{800}\u{FFFF}\u{10000}\u{10FFFF}|A\u{205E}\u{205F}\u{206F}\u{2070}\u{2FFF}\u{3000}\u{3001}|\u{E9}|A\u{E9}|\
    \\n|A\\|&|;|a=b=c|!|!10";

#[test]
fn why_explains_chosen_lines() {
    let folder = Folder::new("chosen");
    let text = PathBuf::from(folder.write("text", CHOSEN));
    let bytes: [&[u8]; 10] = [
        b"\xFF=\x80",
        b"\xC3x\xA9",
        b"\xC3",
        b"A\xC2",
        b"A\xE2\x80",
        b"A\xE2\xC2\xA0\xE2\x80=",
        b"A\xC1\xBF\xC2\xBF\xC0\x80\xF5\x80\x80\x80",
        b"A\xE0\x9F\xBF\xE0\xA0\x80\xED\x9F\xBF\xED\xA0\x80",
        b"A\xF0\x8F\xBF\xBF\xF0\x90\x80\x80\xF4\x8F\xBF\xBF\xF4\x90\x80\x80",
        b"A\xE9=Caf\xE9",
    ];
    for line in CHOSEN_LINES.split('|').map(str::as_bytes).chain(bytes) {
        assert_explained(CHOSEN, &why_arguments(&text, line), line);
    }
}

/// The rows themselves, without the reference.
#[test]
fn an_explanation_to_the_letter() {
    let folder = Folder::new("rows");
    let text = PathBuf::from(folder.write("text", CHOSEN));
    let printed =
        |line: &[u8]| String::from_utf8(called(&command("why"), &why_arguments(&text, line)).stdout).unwrap();
    let nine =
        "line: \"a,,,,,,,,(,)\"\ncaught by line 6: !,!,!,!,!,!,!,!,!\n1: \"a\"\n2: \"\"\n3: \"\"\n4: \"\"\n\
        5: \"\"\n6: \"\"\n7: \"\"\n8: \"\"\n9: \"(,)\"\nplaces ";
    assert!(printed(b"a,,,,,,,,(,)").starts_with(nine), "{}", printed(b"a,,,,,,,,(,)"));
    assert_eq!(printed(b""), "line: \"\"\ncaught by line 8: \nplaces 2, bytes 0\n");
    let none = "line: \"\\tx\"\nno template catches it\nplaces ";
    assert!(printed(b"\tx").starts_with(none), "{}", printed(b"\tx"));
}

/// A template with bytes that cannot be seen.
#[test]
fn the_template_is_shown() {
    let text = b"$!$!0 (+-*/)\n\tA!\r\n$\n\x7F!\x01$ a remark\n$$\n";
    let folder = Folder::new("template");
    let path = PathBuf::from(folder.write("text", text));
    for line in [&b"\tAx\r"[..], b"\x7Fx\x01"] {
        assert_explained(text, &why_arguments(&path, line), line);
    }
    let printed = called(&command("why"), &why_arguments(&path, b"\tAx\r")).stdout;
    assert!(printed.starts_with(b"line: \"\\tAx\\r\"\ncaught by line 2: \\tA!\\r\n1: \"x\"\n"));
}

/// The text may be one that can be read once, or has no end.
#[test]
fn why_takes_what_can_be_read_once() {
    let piped = pipe("why-command.pipe", TEXT);
    assert_usual(&called(&command("why"), &usual("why", &piped)), "why", &piped, "a pipe");
    let endless = called(&command("why"), &["/dev/zero", "x"]);
    assert_answer(&endless, 2, b"", &message("why", 2, 0, b""), "an endless file");
}

/// Lines of 200 bytes, of more, and of more than the program reads. No line of the text is named.
#[test]
fn why_explains_long_lines() {
    let folder = Folder::new("long");
    let text = PathBuf::from(folder.write("text", CHOSEN));
    for length in [199, 200, 201, 65_535, 65_536, 65_537, 100_000] {
        let line = [vec![b'A'], vec![b'x'; length - 1]].concat();
        assert_explained(CHOSEN, &why_arguments(&text, &line), &line);
    }
    let told = called(&command("why"), &why_arguments(&text, &[b'x'; 201])).stderr;
    assert!(told.starts_with(b"why: 11: ") && !told.contains(&b';'), "{}", told.escape_ascii());
}

/// Lines of a text by their numbers, cut at the source end: all of a short text, the first and the
/// last ones of a long text.
#[test]
fn why_takes_a_line_by_its_number() {
    let folder = Folder::new("numbers");
    let end = [&[b'x'; 200][..], b"$$ a remark\n", &[b'x'; 201], b"\nA last"].concat();
    let long = [CHOSEN, &b"A line\n".repeat(100), &end].concat();
    for (bytes, count, first) in [(CHOSEN, 21, 21), (TEXT, 6, 6), (&long, 124, 2)] {
        let text = folder.write("text", bytes);
        for number in (1..=count).filter(|number| *number <= first || count - number < 4) {
            assert_explained(bytes, &[&text, "-n", &number.to_string()], content(bytes, number));
        }
        assert_explained(bytes, &["-n", &format!("00{count}"), &text], content(bytes, count));
        let beyond = called(&command("why"), &[&text, "-n", &(count + 1).to_string()]);
        assert_refused(&beyond, 100, "why", count + 1);
    }
}

/// A text that is too large is refused for that, whichever line is asked for.
#[test]
fn why_refuses_a_text_that_is_too_large() {
    let folder = Folder::new("large");
    let bytes = [TEXT, &b"A\n".repeat(40_000)].concat();
    let text = folder.write("text", &bytes);
    for number in ["6", "30000", "40000"] {
        assert_explained(&bytes, &[&text, "-n", number], b"A");
    }
}

/// Random texts and lines that resemble their templates; some texts do not load.
#[test]
fn why_explains_random_lines() {
    let (folder, mut generator) = (Folder::new("random"), Generator::new(20_261_118));
    let mut met = [0; 4];
    for turn in 0..60 {
        let size = if turn % 2 == 0 { Size::Large } else { Size::Small };
        let bytes = if turn % 3 == 0 { generator.places_text(size) } else { generator.text(size) };
        let line = generator.line(&bytes, size);
        if line.contains(&0) || line.contains(&b'\n') {
            continue;
        }
        let text = PathBuf::from(folder.write("text", &bytes));
        assert_explained(&bytes, &why_arguments(&text, &line), &line);
        let fitted = fit(&bytes, NODE_ROW, DEAD_ROW, &line);
        met[match (fitted.number, fitted.line) {
            (0, 0) => 0,
            (0, _) => 1,
            (11, _) => 2,
            _ => 3,
        }] += 1;
    }
    assert!(met.iter().all(|count| *count > 0), "{met:?}");
}
