//! The shared vectors, through the library and through the programs.

use std::ffi::OsStr;
use std::fs;
use std::io::Write;
use std::path::{Path, PathBuf};
use std::process::{Command, Output, Stdio};

use stage2_reference::programs::{self, OUTPUT_ROOM};

fn vectors() -> PathBuf {
    Path::new(env!("CARGO_MANIFEST_DIR")).join("../vectors")
}

/// The files of a folder with an ending, in order of their names.
fn files(folder: &Path, ending: &str) -> Vec<PathBuf> {
    let entries = fs::read_dir(folder).unwrap_or_else(|_| panic!("{} cannot be read", folder.display()));
    let mut files: Vec<PathBuf> = entries.map(|entry| entry.unwrap().path()).collect();
    files.retain(|file| file.extension() == Some(OsStr::new(ending)));
    files.sort();
    files
}

fn read(path: &Path) -> Vec<u8> {
    fs::read(path).unwrap_or_else(|_| panic!("{} cannot be read", path.display()))
}

fn shown(bytes: &[u8]) -> String {
    String::from_utf8_lossy(bytes).into_owned()
}

/// Compares every text of a folder with the output beside it. Where there is a second
/// output too, channel 4 has its room; where there is a report, that is compared. There
/// must be so many of each.
fn compare_runs(folder: &Path, least: [usize; 3]) {
    let texts = files(folder, "text");
    let (seconds, reports) = (files(folder, "second"), files(folder, "report"));
    for path in &texts {
        let (second, report) = (path.with_extension("second"), path.with_extension("report"));
        let has_second = seconds.contains(&second);
        let got = programs::expand(&read(path), if has_second { OUTPUT_ROOM } else { 0 });
        assert_bytes(&got.printed, &path.with_extension("out"));
        if has_second {
            assert_bytes(&got.second, &second);
        }
        if reports.contains(&report) {
            assert_bytes(&got.report, &report);
        }
    }
    assert_eq!(texts.len(), files(folder, "out").len(), "an output without its text");
    for path in seconds.iter().chain(&reports) {
        assert!(texts.contains(&path.with_extension("text")), "{} without its text", path.display());
    }
    let met = [texts.len(), seconds.len(), reports.len()];
    assert!(met.iter().zip(&least).all(|(met, least)| met >= least), "only {met:?}");
}

/// Compares bytes with those of a file.
fn assert_bytes(got: &[u8], path: &Path) {
    let expected = read(path);
    assert_eq!(shown(got), shown(&expected), "{}", path.display());
    assert_eq!(got, expected, "{}", path.display());
}

#[test]
fn run_vectors() {
    compare_runs(&vectors().join("run"), [300, 10, 30]);
}

#[test]
fn published_vectors() {
    compare_runs(&vectors().join("published"), [32, 10, 0]);
}

/// Every number that `expand` can give has a vector that says so in its name.
#[test]
fn run_vectors_have_every_number() {
    let texts = files(&vectors().join("run"), "text");
    for number in (0..=21).filter(|number| ![1, 10].contains(number)) {
        let start = format!("number-{number:02}-");
        let named =
            texts.iter().filter(|path| path.file_name().unwrap().to_str().unwrap().starts_with(&start));
        let mut count = 0;
        for path in named {
            let out = shown(&read(&path.with_extension("out")));
            let end = out.lines().last().unwrap();
            assert!(end.starts_with(&format!("END {number} ")), "{}: {end}", path.display());
            count += 1;
        }
        assert!(count > 0, "no vector for {number}");
    }
}

#[test]
fn check_vectors() {
    let expected = shown(&read(&vectors().join("check/expected")));
    let mut named = Vec::new();
    for row in expected.lines() {
        let name = row.split(' ').next().unwrap();
        assert_eq!(programs::check_row(name, &read(&vectors().join(name))), format!("{row}\n"));
        named.push(vectors().join(name));
    }
    assert_eq!(named, files(&vectors().join("run"), "text"));
}

#[test]
fn fit_vectors() {
    let texts = files(&vectors().join("fit"), "text");
    assert!(texts.len() >= 15);
    for path in texts {
        let rows = programs::fit_rows(&read(&path), &read(&path.with_extension("lines")));
        assert_eq!(rows, shown(&read(&path.with_extension("out"))), "{}", path.display());
    }
}

/// What a program answers, given arguments and input.
fn called(program: &str, arguments: &[&str], input: &[u8]) -> Output {
    let mut child = Command::new(program)
        .args(arguments)
        .current_dir(vectors())
        .stdin(Stdio::piped())
        .stdout(Stdio::piped())
        .stderr(Stdio::piped())
        .spawn()
        .expect("the program starts");
    // A program that has no use for its input may have closed it.
    let _ = child.stdin.take().unwrap().write_all(input);
    child.wait_with_output().unwrap()
}

/// What a program writes to standard output, given arguments and input.
fn output_of(program: &str, arguments: &[&str], input: &[u8]) -> Vec<u8> {
    let output = called(program, arguments, input);
    assert!(output.stderr.is_empty(), "{}", shown(&output.stderr));
    output.stdout
}

const EXPAND: &str = env!("CARGO_BIN_EXE_expand");

/// What its message about wrong arguments begins with.
const USAGE: &str = "expand: give the file of a text, or nothing";

/// Writes a line to each output.
const BOTH: &[u8] = b"$!$!0 (+-*/)\nA$\nstyle!F14\n$$\nA\nplain\n";

#[test]
fn program_expand() {
    for name in ["session", "marks-letters-and-high-bytes", "number-02-text-65537", "limit-output-65536"] {
        let path = vectors().join("run").join(name).with_extension("text");
        let expected = shown(&read(&path.with_extension("out")));
        assert_eq!(shown(&output_of(EXPAND, &[], &read(&path))), expected, "{name}");
        assert_eq!(shown(&output_of(EXPAND, &[path.to_str().unwrap()], b"")), expected, "{name}");
    }
}

/// What `expand` says on standard error, where it prints nothing.
fn expand_says(arguments: &[&str]) -> String {
    let output = called(EXPAND, arguments, BOTH);
    assert!(!output.status.success() && output.stdout.is_empty(), "{arguments:?}");
    shown(&output.stderr)
}

#[test]
fn program_expand_with_a_second_file() {
    let folder = Path::new(env!("CARGO_TARGET_TMPDIR"));
    let (text, second) = (folder.join("both.text"), folder.join("both.second"));
    fs::write(&text, BOTH).unwrap();
    let (text, name) = (text.to_str().unwrap(), second.to_str().unwrap());
    for arguments in [&["-4", name][..], &[text, "-4", name]] {
        fs::write(&second, "longer than what is written").unwrap();
        assert_eq!(shown(&output_of(EXPAND, arguments, BOTH)), "plain\nEND 0 6 3\n", "{arguments:?}");
        assert_eq!(shown(&read(&second)), "style\n", "{arguments:?}");
    }
    // Without the file channel 4 has no room.
    assert_eq!(shown(&output_of(EXPAND, &[text], b"")), "END 13 5 2\n");
    let unwritten = folder.join("absent/second");
    let unwritten = unwritten.to_str().unwrap();
    assert_eq!(expand_says(&[text, "-4", unwritten]), format!("expand: {unwritten} cannot be written\n"));
    assert_eq!(expand_says(&["absent", "-4", name]), "expand: absent cannot be read\n");
    for arguments in [&["-4"][..], &[text, "-4"], &[text, text], &[text, text, "-4", name]] {
        assert!(expand_says(arguments).starts_with(USAGE), "{arguments:?}");
    }
}

#[test]
fn program_expand_with_a_report() {
    let folder = Path::new(env!("CARGO_TARGET_TMPDIR"));
    let [text, second, uses] = ["used.text", "used.second", "used.report"].map(|name| folder.join(name));
    fs::write(&text, BOTH).unwrap();
    let [text, second, uses] = [&text, &second, &uses].map(|path| path.to_str().unwrap());
    // With room for channel 4 and without.
    let (both, alone) = ("plain\nEND 0 6 3\n", "END 13 5 2\n");
    for (arguments, printed, counts) in [
        (&["--report", uses][..], alone, "2,1\n0,0\n"),
        (&[text, "--report", uses], alone, "2,1\n0,0\n"),
        (&["-4", second, "--report", uses], both, "2,1\n0,1\n"),
        (&[text, "-4", second, "--report", uses], both, "2,1\n0,1\n"),
    ] {
        fs::write(uses, [b'x'; 100]).unwrap();
        assert_eq!(shown(&output_of(EXPAND, arguments, BOTH)), printed, "{arguments:?}");
        let report = format!("template,calls\n{counts}");
        assert_eq!(shown(&read(Path::new(uses))), report, "{arguments:?}");
    }
    // No run begins: the file is left empty.
    assert_eq!(shown(&output_of(EXPAND, &["--report", uses], b"")), "END 3 1 0\n");
    assert!(read(Path::new(uses)).is_empty());
    let unwritten = folder.join("absent/uses");
    let unwritten = unwritten.to_str().unwrap();
    let message = format!("expand: {unwritten} cannot be written\n");
    assert_eq!(expand_says(&[text, "--report", unwritten]), message);
    assert_eq!(expand_says(&[text, "-4", unwritten, "--report", uses]), message);
    assert_eq!(expand_says(&[text, "-4", second, "--report", unwritten]), message);
    for arguments in [
        &["--report"][..],
        &[text, "--report"],
        &[text, "--report", uses, "--report", uses],
        &["--report", uses, text],
        &["--report", uses, "-4", second],
    ] {
        assert!(expand_says(arguments).starts_with(USAGE), "{arguments:?}");
    }
}

#[test]
fn program_check_text() {
    let program = env!("CARGO_BIN_EXE_check_text");
    let names = ["run/session.text", "run/number-07-missing-layout.text"];
    let rows = output_of(program, &names, b"");
    assert_eq!(shown(&rows), "run/session.text 0 7\nrun/number-07-missing-layout.text 7 4\n");
    let refused = output_of(program, &["run/session.text", "run/absent"], b"");
    assert_eq!(shown(&refused), "check_text: run/absent cannot be read\n");
    assert_eq!(shown(&output_of(program, &[], b"")), "check_text: give the names of the files to check\n");
}

#[test]
fn program_fit_line() {
    let program = env!("CARGO_BIN_EXE_fit_line");
    let rows = output_of(program, &["fit/examples.text", "fit/examples.lines"], b"");
    assert_eq!(rows, read(&vectors().join("fit/examples.out")));
    for arguments in [&["fit/examples.text", "absent"][..], &["absent", "fit/examples.lines"]] {
        assert_eq!(shown(&output_of(program, arguments, b"")), "fit_line: absent cannot be read\n");
    }
    let usage = "fit_line: give the file of the text and the file of the lines\n";
    assert_eq!(shown(&output_of(program, &["fit/examples.text"], b"")), usage);
}
