//! Calls of the proved programs and of the commands over them, and what the commands say of a
//! number.

// No test file uses all of it.
#![allow(dead_code)]

use std::ffi::OsStr;
use std::fmt::Debug;
use std::fs::{self, OpenOptions};
use std::io::Write;
use std::path::{Path, PathBuf};
use std::process::{Command, Output, Stdio};
use std::thread;

use crate::files::{call, meanings, root, Folder};
use stage2_reference::{fit, DEAD_ROW, NODE_ROW};

pub const TEXT: &[u8] = b"$!$!0 (+-*/)\nA!$\n!10\n!F0$\n$$\nAB$\n";

/// A text that ends with a number other than 0.
pub const FAULT: &[u8] = b"$!$!0 (+-*/)\nA!$\n!14\n$$\nx\nA5/0\n";

/// Texts that write a line to each output: one is done, one ends with 15 after
/// both.
pub const BOTH: &[u8] = b"$!$!0 (+-*/)\nA$\nstyle!F14\n$$\nA\nplain\n";
pub const BOTH_FAULT: &[u8] = b"$!$!0 (+-*/)\nA!$\nstyle!F14\nplain!F1\n!14\n$$\nA5/0\n";

/// Each command, with its program.
pub const COMMANDS: [(&str, &str); 3] = [("expand", "expand"), ("check", "check_text"), ("why", "fit_line")];

pub fn program(name: &str) -> PathBuf {
    root().join("target/bin").join(name)
}

pub fn command(name: &str) -> PathBuf {
    root().join(name)
}

// ---- calls

/// What a call answers, with these bytes on standard input.
pub fn answered(call: &mut Command, input: &[u8]) -> Output {
    let pipes = call.stdin(Stdio::piped()).stdout(Stdio::piped()).stderr(Stdio::piped());
    let mut child =
        pipes.spawn().unwrap_or_else(|_| panic!("{call:?} cannot be run: run `tools/build` first"));
    // a program that does not read its input may have closed it
    let _ = child.stdin.take().unwrap().write_all(input);
    child.wait_with_output().unwrap()
}

pub fn called_with<S: AsRef<OsStr>>(path: &Path, arguments: &[S], input: &[u8]) -> Output {
    answered(call(path).args(arguments), input)
}

pub fn called<S: AsRef<OsStr>>(path: &Path, arguments: &[S]) -> Output {
    called_with(path, arguments, b"")
}

/// What a call answers in this folder.
pub fn called_in<S: AsRef<OsStr>>(folder: &Folder, path: &Path, arguments: &[S]) -> Output {
    answered(call(path).args(arguments).current_dir(folder.path()), b"")
}

/// A call by way of a shell, with this after it.
pub fn redirected<S: AsRef<OsStr>>(path: &Path, arguments: &[S], how: &str) -> Output {
    let script = format!("\"$0\" \"$@\" {how}");
    let mut shell = call("sh");
    shell.arg("-c").arg(script).arg(path).args(arguments).stdin(Stdio::null()).output().unwrap()
}

/// What a shell's script answers in this folder, with a command and a text as $0 and $1 and an empty
/// folder `temporary` for temporary files, which is empty again after it.
pub fn scripted(folder: &Folder, command_name: &str, script: &str) -> Output {
    let temporary = folder.path().join("temporary");
    fs::create_dir_all(&temporary).unwrap();
    let mut shell = call("sh");
    shell.args(["-c", script]).arg(command(command_name)).args(usual(command_name, "text"));
    let output = answered(shell.current_dir(folder.path()).env("TMPDIR", &temporary), b"");
    let left = fs::read_dir(&temporary).unwrap().count();
    assert_eq!(left, 0, "{command_name} leaves temporary files by {script}");
    output
}

/// What a call says on standard error, where it prints nothing.
pub fn said(path: &Path, arguments: &[&str]) -> String {
    let output = called(path, arguments);
    assert!(output.stdout.is_empty(), "{} {arguments:?} printed something", path.display());
    String::from_utf8(output.stderr).unwrap()
}

/// Compares all that a call answers: status, standard output and standard error.
pub fn assert_answer(output: &Output, status: u64, printed: &[u8], told: &[u8], case: impl Debug) {
    let shown = |bytes: &[u8]| bytes.escape_ascii().to_string();
    assert_eq!(
        (output.status.code(), shown(&output.stdout), shown(&output.stderr)),
        (Some(status as i32), shown(printed), shown(told)),
        "{case:?}"
    );
}

/// A call with this status prints nothing, and says one line that begins with the command's name.
pub fn assert_refused(output: &Output, status: i32, name: &str, case: impl Debug) {
    let said = String::from_utf8_lossy(&output.stderr);
    assert_eq!(output.status.code(), Some(status), "{case:?}: {said}");
    assert!(output.stdout.is_empty(), "{case:?} prints something");
    let is_line = said.ends_with('\n') && said.lines().count() == 1;
    assert!(is_line && said.starts_with(&format!("{name}: ")), "{case:?} says {said:?}");
}

// ---- files

pub fn scratch(name: &str) -> String {
    Path::new(env!("CARGO_TARGET_TMPDIR")).join(name).to_str().unwrap().to_string()
}

pub fn file(name: &str, bytes: &[u8]) -> String {
    let path = scratch(name);
    fs::write(&path, bytes).unwrap();
    path
}

pub fn make_pipe(path: &str) {
    let _ = fs::remove_file(path);
    assert!(Command::new("mkfifo").arg(path).status().unwrap().success());
}

/// A named pipe that is fed these bytes once.
pub fn pipe(name: &str, bytes: &'static [u8]) -> String {
    let path = scratch(name);
    make_pipe(&path);
    let to = path.clone();
    thread::spawn(move || OpenOptions::new().write(true).open(to).unwrap().write_all(bytes).unwrap());
    path
}

// ---- what the commands say of a number

/// The line on standard error for a number other than 0, with the text's line that it names.
pub fn message(name: &str, number: u64, line: u64, text: &[u8]) -> Vec<u8> {
    if number == 0 {
        return vec![];
    }
    let mut said = format!("{name}: {number}: {}", meanings()[&number]).into_bytes();
    if line != 0 {
        said.extend(format!("; line {line}").bytes());
        let named = text.split(|byte| *byte == b'\n').nth(line as usize - 1).unwrap_or_default();
        if !named.is_empty() {
            said.extend([b": ", &shown(named)[..]].concat());
        }
    }
    said.push(b'\n');
    said
}

/// A line as it is shown: at most 200 bytes of it, with what cannot be seen, or not be told apart, as
/// escapes.
pub fn shown(line: &[u8]) -> Vec<u8> {
    let end = shown_length(line);
    let more = if end < line.len() { &b" .."[..] } else { b"" };
    let parts = line[..end]
        .utf8_chunks()
        .flat_map(|chunk| chunk.valid().chars().flat_map(escaped).chain(octal(chunk.invalid())));
    parts.chain(more.iter().copied()).collect()
}

pub fn octal(bytes: &[u8]) -> Vec<u8> {
    bytes.iter().flat_map(|byte| format!("\\{byte:03o}").into_bytes()).collect()
}

/// How many bytes of a line are shown, so that no character is cut in two; it has at most four.
pub fn shown_length(line: &[u8]) -> usize {
    let begins_character = |end: &usize| line.get(*end).is_none_or(|byte| byte & 0xC0 != 0x80);
    if line.len() <= 200 {
        return line.len();
    }
    (196..=200).rev().find(begins_character).unwrap_or(196)
}

/// A character as it is shown: one that cannot be seen, and a combining accent, as the octal numbers of
/// its bytes.
pub fn escaped(character: char) -> Vec<u8> {
    let shown = character.to_string();
    match character {
        '\r' => br"\r".to_vec(),
        '\t' => br"\t".to_vec(),
        '\0'..' '
        | '\u{7F}'..='\u{A0}'
        | '\u{AD}'
        | '\u{300}'..='\u{36F}'
        | '\u{2000}'..='\u{200F}'
        | '\u{2028}'..='\u{202F}'
        | '\u{205F}'..='\u{206F}'
        | '\u{3000}'
        | '\u{FEFF}' => octal(shown.as_bytes()),
        _ => shown.into_bytes(),
    }
}

/// What `expand` prints, in two: the output, and the END line.
pub fn parted(printed: &[u8]) -> (&[u8], &[u8]) {
    let before = printed[..printed.len() - 1].iter().rposition(|byte| *byte == b'\n');
    printed.split_at(before.map_or(0, |at| at + 1))
}

/// Number and line of the END line.
pub fn ended(printed: &[u8]) -> (u64, u64) {
    let words: Vec<&str> = std::str::from_utf8(parted(printed).1).unwrap().split(' ').collect();
    (words[1].parse().unwrap(), words[2].parse().unwrap())
}

/// What a call of `expand` says that prints this for a text: the program nothing.
pub fn told(path: &Path, printed: &[u8], text: &[u8]) -> Vec<u8> {
    let (number, line) = ended(printed);
    if path == command("expand") {
        message("expand", number, line, text)
    } else {
        vec![]
    }
}

// ---- the usual call of each command

/// The arguments of a call of a command on a text.
pub fn usual<'a>(name: &str, text: &'a str) -> Vec<&'a str> {
    if name == "why" {
        vec![text, "AB"]
    } else {
        vec![text]
    }
}

/// What that call prints for the text above.
pub fn usual_row(name: &str, text: &str) -> String {
    match name {
        "expand" => "B\nEND 0 6 4\n".to_string(),
        "check" => format!("{text} 0 5\n"),
        _ => "line: \"AB\"\ncaught by line 2: A!\n1: \"B\"\nplaces 5, bytes 1\n".to_string(),
    }
}

pub fn assert_usual(output: &Output, name: &str, text: &str, case: impl Debug) {
    assert_answer(output, 0, usual_row(name, text).as_bytes(), b"", case);
}

// ---- what `./why` prints

/// What `./why` prints for a line that is fitted.
pub fn explained(text: &[u8], line: &[u8]) -> Vec<u8> {
    let fitted = fit(text, NODE_ROW, DEAD_ROW, line);
    let mut rows = vec![quoted("line", line)];
    if fitted.line == 0 {
        rows.push(b"no template catches it".to_vec());
    } else {
        let template = content(text, fitted.line as usize);
        rows.push([format!("caught by line {}: ", fitted.line).as_bytes(), &shown(template)].concat());
        let holes = template.iter().filter(|byte| **byte == text[1]).count();
        for at in 0..holes {
            let start = fitted.start[at] as usize;
            rows.push(quoted(&format!("{}", at + 1), &line[start..start + fitted.length[at] as usize]));
        }
    }
    rows.push(format!("places {}, bytes {}", fitted.places, fitted.bytes).into_bytes());
    rows.iter().flat_map(|row| [row, &b"\n"[..]].concat()).collect()
}

pub fn quoted(name: &str, piece: &[u8]) -> Vec<u8> {
    [name.as_bytes(), b": \"", &shown(piece), b"\""].concat()
}

/// Compares a call of `./why` with the reference's fit of a line.
pub fn assert_explained<S: AsRef<OsStr> + Debug>(text: &[u8], arguments: &[S], line: &[u8]) {
    let fitted = fit(text, NODE_ROW, DEAD_ROW, line);
    let printed = if fitted.number == 0 { explained(text, line) } else { vec![] };
    let told = if fitted.number == 0 { vec![] } else { message("why", fitted.number, fitted.line, text) };
    assert_answer(&called(&command("why"), arguments), fitted.number, &printed, &told, arguments);
}

/// What precedes the first source end of a text's line with this number.
pub fn content(text: &[u8], number: usize) -> &[u8] {
    let line = text.split(|byte| *byte == b'\n').nth(number - 1).unwrap();
    line.split(|byte| *byte == text[0]).next().unwrap()
}
