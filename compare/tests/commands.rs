//! The programs `check_text` and `fit_line`, and what the commands `./expand`, `./check` and `./why`
//! have in common: their options and exit statuses, on texts that are missing, folders, pipes and
//! files without an end, with wrong arguments, where standard output takes nothing, and by links;
//! and what they say of a number.

mod called;
mod files;

use std::ffi::OsStr;
use std::fs;
use std::os::unix::ffi::OsStrExt;
use std::os::unix::fs::symlink;
use std::os::unix::process::CommandExt;
use std::path::Path;
use std::process::{ExitStatus, Stdio};
use std::thread;
use std::time::Duration;

use called::*;
use files::{call, files, read, root, Folder, WITHOUT_KIT};
use stage2_reference::programs;
use stage2_reference::{check, NODE_ROW};

// ---- the other programs

#[test]
fn check_text_says_what_is_wrong() {
    let (path, good) = (program("check_text"), file("good.text", TEXT));
    let usage = "check_text: give the names of the files to check\n";
    assert_eq!(said(&path, &[]), usage);
    assert_eq!(said(&path, &["--help"]), usage);
    for bad in ["no such file", "/", "", &"n".repeat(100_000)] {
        assert_eq!(said(&path, &[&good, bad, &good]), format!("check_text: {bad} cannot be read\n"));
    }
    let piped = pipe("check.pipe", TEXT);
    let rows = format!("{good} 0 5\n{piped} 0 5\n/dev/zero 2 0\n");
    assert_eq!(called(&path, &[&good, &piped, "/dev/zero"]).stdout, rows.as_bytes());
}

#[test]
fn fit_line_says_what_is_wrong() {
    let (path, good) = (program("fit_line"), file("fit.text", TEXT));
    let lines = file("fit.lines", b"AB\n\n");
    let usage = "fit_line: give the file of a text and the file of the lines\n";
    let wrong: [Vec<&str>; 4] = [vec![], vec![&good], vec!["--help"], vec![&good, &lines, &lines]];
    for arguments in wrong {
        assert_eq!(said(&path, &arguments), usage);
    }
    for bad in ["no such file", "/", ""] {
        assert_eq!(said(&path, &[bad, &lines]), format!("fit_line: {bad} cannot be read\n"));
        assert_eq!(said(&path, &[&good, bad]), format!("fit_line: {bad} cannot be read\n"));
    }
    for long in ["/dev/zero", &file("long.lines", &[b'\n'; 65_537])] {
        assert_eq!(said(&path, &[&good, long]), format!("fit_line: {long} has more than 65,536 bytes\n"));
    }
    let output = called(&path, &[&pipe("fit.pipe", TEXT), &pipe("lines.pipe", b"AB\n\n")]);
    assert_eq!(output.stdout, programs::fit_rows(TEXT, b"AB\n\n").as_bytes());
}

#[test]
fn a_program_tells_a_write_that_fails() {
    let (text, lines) = (file("full.text", TEXT), file("full.lines", b"AB\n"));
    let calls: [(&str, Vec<&str>); 3] =
        [("expand", vec![&text]), ("check_text", vec![&text]), ("fit_line", vec![&text, &lines])];
    for how in [">/dev/full", ">&-"] {
        for (name, arguments) in &calls {
            let output = redirected(&program(name), arguments, how);
            let message = format!("{name}: standard output cannot be written\n");
            assert_eq!(String::from_utf8(output.stderr).unwrap(), message, "{how}");
        }
    }
}

// ---- all three commands

#[test]
fn help_and_version() {
    let folder = Folder::new("help");
    let version = String::from_utf8(read(&root().join("VERSION"))).unwrap();
    assert_eq!(version.lines().count(), 1);
    for (name, _) in COMMANDS {
        for before in [vec![], vec!["no such file"]] {
            let answer = |option| called_in(&folder, &command(name), &[&before[..], &[option]].concat());
            let help = answer("--help");
            assert!(help.stdout.starts_with(format!("./{name} ").as_bytes()), "{name}");
            assert_answer(&help, 0, &help.stdout, b"", name);
            let expected = format!("{name} (Tumbayog) {version}");
            assert_answer(&answer("--version"), 0, expected.as_bytes(), b"", name);
        }
    }
    let output = called_in(&folder, &command("expand"), &["-o", "out", "--version"]);
    assert_eq!((output.status.code(), folder.held().len()), (Some(0), 0));
}

/// The help of a command names the file and the options that it takes.
#[test]
fn help_names_what_can_be_given() {
    let given = [
        ("expand", "./expand FILE|-o OUT|-4 STYLES|--report USES|--  |--help|--version"),
        ("check", "./check FILE|--  |--help|--version"),
        ("why", "./why TEXT LINE|./why TEXT -n NUMBER|--  |--help|--version"),
    ];
    for (name, words) in given {
        let help = String::from_utf8(called(&command(name), &["--help"]).stdout).unwrap();
        for word in words.split('|') {
            assert!(help.contains(word), "{name} --help does not name {word}");
        }
    }
}

/// Some refusals to the letter.
#[test]
fn a_refusal_says_what_is_wrong() {
    let folder = Folder::new("refusals");
    folder.write("text", TEXT);
    let calls = [
        ("check text -x", "check: unknown option -x; ./check --help says how it is called"),
        ("check text text", "check: give one file, or none to check standard input"),
        ("expand text text", "expand: give one file, or none to expand standard input"),
        ("expand text -o", "expand: give -o the name of a file"),
        ("expand text -o a -o b", "expand: give -o one file"),
        ("why text", "why: give the file of a text and a line, or the file, -n and the number of a line"),
        ("why text -n x", "why: give -n the number of a line"),
        ("why text -n 7", "why: text has no line 7"),
    ];
    for (call, told) in calls {
        let words: Vec<&str> = call.split(' ').collect();
        let output = called_in(&folder, &command(words[0]), &words[1..]);
        assert_answer(&output, 100, b"", format!("{told}\n").as_bytes(), call);
    }
}

/// Wrong calls of each command, in words, with a comma between two calls.
const WRONG_CALLS: [(&str, &str); 3] = [
    (
        "expand",
        "-x text, -, - text, --reports uses text, -4=styles text, -4styles text, text other, text text, \
        text -o out other, -- text other, -- text -o out, -o, text -o, text -o -- out, -o -4 styles text, \
        text -o out -x, text -x -o out, -o out -o other text, -4 a -4 b text, --report a --report b text, \
        text --report, text -4, -4 --report, --report -4",
    ),
    (
        "check",
        "-x, -, text other, text text, text -o out, -4 styles text, -- text -x, text -x, --helps, --version=",
    ),
    (
        "why",
        ", text, text a b, text -n, text -n x, text -n -1, text -n +6, text -n 6x, text -n 6 a, text a -n 6, \
        text -n 6 -n 6, -n 6, -n, text -x, text -x a, -- text, text a -- b, text -n 7, text -n 0, text -n -- 6, \
        text -n 99999999999999999999, text -o out a",
    ),
];

/// Calls in a folder whose files stay as they are.
#[test]
fn wrong_arguments_are_refused() {
    let folder = Folder::new("wrong");
    for (name, bytes) in [("text", TEXT), ("other", TEXT), ("out", b"kept")] {
        folder.write(name, bytes);
    }
    let held = folder.held();
    for (name, calls) in WRONG_CALLS {
        for call in calls.split(',') {
            let arguments: Vec<&str> = call.split_whitespace().collect();
            assert_refused(&called_in(&folder, &command(name), &arguments), 100, name, (name, call));
        }
    }
    for line in [vec!["-n", ""], vec!["-n", "6 "], vec!["-n", "6\n"], vec!["A\nB"], vec!["A\n"], vec!["\n"]] {
        let arguments = [vec!["text"], line].concat();
        assert_refused(&called_in(&folder, &command("why"), &arguments), 100, "why", arguments);
    }
    assert_eq!(folder.held(), held);
}

/// Behind `--` a name or a line may begin with a minus.
#[test]
fn two_minus_signs_end_the_options() {
    let folder = Folder::new("minus");
    for name in ["text", "-4", "--help"] {
        folder.write(name, TEXT);
    }
    for (name, _) in COMMANDS {
        for text in ["text", "-4", "--help"] {
            let arguments = [vec!["--"], usual(name, text)].concat();
            assert_usual(&called_in(&folder, &command(name), &arguments), name, text, arguments);
        }
    }
    assert_refused(&called_in(&folder, &command("expand"), &["--", "-o"]), 102, "expand", "no file -o");
    for (name, row) in [("expand", "B\nEND 0 6 4\n"), ("check", "- 0 5\n")] {
        let output = called_with(&command(name), &["--"], TEXT);
        assert_answer(&output, 0, row.as_bytes(), b"", (name, "standard input"));
    }
}

#[test]
fn a_text_that_cannot_be_read_is_told() {
    for (name, _) in COMMANDS {
        for bad in ["no such file", "/", ""] {
            let output = called(&command(name), &usual(name, bad));
            assert_answer(&output, 102, b"", format!("{name}: {bad} cannot be read\n").as_bytes(), bad);
        }
    }
    for name in ["expand", "check"] {
        for how in ["<&-", "</"] {
            let output = redirected(&command(name), &[] as &[&str], how);
            let told = format!("{name}: standard input cannot be read\n");
            assert_answer(&output, 102, b"", told.as_bytes(), (name, how));
        }
    }
}

/// No more is read than tells that a text is too large.
#[test]
fn a_text_without_an_end_is_read_in_part() {
    for name in ["expand", "check"] {
        let output = redirected(&command(name), &[] as &[&str], "</dev/zero");
        assert_eq!(output.status.code(), Some(2), "{name}");
        assert_eq!(output.stderr, message(name, 2, 0, b""));
    }
}

#[test]
fn a_write_that_fails_is_told() {
    let folder = Folder::new("full");
    for (name, _) in COMMANDS {
        let told = format!("{name}: standard output cannot be written\n");
        for bytes in [TEXT, FAULT] {
            let text = folder.write("text", bytes);
            for how in [">/dev/full", ">&-"] {
                let output = redirected(&command(name), &usual(name, &text), how);
                assert_answer(&output, 105, b"", told.as_bytes(), (name, how));
            }
        }
    }
    let text = folder.write("text", TEXT);
    let output = redirected(&command("expand"), &[&text, "-o", "/dev/null"], ">/dev/full");
    assert_refused(&output, 105, "expand", "the END line alone");
}

/// A reader that is gone before anything is written, of standard output and of standard error.
#[test]
fn a_reader_that_is_gone_is_told() {
    let folder = Folder::new("gone");
    for (name, _) in COMMANDS {
        folder.write("text", TEXT);
        scripted(&folder, name, "{ sleep 0.3; \"$0\" \"$@\" 2>said; echo $? >status; } | true");
        let left = |file| String::from_utf8(read(&folder.path().join(file))).unwrap();
        let told = format!("{name}: standard output cannot be written\n");
        assert_eq!((left("status"), left("said")), ("105\n".to_string(), told));
        folder.write("text", b"$");
        scripted(&folder, name, "{ sleep 0.3; \"$0\" \"$@\" >printed; echo $? >status; } 2>&1 | true");
        assert_eq!(left("status"), "3\n", "{name}");
    }
}

/// Nothing is done where standard output is closed.
#[test]
fn nothing_is_done_without_standard_output() {
    let folder = Folder::new("closed");
    for (name, _) in COMMANDS {
        let output = scripted(&folder, name, "\"$0\" \"$@\" >&-");
        assert_refused(&output, 105, name, "no text");
    }
    folder.write("text", BOTH);
    let held = folder.held();
    let script = "\"$0\" text -o out -4 second --report uses >&-";
    assert_refused(&scripted(&folder, "expand", script), 105, "expand", script);
    assert_eq!(folder.held(), held);
}

#[test]
fn help_that_cannot_be_written_is_told() {
    for (name, _) in COMMANDS {
        for option in ["--help", "--version"] {
            for how in [">/dev/full", ">&-"] {
                let output = redirected(&command(name), &[option], how);
                assert_refused(&output, 105, name, (name, option, how));
            }
        }
    }
}

#[test]
fn temporary_files_are_removed() {
    let (folder, texts) = (Folder::new("temporary folder"), Folder::new("texts"));
    let (good, bad) = (texts.write("good", TEXT), texts.write("bad", b"$"));
    let called_at = |name: &str, arguments: &[&str], place: &Path| {
        answered(call(command(name)).args(arguments).env("TMPDIR", place), b"")
    };
    for (name, _) in COMMANDS {
        for (text, status) in [(&good, 0), (&bad, 3), (&"no such file".to_string(), 102)] {
            let output = called_at(name, &usual(name, text), folder.path());
            assert_eq!(output.status.code(), Some(status), "{name} {text}");
        }
        assert!(folder.held().is_empty(), "{name} leaves {:?}", folder.held());
        let output = called_at(name, &usual(name, &good), Path::new("/no such folder"));
        assert_answer(&output, 103, b"", format!("{name}: no temporary file can be made\n").as_bytes(), name);
    }
}

/// Files that may not be as long as a call's are, as where the folder for them is full.
#[test]
fn temporary_files_without_room_are_told() {
    let folder = Folder::new("no room");
    folder.write("text", TEXT);
    for (name, _) in COMMANDS {
        for blocks in [0, 1, 64] {
            let script = format!("ulimit -f {blocks}; \"$0\" \"$@\"");
            let told = format!("{name}: no temporary file can be made\n");
            assert_answer(&scripted(&folder, name, &script), 103, b"", told.as_bytes(), script);
        }
    }
}

/// How a command ends on a text where a signal comes to it, and to all that it has started, after so
/// many milliseconds. What a caller ignores, as where tests run in the background, a shell could not
/// take.
fn signalled(name: &str, text: &str, place: &Path, signal: &str, after: u64) -> ExitStatus {
    let mut called = call("env");
    called.arg(format!("--default-signal={signal}")).arg(command(name)).args(usual(name, text));
    called.env("TMPDIR", place).process_group(0).stdout(Stdio::null()).stderr(Stdio::null());
    let mut child = called.spawn().unwrap();
    thread::sleep(Duration::from_millis(after));
    let group = format!("-{}", child.id());
    let _ = call("kill").args(["-s", signal, "--", &group]).stderr(Stdio::null()).status();
    child.wait().unwrap()
}

/// Early and late signals. Where what a command has started is killed first, it may tell that before
/// its own signal comes.
#[test]
fn temporary_files_are_removed_by_a_signal() {
    let (folder, texts) = (Folder::new("signals"), Folder::new("signalled"));
    let text = texts.write("text", TEXT);
    for (signal, status) in [("HUP", 129), ("INT", 130), ("QUIT", 131), ("TERM", 143)] {
        let calls = COMMANDS.iter().flat_map(|(name, _)| (0..12).map(move |turn| (*name, 2 * turn)));
        let ends = calls.map(|(name, after)| {
            let ended = signalled(name, &text, folder.path(), signal, after);
            let case = format!("{name}, {signal} after {after} ms: {ended}");
            assert!(folder.held().is_empty(), "{case} leaves {:?}", folder.held());
            assert!(ended.code().is_none_or(|code| code == 0 || code > 100), "{case}");
            ended.code()
        });
        assert!(ends.filter(|code| *code == Some(status)).count() > 0, "{signal} ends no call");
    }
}

/// The folder for temporary files may be named from this one, also by what awk would take for an
/// assignment or a program for an option, and by what is not UTF-8.
#[test]
fn temporary_files_may_be_anywhere() {
    let folder = Folder::new("anywhere");
    folder.write("text", FAULT);
    folder.write("both", BOTH);
    let results = ["both", "-o", "out", "-4", "/dev/stdout", "--report", "/dev/stderr"];
    let names: [&[u8]; 8] =
        [b"a=b", b"-x", b"with blank", b"with'quote", b"with\"two", b"[a]*", b"a\\tb$HOME", b"no \xFF UTF-8"];
    for name in names.map(OsStr::from_bytes) {
        fs::create_dir(folder.path().join(name)).unwrap();
        let calls: [(&str, &[&str]); 4] = [
            ("expand", &["text"]),
            ("expand", &results),
            ("why", &["text", "-n", "6"]),
            ("check", &["text"]),
        ];
        for (command_name, arguments) in calls {
            let mut called = call(command(command_name));
            let here = answered(called.args(arguments).current_dir(folder.path()), b"");
            let _ = fs::remove_file(folder.path().join("out"));
            let there = answered(called.env("TMPDIR", name), b"");
            assert_eq!(there, here, "{command_name} with {name:?}");
            assert!(!here.stdout.is_empty());
            assert_eq!(folder.path().join("out").exists(), arguments.contains(&"-o"), "{name:?}");
        }
        assert!(fs::read_dir(folder.path().join(name)).unwrap().next().is_none(), "{name:?}");
    }
}

/// The commands' own variables are not taken from the environment.
#[test]
fn variables_of_the_environment_are_not_taken() {
    let folder = Folder::new("variables");
    folder.write("text", TEXT);
    let names = "file out styles uses line number name home folder program answer row end at log newer use";
    for (name, _) in COMMANDS {
        let mut call = call(command(name));
        call.args(usual(name, "text")).current_dir(folder.path());
        assert_usual(
            &answered(call.envs(names.split(' ').map(|name| (name, "7"))), b""),
            name,
            "text",
            names,
        );
    }
    assert_eq!(folder.held().len(), 1);
}

/// A command is called in another folder: by its path, by links to it, and by name on the PATH.
#[test]
fn commands_work_by_links_and_in_other_folders() {
    let folder = Folder::new("another folder");
    folder.write("a text", TEXT);
    fs::create_dir(folder.path().join("links")).unwrap();
    for (name, _) in COMMANDS {
        let link = folder.path().join("links").join(name);
        symlink(command(name), &link).unwrap();
        symlink(format!("links/{name}"), folder.path().join(format!("my-{name}"))).unwrap();
        let arguments = usual(name, "a text");
        for path in [&command(name), &link, Path::new(&format!("./my-{name}"))] {
            assert_usual(&called_in(&folder, path, &arguments), name, "a text", path);
        }
        let on_path = format!("{}:{}", link.parent().unwrap().display(), *WITHOUT_KIT);
        let mut shell = call("sh");
        shell.args(["-c", "\"$0\" \"$@\"", name]).args(&arguments).env("PATH", on_path);
        assert_usual(&answered(shell.current_dir(folder.path()), b""), name, "a text", "on the PATH");
    }
}

// ---- numbers

/// Calls of the commands that read a text alone, and what they are to answer.
fn assert_read(text: &Path, bytes: &[u8]) {
    let expected = programs::expand(bytes, 0).printed;
    let (number, line) = ended(&expected);
    let output = called(&command("expand"), &[text]);
    assert_answer(&output, number, &expected, &message("expand", number, line, bytes), text);

    let checked = check(bytes, NODE_ROW);
    let row = programs::check_row(text.to_str().unwrap(), bytes);
    let told = message("check", checked.number, checked.line, bytes);
    assert_answer(&called(&command("check"), &[text]), checked.number, row.as_bytes(), &told, text);
}

/// Each number is told in the words of the table, with the line that it names.
#[test]
fn each_number_is_told() {
    let texts = files(&root().join("examples/numbers"), "text");
    assert!(texts.len() >= 20);
    for text in texts {
        let bytes = read(&text);
        assert_read(&text, &bytes);
        if check(&bytes, NODE_ROW).number != 0 {
            for line in [["--", "AB"], ["-n", "1"]] {
                assert_explained(&bytes, &[text.as_os_str(), line[0].as_ref(), line[1].as_ref()], b"AB");
            }
        }
    }
}

/// A text whose one template catches this line, and whose code divides by 0.
fn failing(line: &[u8]) -> Vec<u8> {
    [b"$!$!0 (+-*/)\n!$\n1/0!16$\n!14!F1$\n$$\n", line, b"\n"].concat()
}

/// So many bytes, and characters of these bytes behind them.
fn long(bytes: usize, character: &str) -> Vec<u8> {
    [vec![b'x'; bytes], character.repeat(60).into_bytes()].concat()
}

/// Lines that end a run, with a bar between two.
const SHOWN_LINES: &str =
    "|x\r|\tx\t\t|\u{FEFF}x|x\u{FEFF}|\u{FEFF}| x |\\r|%s %d %%|*|$HOME|`x`|'\"'|x$ a remark|\
    \u{7F}\u{1B}[1m|-x|x=1|Z\u{FC}rich|: x|..|x ..|x\u{9B}1m|x\u{A0}x";

/// These, and lines of 200 bytes and more, with characters that end at byte 200 and that do not, and
/// with all bytes that there are.
fn lines_to_show() -> Vec<Vec<u8>> {
    let mut lines: Vec<Vec<u8>> = SHOWN_LINES.split('|').map(|line| line.as_bytes().to_vec()).collect();
    let bytes: Vec<u8> = (1..=255).filter(|byte| *byte != b'\n' && *byte != b'$').collect();
    lines.extend([bytes[..200].to_vec(), bytes]);
    lines.extend([199, 200, 201, 202, 5_000].map(|length| vec![b'x'; length]));
    lines.extend([199, 200, 201, 230].map(|length| vec![0x80; length]));
    lines.extend([&b"$ the rest is a remark"[..], b"\xE9x"].map(|end| [&[b'x'; 199], end].concat()));
    for bytes in 196..=200 {
        lines.extend(["é", "€", "𝄞"].map(|character| long(bytes, character)));
    }
    lines
}

/// A number is not told where what is printed before it cannot be.
#[test]
fn no_number_is_told_where_nothing_is_printed() {
    let folder = Folder::new("untold");
    let (bad, fault) = (folder.write("bad", b"$"), folder.write("fault", FAULT));
    let calls =
        [("expand", vec![&bad[..]]), ("check", vec![&bad]), ("expand", vec![&fault, "-o", "/dev/null"])];
    for (name, arguments) in calls {
        let told = format!("{name}: standard output cannot be written\n");
        let output = redirected(&command(name), &arguments, ">/dev/full");
        assert_answer(&output, 105, b"", told.as_bytes(), arguments);
    }
}

/// What is told follows what is printed.
#[test]
fn a_message_is_last() {
    let folder = Folder::new("last");
    folder.write("text", FAULT);
    let printed = programs::expand(FAULT, 0).printed;
    let both = scripted(&folder, "expand", "\"$0\" text 2>&1");
    assert_answer(&both, 15, &[&printed[..], &message("expand", 15, 6, FAULT)].concat(), b"", "expand");
    folder.write("text", b"$");
    let both = scripted(&folder, "check", "\"$0\" text 2>&1");
    assert_answer(&both, 3, &[&b"text 3 1\n"[..], &message("check", 3, 1, b"$")].concat(), b"", "check");
}

/// Names with blanks, backslashes and signs of patterns are taken and printed as they are.
#[test]
fn names_are_taken_as_they_are() {
    let folder = Folder::new("names");
    for text in ["a\\nb\\c", "%s%d", "two  blanks ", "*", "[a]", "$HOME", "a'b", "é"] {
        folder.write(text, TEXT);
        for (name, _) in COMMANDS {
            assert_usual(&called_in(&folder, &command(name), &usual(name, text)), name, text, text);
            let missing = format!("{text}.missing");
            let told = format!("{name}: {missing} cannot be read\n");
            let output = called_in(&folder, &command(name), &usual(name, &missing));
            assert_answer(&output, 102, b"", told.as_bytes(), text);
        }
    }
}

/// The text's line is shown in part, and without what cannot be seen.
#[test]
fn the_line_is_shown() {
    let folder = Folder::new("shown");
    for (line, locale) in lines_to_show().iter().zip(["C.UTF-8", "C"].iter().cycle()) {
        let bytes = failing(line);
        let text = folder.write("text", &bytes);
        let expected = programs::expand(&bytes, 0).printed;
        let (number, at) = ended(&expected);
        assert!(matches!((number, at), (11 | 15, 6)), "{}", line.escape_ascii());
        let output = answered(call(command("expand")).arg(&text).env("LC_ALL", locale), b"");
        let told = message("expand", number, at, &bytes);
        assert_answer(&output, number, &expected, &told, line.escape_ascii().to_string());
    }
}

/// The line that a number names can be empty, the last one without its byte 10, or not there.
#[test]
fn the_line_may_be_missing() {
    let folder = Folder::new("missing");
    let texts: [&[u8]; 8] = [
        b"",
        b"\n",
        b"\n\n",
        b"\xEF\xBB\xBF$!$!0 (+-*/)\nA$\n$$\n",
        b"$!$!0 (+-*/)\nA!$\n!14\n$$\nA",
        b"$!$!0 (+-*/)\nA!$\n!14\n$$\nA\r",
        b"$!$!0 (+-*/)\nA!$\n",
        b"$!$!0 (+-*/)\nA!$\n\n",
    ];
    for bytes in texts {
        assert_read(Path::new(&folder.write("text", bytes)), bytes);
    }
    let line_1 = message("check", 3, 1, b"");
    assert!(line_1.ends_with(b"; line 1\n"), "{}", line_1.escape_ascii());
}

/// The message itself, without the reference and the table.
#[test]
fn a_message_to_the_letter() {
    let folder = Folder::new("letter");
    let said = |line: &str| {
        let text = folder.write("text", failing(line.as_bytes()));
        String::from_utf8(called(&command("expand"), &[&text]).stderr).unwrap()
    };
    let short = said("x \t\u{1B}\\");
    assert!(short.starts_with("expand: 15: ") && short.ends_with("; line 6: x \\t\\033\\\n"), "{short}");
    // 33 times 6 bytes, and the next two are no character; each byte-order mark is shown
    let long = said(&"\u{FEFF}Z\u{FC}".repeat(100));
    let in_part = format!("; line 6: {} ..\n", "\\357\\273\\277Z\u{FC}".repeat(33));
    assert!(long.starts_with("expand: 11: ") && long.ends_with(&in_part), "{long}");
}

// ---- ./check

/// Rows of the table of vectors, a text of each kind of name among them.
#[test]
fn check_prints_the_row_of_a_text() {
    let vectors = root().join("vectors");
    let expected = String::from_utf8(read(&vectors.join("check/expected"))).unwrap();
    for row in expected.lines().step_by(12) {
        let (name, numbers) = row.split_once(' ').unwrap();
        let (number, line) = numbers.split_once(' ').unwrap();
        let (number, line): (u64, u64) = (number.parse().unwrap(), line.parse().unwrap());
        let told = message("check", number, line, &read(&vectors.join(name)));
        let output = answered(call(command("check")).arg(name).current_dir(&vectors), b"");
        assert_answer(&output, number, format!("{row}\n").as_bytes(), &told, name);
    }
}

#[test]
fn check_takes_standard_input() {
    for bytes in [TEXT, b"", b"$!$!0 (+-*/)\nA$\n!\n$$\n", &[b'x'; 65_537]] {
        let checked = check(bytes, NODE_ROW);
        let told = message("check", checked.number, checked.line, bytes);
        let row = programs::check_row("-", bytes);
        let output = called_with(&command("check"), &[] as &[&str], bytes);
        assert_answer(&output, checked.number, row.as_bytes(), &told, bytes.len());
    }
}

#[test]
fn check_takes_what_can_be_read_once() {
    let piped = pipe("check-command.pipe", TEXT);
    assert_usual(&called(&command("check"), &[&piped]), "check", &piped, "a pipe");
    let endless = called(&command("check"), &["/dev/zero"]);
    assert_answer(&endless, 2, b"/dev/zero 2 0\n", &message("check", 2, 0, b""), "an endless file");
}
