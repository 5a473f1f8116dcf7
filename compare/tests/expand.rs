//! The program and the command `expand` as they are called: what they print, say and write to
//! files, in every order of the options, and where a file takes nothing.

mod called;
mod files;

use std::fs;
use std::os::unix::fs::symlink;
use std::path::{Path, PathBuf};
use std::thread;

use called::*;
use files::{call, files, read, root, Folder};
use stage2_reference::programs::{self, OUTPUT_ROOM};
use stage2_reference::{check, NODE_ROW};

#[test]
fn expand_takes_a_file_or_standard_input() {
    let text = file("commands.text", FAULT);
    let expected = programs::expand(FAULT, 0).printed;
    for path in [program("expand"), command("expand")] {
        let told = told(&path, &expected, FAULT);
        for output in [called(&path, &[&text]), called_with(&path, &[] as &[&str], FAULT)] {
            assert_eq!(output.stdout, expected);
            assert_eq!(output.stderr, told);
        }
        let piped = called(&path, &[&pipe("commands.pipe", FAULT)]);
        assert_eq!((piped.stdout, piped.stderr), (expected.clone(), told));
        assert_eq!(called(&path, &["/dev/zero"]).stdout, b"END 2 0 0\n");
    }
    assert_eq!(called(&command("expand"), &[&text]).status.code(), Some(15));
    assert_eq!(called_with(&command("expand"), &[] as &[&str], TEXT).status.code(), Some(0));
    assert_eq!(called(&command("expand"), &["/dev/zero"]).stderr, message("expand", 2, 0, b""));
}

#[test]
fn expand_says_what_is_wrong() {
    let text = file("wrong.text", TEXT);
    for bad in ["no such file", "/", ""] {
        assert_eq!(said(&program("expand"), &[bad]), format!("expand: {bad} cannot be read\n"));
        assert_eq!(said(&command("expand"), &[bad]), format!("expand: {bad} cannot be read\n"));
    }
    let usage = "expand: give the file of a text, or nothing to expand standard input; \
        then -4 and a file for channel 4, or nothing; then --report and a file for the usage report, or nothing\n";
    assert_eq!(said(&program("expand"), &[&text, &text]), usage);
    assert_eq!(said(&program("expand"), &["--help"]), usage);
    assert_eq!(
        said(&command("expand"), &[&text, &text]),
        "expand: give one file, or none to expand standard input\n"
    );
    assert!(said(&command("expand"), &["-x"]).starts_with("expand: unknown option -x"));
    let unread = redirected(&program("expand"), &[] as &[&str], "<&-");
    assert!(unread.stdout.is_empty());
    assert_eq!(unread.stderr, b"expand: standard input cannot be read\n");
}

/// Calls with a file for channel 4 that is not there before, or holds something.
#[test]
fn expand_writes_channel_4_to_its_file() {
    let second = scratch("channel.second");
    for (bytes, status) in [(BOTH, 0), (BOTH_FAULT, 15), (TEXT, 0), (FAULT, 15)] {
        let (text, expected) = (file("channel.text", bytes), programs::expand(bytes, OUTPUT_ROOM));
        for path in [program("expand"), command("expand")] {
            let _ = fs::remove_file(&second);
            for (arguments, input) in
                [(vec![&text[..], "-4", &second], &b""[..]), (vec!["-4", &second], bytes)]
            {
                let output = called_with(&path, &arguments, input);
                assert_eq!(output.stdout, expected.printed, "{arguments:?}");
                assert_eq!(fs::read(&second).unwrap(), expected.second, "{arguments:?}");
                assert_eq!(output.stderr, told(&path, &expected.printed, bytes), "{arguments:?}");
                fs::write(&second, [b'x'; 100]).unwrap();
            }
        }
        assert_eq!(called(&command("expand"), &[&text, "-4", &second]).status.code(), Some(status));
    }
    assert_eq!(programs::expand(BOTH, OUTPUT_ROOM).second, b"style\n");
    assert_eq!(programs::expand(BOTH_FAULT, OUTPUT_ROOM).second, b"style\n");
}

#[test]
fn channel_4_has_no_room_without_its_file() {
    let text = file("no-room.text", BOTH);
    for path in [program("expand"), command("expand")] {
        assert_eq!(called(&path, &[&text]).stdout, b"END 13 5 2\n");
        assert_eq!(called_with(&path, &[] as &[&str], BOTH).stdout, b"END 13 5 2\n");
    }
    assert_eq!(called(&command("expand"), &[&text]).status.code(), Some(13));
}

/// Calls the program or the command in a folder of its own with a text and the files that the
/// arguments name: `text`, or else standard input, and `out`, `second` and `uses`, which hold
/// something before. Compares all that is answered and written with the reference; where the text is
/// refused, the program empties the files that are named, and the command leaves them as they are.
fn compare_expand(path: &Path, bytes: &[u8], arguments: &[&str]) {
    let folder = Folder::new("compared");
    folder.write("text", bytes);
    for name in ["out", "second", "uses"] {
        folder.write(name, [b'x'; 3_000]);
    }
    let is_given = |argument| arguments.contains(&argument);
    let expected = programs::expand(bytes, if is_given("-4") { OUTPUT_ROOM } else { 0 });
    let (output, end) = parted(&expected.printed);
    let is_command = path == command("expand");
    let input = if is_given("text") { b"" } else { bytes };
    assert_answer(
        &answered(call(path).args(arguments).current_dir(folder.path()), input),
        if is_command { ended(&expected.printed).0 } else { 0 },
        if is_given("-o") { end } else { &expected.printed },
        &told(path, &expected.printed, bytes),
        arguments,
    );
    let written =
        [("out", "-o", output), ("second", "-4", &expected.second), ("uses", "--report", &expected.report)];
    let is_kept = is_command && (1..10).contains(&ended(&expected.printed).0);
    for (name, option, bytes) in written {
        let left = if is_given(option) && !is_kept { bytes } else { &[b'x'; 3_000] };
        assert!(read(&folder.path().join(name)) == left, "{arguments:?}: {name}");
    }
}

/// All orders of a row's parts.
fn orders<T: Clone>(parts: &[T]) -> Vec<Vec<T>> {
    if parts.is_empty() {
        return vec![vec![]];
    }
    let with_first = |at: usize| {
        let others = [&parts[..at], &parts[at + 1..]].concat();
        orders(&others).into_iter().map(move |order| [&parts[at..at + 1], &order[..]].concat())
    };
    (0..parts.len()).flat_map(with_first).collect()
}

/// All choices of a row's parts, each in the row's order.
fn choices<T: Clone>(parts: &[T]) -> Vec<Vec<T>> {
    let chosen = |choice: usize| (0..parts.len()).filter(move |at| choice >> at & 1 == 1);
    (0..1 << parts.len()).map(|choice| chosen(choice).map(|at| parts[at].clone()).collect()).collect()
}

const FILE_PARTS: [&[&str]; 4] = [&["text"], &["-4", "second"], &["--report", "uses"], &["-o", "out"]];

/// The program takes a text, then channel 4, then the report, each or none.
#[test]
fn the_program_writes_what_is_asked_for() {
    for bytes in [BOTH, BOTH_FAULT, TEXT, FAULT, b""] {
        for parts in choices(&FILE_PARTS[..3]) {
            compare_expand(&program("expand"), bytes, &parts.concat());
        }
    }
    assert_eq!(programs::expand(BOTH, OUTPUT_ROOM).report, b"template,calls\n2,1\n0,1\n");
    assert!(programs::expand(b"", 0).report.is_empty());
}

/// The command takes the same, and a file for the output.
#[test]
fn the_command_writes_what_is_asked_for() {
    for bytes in [BOTH, FAULT] {
        for parts in choices(&FILE_PARTS) {
            compare_expand(&command("expand"), bytes, &parts.concat());
        }
    }
    compare_expand(&command("expand"), b"", &FILE_PARTS.concat());
    compare_expand(&command("expand"), b"", &FILE_PARTS[1..].concat());
}

/// A text that ends with 15 after a line to each output, or with 13 where channel 4 has no file.
#[test]
fn the_command_takes_any_order() {
    let backwards = choices(&FILE_PARTS).into_iter().map(|parts| parts.into_iter().rev().collect());
    for parts in orders(&FILE_PARTS).into_iter().chain(backwards) {
        compare_expand(&command("expand"), BOTH_FAULT, &parts.concat());
    }
    compare_expand(&command("expand"), BOTH_FAULT, &["-o", "out", "-4", "second", "--", "text"]);
}

/// Nothing is printed, for nothing is run before the files can be written. The last one
/// can be opened, and takes no byte.
#[test]
fn a_file_that_cannot_be_written_is_told() {
    let (text, good) = (file("unwritten.text", BOTH), scratch("written"));
    for bad in ["/", "/no such folder/styles", "", "/dev/full"] {
        let message = format!("expand: {bad} cannot be written\n");
        let calls: [&[&str]; 4] = [
            &[&text, "-4", bad],
            &[&text, "--report", bad],
            &[&text, "-4", bad, "--report", &good],
            &[&text, "-4", &good, "--report", bad],
        ];
        for arguments in calls {
            assert_eq!(said(&program("expand"), arguments), message, "{arguments:?}");
            let output = called(&command("expand"), arguments);
            assert_answer(&output, 106, b"", message.as_bytes(), arguments);
        }
    }
}

/// The file for the output is tried before anything is run, so that no other file is written; the last
/// one can be opened, and takes no byte.
#[test]
fn an_output_file_that_cannot_be_written_is_told() {
    let folder = Folder::new("no output");
    folder.write("text", FAULT);
    for bad in ["/", "/no such folder/out", "", "text/out", "/dev/full"] {
        folder.write("uses", "kept");
        let output = called_in(&folder, &command("expand"), &["text", "--report", "uses", "-o", bad]);
        assert_answer(&output, 106, b"", format!("expand: {bad} cannot be written\n").as_bytes(), bad);
        let is_kept = read(&folder.path().join("uses")) == b"kept";
        assert!(is_kept || bad == "/dev/full", "{bad}");
    }
}

/// A file of a program that runs is there and cannot be opened for writing, by root neither.
#[test]
fn a_file_that_is_there_and_cannot_be_opened_is_told() {
    let folder = Folder::new("busy");
    folder.write("text", BOTH);
    let bad = std::env::current_exe().unwrap();
    let bad = bad.to_str().unwrap();
    for at in [2, 4, 6] {
        let mut arguments = ["text", "-o", "out", "-4", "second", "--report", "uses"];
        arguments[at] = bad;
        let output = called_in(&folder, &command("expand"), &arguments);
        let told = format!("expand: {bad} cannot be written\n");
        assert_answer(&output, 106, b"", told.as_bytes(), arguments);
        assert_eq!(folder.held().len(), 1, "{arguments:?}");
    }
}

/// The program opens the file for channel 4 before that for the report, and both before anything is
/// run. The command tests both in this order, and changes none before.
#[test]
fn files_are_opened_in_order() {
    let text = file("opened.text", BOTH);
    let good = scratch("opened");
    for (path, opened) in [(program("expand"), ""), (command("expand"), "kept")] {
        assert_eq!(
            said(&path, &[&text, "-4", "/", "--report", "/no such folder/uses"]),
            "expand: / cannot be written\n"
        );
        for (arguments, left) in [
            ([&text[..], "-4", "/", "--report", &good], "kept"),
            ([&text, "-4", &good, "--report", "/"], opened),
        ] {
            fs::write(&good, "kept").unwrap();
            assert_eq!(said(&path, &arguments), "expand: / cannot be written\n");
            assert_eq!(fs::read_to_string(&good).unwrap(), left, "{arguments:?}");
        }
    }
}

/// They are written in one order, and none behind one that takes no byte.
#[test]
fn files_are_written_in_order() {
    let folder = Folder::new("order");
    folder.write("text", BOTH);
    let options = [["-4", "second"], ["--report", "uses"], ["-o", "out"]];
    for at in 0..options.len() {
        let mut named = options;
        named[at][1] = "/dev/full";
        for name in ["second", "uses", "out"] {
            folder.write(name, "kept");
        }
        let output = called_in(&folder, &command("expand"), &[&["text"], named.as_flattened()].concat());
        assert_answer(&output, 106, b"", b"expand: /dev/full cannot be written\n", named);
        for (behind, [_, name]) in options.iter().enumerate() {
            assert_eq!(read(&folder.path().join(name)) == b"kept", at <= behind, "{named:?}: {name}");
        }
    }
}

/// The text is read before a file is tested, and the file for the output is tested first.
#[test]
fn faults_are_told_in_order() {
    let folder = Folder::new("faults");
    folder.write("text", BOTH);
    for (call, status, name) in [
        ("missing -4 /", 102, "missing cannot be read"),
        ("text -4 / -o /no/out", 106, "/no/out cannot be written"),
        ("text --report / -4 /no/second", 106, "/no/second cannot be written"),
    ] {
        let arguments: Vec<&str> = call.split(' ').collect();
        let output = called_in(&folder, &command("expand"), &arguments);
        assert_answer(&output, status, b"", format!("expand: {name}\n").as_bytes(), call);
    }
}

/// Names with blanks and with what a shell takes for a pattern, also of files that are not there.
#[test]
fn names_are_taken_whole() {
    let folder = Folder::new("names");
    for (bytes, number) in [(BOTH, 0), (b"$", 3)] {
        folder.write("a text", bytes);
        folder.write("a", "kept");
        let arguments = ["a text", "-o", "a *", "-4", "a  ?", "--report", "a [a-z]"];
        let output = called_in(&folder, &command("expand"), &arguments);
        assert_eq!(output.status.code(), Some(number), "{}", String::from_utf8_lossy(&output.stderr));
        let held = folder.held();
        assert_eq!(held["a"].as_deref(), Some(&b"kept"[..]));
        assert_eq!(held.len(), if number == 0 { 5 } else { 2 }, "{:?}", held.keys());
        for name in ["a *", "a  ?", "a [a-z]"] {
            assert_eq!(held.contains_key(name), number == 0, "{name}");
            let _ = fs::remove_file(folder.path().join(name));
        }
        let output = called_in(&folder, &command("expand"), &["a text", "-o", "a *", "-4", "a *"]);
        assert_answer(
            &output,
            100,
            b"",
            b"expand: a * is used twice; give a file of its own for each\n",
            "a *",
        );
    }
}

/// Where one file cannot be opened, the command leaves the others as they are, and makes none.
#[test]
fn nothing_is_run_where_a_file_cannot_be_opened() {
    let folder = Folder::new("unopened");
    folder.write("text", BOTH);
    for (bad, kept) in [
        (["-o", "/"], ["second", "uses"]),
        (["-4", "/"], ["out", "uses"]),
        (["--report", "/"], ["out", "second"]),
    ] {
        let mut arguments = vec!["text", "-o", "out", "-4", "second", "--report", "uses"];
        let at = arguments.iter().position(|argument| *argument == bad[0]).unwrap();
        arguments[at + 1] = bad[1];
        for name in ["out", "second", "uses"] {
            folder.write(name, "kept");
        }
        let output = called_in(&folder, &command("expand"), &arguments);
        assert_answer(&output, 106, b"", b"expand: / cannot be written\n", bad);
        for name in kept {
            assert_eq!(read(&folder.path().join(name)), b"kept", "{bad:?} {name}");
            fs::remove_file(folder.path().join(name)).unwrap();
        }
        called_in(&folder, &command("expand"), &arguments);
        assert!(kept.iter().all(|name| !folder.path().join(name).exists()), "{bad:?} makes a file");
    }
}

/// A call that is wrong leaves the files for channel 4 and the report as they are.
#[test]
fn a_wrong_call_writes_no_file() {
    let (text, second) = (file("wrong-second.text", BOTH), file("wrong.second", b"kept"));
    let uses = file("wrong.report", b"kept");
    let unread = ["no such file", "-4", &second, "--report", &uses];
    for path in [program("expand"), command("expand")] {
        assert_eq!(said(&path, &unread), "expand: no such file cannot be read\n");
    }
    let wrong: [&[&str]; 10] = [
        &["-4"],
        &["--report"],
        &[&text, "-4"],
        &[&text, "--report"],
        &[&text, &text, "-4", &second],
        &[&text, &text, "--report", &uses],
        &[&text, "-4", &second, &text],
        &[&text, "-4", &second, "-4", &second],
        &[&text, "--report", &uses, "--report", &uses],
        &[&text, "-4", &second, "--report", &uses, &text],
    ];
    for arguments in wrong {
        assert!(said(&program("expand"), arguments).starts_with("expand: "), "{arguments:?}");
        assert_refused(&called(&command("expand"), arguments), 100, "expand", arguments);
    }
    // The command takes another order, and no name that begins as an option does.
    for arguments in [&["--report", &uses, &text][..], &[&text, "--report", &uses, "-4", &second]] {
        assert!(said(&program("expand"), arguments).starts_with("expand: "), "{arguments:?}");
    }
    assert_eq!([second, uses].map(|file| fs::read(file).unwrap()), [b"kept", b"kept"]);
}

// ---- the output in a file

/// They hold what they held, and are not made where they are not.
#[test]
fn a_refused_text_leaves_the_files() {
    let texts = files(&root().join("examples/numbers"), "text");
    let refused: Vec<PathBuf> =
        texts.into_iter().filter(|text| check(&read(text), NODE_ROW).number != 0).collect();
    assert!(refused.len() >= 8);
    let arguments = ["text", "-o", "out", "-4", "second", "--report", "uses"];
    for text in refused {
        compare_expand(&command("expand"), &read(&text), &arguments);
        let folder = Folder::new("refused");
        folder.write("text", read(&text));
        let held = folder.held();
        called_in(&folder, &command("expand"), &arguments);
        assert!(folder.held() == held, "{}", text.display());
    }
}

/// Standard output has the END line behind the output in any case.
#[test]
fn the_output_can_go_to_standard_output() {
    let folder = Folder::new("standard");
    let text = folder.write("text", BOTH_FAULT);
    let expected = programs::expand(BOTH_FAULT, OUTPUT_ROOM).printed;
    let (number, line) = ended(&expected);
    let told = message("expand", number, line, BOTH_FAULT);
    for out in ["/dev/stdout", "/dev/fd/1", "/proc/self/fd/1"] {
        let arguments = [&text, "-o", out, "-4", "/dev/null"];
        assert_answer(&called(&command("expand"), &arguments), number, &expected, &told, out);
        let to_file = redirected(&command("expand"), &arguments, &format!(">'{text}.out'"));
        assert_answer(&to_file, number, b"", &told, out);
        assert_eq!(fs::read(format!("{text}.out")).unwrap(), expected, "{out}");
    }
}

#[test]
fn the_output_can_go_to_standard_error() {
    let folder = Folder::new("error");
    let text = folder.write("text", TEXT);
    let output = called(&command("expand"), &[&text, "-o", "/dev/stderr"]);
    assert_answer(&output, 0, b"END 0 6 4\n", b"B\n", "-o /dev/stderr");
    folder.write("both", BOTH);
    let both = folder.path().join("both");
    for arguments in [["-o", "/dev/fd/2"], ["-4", "/dev/stderr"], ["--report", "/proc/self/fd/2"]] {
        let arguments = [&[both.to_str().unwrap()], &arguments[..], &["-4", "/dev/null"][..]].concat();
        let arguments = if arguments[1] == "-4" { &arguments[..3] } else { &arguments[..] };
        let full = redirected(&command("expand"), arguments, "2>/dev/full");
        assert_answer(&full, 106, b"", b"", arguments);
    }
}

/// Channel 4 and the report can go to standard output too, and stay out of the file for the output.
#[test]
fn other_results_can_go_to_standard_output() {
    let folder = Folder::new("others");
    folder.write("text", BOTH);
    for (option, other, result) in
        [("-4", "--report", "style\n"), ("--report", "-4", "template,calls\n2,1\n0,1\n")]
    {
        let arguments = ["text", "-o", "out", option, "/dev/stdout", other, "/dev/null"];
        let output = called_in(&folder, &command("expand"), &arguments);
        assert_answer(&output, 0, format!("{result}END 0 6 3\n").as_bytes(), b"", arguments);
        assert_eq!(read(&folder.path().join("out")), b"plain\n", "{arguments:?}");
        for place in ["/dev/stdout", "/dev/fd/1", "/proc/self/fd/1"] {
            let arguments = ["text", option, place, other, "/dev/null"];
            let output = called_in(&folder, &command("expand"), &arguments);
            assert_answer(&output, 0, format!("{result}plain\nEND 0 6 3\n").as_bytes(), b"", arguments);
        }
        let arguments = ["text", option, "/dev/stderr", other, "/dev/null"];
        let output = called_in(&folder, &command("expand"), &arguments);
        assert_answer(&output, 0, b"plain\nEND 0 6 3\n", result.as_bytes(), arguments);
        let to_file = format!("\"$0\" text {option} /dev/stdout {other} /dev/null >out");
        assert_answer(&scripted(&folder, "expand", &to_file), 0, b"", b"", &to_file);
        let expected = format!("{result}plain\nEND 0 6 3\n");
        assert_eq!(read(&folder.path().join("out")), expected.as_bytes(), "{to_file}");
        let full = format!("\"$0\" text {option} /dev/stdout {other} /dev/null >/dev/full");
        assert_refused(&scripted(&folder, "expand", &full), 105, "expand", &full);
    }
}

#[test]
fn the_output_can_go_to_a_pipe() {
    let folder = Folder::new("pipe");
    let text = folder.write("text", FAULT);
    let out = folder.path().join("out").to_str().unwrap().to_string();
    make_pipe(&out);
    let from = out.clone();
    let reader = thread::spawn(move || fs::read(from).unwrap());
    let output = called(&command("expand"), &["-o", &out, &text]);
    assert_answer(&output, 15, b"END 15 6 3\n", &message("expand", 15, 6, FAULT), "a pipe");
    assert_eq!(reader.join().unwrap(), b"x\n");
}

/// Files that are not there before.
#[test]
fn the_command_makes_its_files() {
    let folder = Folder::new("made");
    folder.write("text", BOTH);
    let arguments = ["text", "-o", "out", "-4", "second", "--report", "uses"];
    let output = called_in(&folder, &command("expand"), &arguments);
    assert_answer(&output, 0, b"END 0 6 3\n", b"", arguments);
    let made = [("out", &b"plain\n"[..]), ("second", b"style\n"), ("uses", b"template,calls\n2,1\n0,1\n")];
    for (name, bytes) in made {
        assert_eq!(folder.held()[name].as_deref(), Some(bytes), "{name}");
    }
    assert_eq!(folder.held().len(), 4);
}

/// A file of 65,536 bytes, the most that a run writes.
#[test]
fn the_output_can_be_long() {
    let body = "4096!F7\nchannel 3: line!F1\n!F8\n4096!F7\nchannel 4: line!F14\n!F8\n";
    let text = format!("$!$!0 (+-*/)\nGO$\n{body}$$\nGO\n");
    compare_expand(&command("expand"), text.as_bytes(), &["text", "-4", "second", "-o", "out"]);
    compare_expand(&command("expand"), text.as_bytes(), &["-4", "second"]);
}

/// Two of the files that a call names, as arguments. What follows `--` is the file of the text.
fn with_two(first: [&str; 2], second: [&str; 2]) -> Vec<String> {
    let row = match first[0] {
        "--" => [second, first].concat(),
        _ => [first, second, ["--", "text"]].concat(),
    };
    row.into_iter().map(str::to_string).collect()
}

/// No file is used twice: not by one name, nor by two names of a file, be it there or not.
#[test]
fn no_file_is_named_twice() {
    let folder = Folder::new("twice");
    folder.write("text", BOTH);
    let same = &folder.write("same", BOTH)[..];
    symlink("same", folder.path().join("link")).unwrap();
    fs::hard_link(same, folder.path().join("hard")).unwrap();
    symlink("new", folder.path().join("to-new")).unwrap();
    let held = folder.held();
    let pairs = format!(
        "same same, new new, same ./same, ./same same, same link, link hard, same {same}, \
        new ./new, to-new new, {} new",
        folder.path().join("new").display()
    );
    let options = ["--", "-o", "-4", "--report"];
    for (first, second) in pairs.split(", ").map(|pair| pair.split_once(' ').unwrap()) {
        for at in 0..options.len() {
            for other in &options[at + 1..] {
                let arguments = with_two([options[at], first], [other, second]);
                let output = called_in(&folder, &command("expand"), &arguments);
                assert_refused(&output, 100, "expand", arguments);
            }
        }
    }
    let others = [
        "-o /dev/stdout -4 /dev/fd/1",
        "-4 /dev/stderr --report /dev/stderr",
        "-o /dev/null -4 same --report same",
    ];
    for call in others {
        let arguments: Vec<&str> = ["text"].into_iter().chain(call.split(' ')).collect();
        assert_refused(&called_in(&folder, &command("expand"), &arguments), 100, "expand", call);
    }
    assert_eq!(folder.held(), held);
}

#[test]
fn nothing_may_be_named_twice() {
    let folder = Folder::new("nothing");
    folder.write("text", BOTH);
    for null in ["/dev/null", "/dev/./null"] {
        let arguments = ["text", "-o", null, "-4", "/dev/null", "--report", "/dev/null"];
        let output = called_in(&folder, &command("expand"), &arguments);
        assert_answer(&output, 0, b"END 0 6 3\n", b"", arguments);
    }
    let output = called_in(&folder, &command("expand"), &["/dev/null", "-o", "/dev/null"]);
    assert_answer(&output, 3, b"END 3 1 0\n", &message("expand", 3, 1, b""), "an empty text");
}

/// Nor is a file named that is open already: as the text on standard input, or where standard output or
/// standard error goes to. A shell empties those itself; what is appended to keeps what it held.
#[test]
fn no_file_is_named_that_is_open() {
    let folder = Folder::new("open");
    folder.write("text", BOTH);
    symlink("/dev/stdout", folder.path().join("link")).unwrap();
    let calls = [
        "-o text <text",
        "-4 second -o /dev/stdin <text",
        "text -4 res >>res",
        "text -4 second -o res >>res",
        "text -4 second --report res >>res",
        "text -4 second -o res 2>>res",
        "text -4 link >>res",
        "text >>text",
    ];
    for call in calls {
        folder.write("res", "kept");
        let output = scripted(&folder, "expand", &format!("\"$0\" {call}"));
        assert_eq!((output.status.code(), &output.stdout[..]), (Some(100), &b""[..]), "{call}");
        let left = read(&folder.path().join("res"));
        let said = [left.strip_prefix(b"kept").unwrap(), &output.stderr].concat();
        let is_told = said.starts_with(b"expand: ") && said.ends_with(b"; give a file of its own for each\n");
        assert!(is_told, "{call} says {}", said.escape_ascii());
        assert_eq!(read(&folder.path().join("text")), BOTH, "{call}");
        assert!(!folder.path().join("second").exists(), "{call}");
    }
}

/// A descriptor that the caller has opened keeps what it held, and where it stood.
#[test]
fn a_result_can_go_to_a_descriptor() {
    let folder = Folder::new("descriptor");
    folder.write("text", BOTH);
    folder.write("log", "before\n");
    let script = "exec 3>>log; echo first >&3; \"$0\" text -4 /dev/fd/3 --report /dev/null && echo last >&3";
    let output = scripted(&folder, "expand", script);
    assert_answer(&output, 0, b"plain\nEND 0 6 3\n", b"", script);
    assert_eq!(read(&folder.path().join("log")), b"before\nfirst\nstyle\nlast\n");
}

/// What a link names that is not there is made where a run begins, and not where the text is refused.
#[test]
fn a_link_to_no_file_is_followed() {
    let folder = Folder::new("link");
    symlink("target", folder.path().join("out")).unwrap();
    for (bytes, is_made) in [(&b"$"[..], false), (TEXT, true)] {
        folder.write("text", bytes);
        called_in(&folder, &command("expand"), &["text", "-o", "out"]);
        assert_eq!(folder.path().join("target").exists(), is_made);
    }
    assert_eq!(read(&folder.path().join("target")), b"B\n");
}

/// Neither a name that begins with a minus nor a shell that does not write over files is in the way.
#[test]
fn names_and_shells_are_taken_as_they_are() {
    let folder = Folder::new("as they are");
    folder.write("text", TEXT);
    folder.write("out", "before");
    let output = called_in(&folder, &command("expand"), &["-o", "new", "--", "-missing"]);
    assert_answer(&output, 102, b"", b"expand: -missing cannot be read\n", "-missing");
    let script = "sh -C \"$0\" text -o out";
    assert_answer(&scripted(&folder, "expand", script), 0, b"END 0 6 4\n", b"", script);
    assert_eq!(read(&folder.path().join("out")), b"B\n");
}

/// The lines that the documents give to scripts: the output alone, with the status of `sed`, and a
/// script that goes on only where all is done.
#[test]
fn scripts_take_the_output_alone() {
    let folder = Folder::new("scripts");
    for (bytes, number, output) in [(TEXT, 0, "B\n"), (FAULT, 15, "x\n"), (b"$", 3, "")] {
        folder.write("text", bytes);
        let piped = scripted(&folder, "expand", "\"$0\" text | sed '$d'");
        assert_eq!((piped.status.code(), &piped.stdout[..]), (Some(0), output.as_bytes()), "{number}");
        let script = "\"$0\" text -o out >end || exit; echo goes on";
        let went = scripted(&folder, "expand", script);
        let expected = if number == 0 { "goes on\n" } else { "" };
        assert_eq!((went.status.code(), &went.stdout[..]), (Some(number), expected.as_bytes()), "{number}");
    }
}
