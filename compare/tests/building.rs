//! The commands in a package and in a tree with sources: a program that is missing, that breaks off,
//! or that is to be built; and `tools/build`. What the kit does is played by a script.

mod called;
mod files;

use std::fs::{self, File};
use std::path::{Path, PathBuf};
use std::process::{Command, Output};
use std::thread;
use std::time::{Duration, SystemTime};

use called::*;
use files::{files, read, root, write_script, Folder};

/// Copies files and folders of the repository. Another program does it, since a file that is open for
/// writing here could not be run by a call that is made at the same time.
fn copy(names: &[&str], to: &Path) {
    let mut copy = Command::new("cp");
    assert!(copy.arg("-r").args(names).arg(to).current_dir(root()).status().unwrap().success());
}

/// A copy of the commands and of what they read, in a folder of its own: a package, or the
/// repository where it gets sources.
fn copied(name: &str) -> Folder {
    let folder = Folder::new(name);
    for below in ["docs", "bin"] {
        fs::create_dir(folder.path().join(below)).unwrap();
    }
    copy(&["expand", "check", "why", "commands", "VERSION"], folder.path());
    copy(&["docs/NUMBERS.md"], &folder.path().join("docs"));
    folder.write("text", TEXT);
    folder
}

#[test]
fn a_package_has_its_programs() {
    let package = copied("a package");
    for (name, of) in COMMANDS {
        let (path, arguments) = (package.path().join(name), usual(name, "text"));
        assert_refused(&called_in(&package, &path, &arguments), 101, name, "no program");
        package.write(&format!("bin/{of}"), "no program");
        assert_refused(&called_in(&package, &path, &arguments), 101, name, "a file that may not be run");
        fs::remove_file(package.path().join("bin").join(of)).unwrap();
        copy(&[&format!("target/bin/{of}")], &package.path().join("bin"));
        assert_usual(&called_in(&package, &path, &arguments), name, "text", "a package");
    }
    package.write("fault", FAULT);
    package.write("bad", b"$");
    for (name, text, number, line, bytes) in
        [("expand", "fault", 15, 6, FAULT), ("check", "bad", 3, 1, b"$"), ("why", "bad", 3, 1, b"$")]
    {
        let output = called_in(&package, &package.path().join(name), &usual(name, text));
        assert_eq!(output.stderr, message(name, number, line, bytes), "{name}");
    }
}

/// A command alone, without the folder that it shares with the others.
#[test]
fn a_command_alone_is_told() {
    let folder = Folder::new("alone");
    for (name, _) in COMMANDS {
        copy(&[name], folder.path());
        let path = folder.path().join(name);
        assert_refused(&called_in(&folder, &path, &usual(name, "text")), 101, name, "alone");
        assert_eq!(redirected(&path, &usual(name, "text"), "2>&-").status.code(), Some(101), "{name}");
    }
}

/// A package that lacks one of the files that its commands read.
#[test]
fn a_package_with_a_part_missing_is_told() {
    let package = copied("a part");
    let parts = files(&root().join("commands"), "awk");
    let parts: Vec<String> = parts
        .iter()
        .map(|part| format!("commands/{}", part.file_name().unwrap().to_str().unwrap()))
        .collect();
    assert!(parts.len() >= 4);
    for (name, of) in COMMANDS {
        copy(&[&format!("target/bin/{of}")], &package.path().join("bin"));
        for part in parts.iter().map(String::as_str).chain(["docs/NUMBERS.md"]) {
            let (path, away) = (package.path().join(part), package.path().join("away"));
            fs::rename(&path, &away).unwrap();
            let output = called_in(&package, &package.path().join(name), &usual(name, "text"));
            assert_refused(&output, 101, name, part);
            assert!(output.stderr.ends_with(format!("{part} is missing\n").as_bytes()), "{part}");
            fs::rename(&away, &path).unwrap();
        }
        assert_usual(
            &called_in(&package, &package.path().join(name), &usual(name, "text")),
            name,
            "text",
            "whole",
        );
    }
}

#[test]
fn a_program_that_breaks_off_is_told() {
    let package = copied("broken");
    for (name, of) in COMMANDS {
        for (script, why) in [
            ("exit 1", ""),
            ("echo END 0 6 4; exit 3", ""),
            ("echo this machine is another >&2; echo and more >&2; exit 1", ": this machine is another"),
        ] {
            write_script(&package.path().join("bin").join(of), script);
            let output = called_in(&package, &package.path().join(name), &usual(name, "text"));
            let told = format!("{name}: the program broke off{why}\n");
            assert_answer(&output, 104, b"", told.as_bytes(), script);
        }
    }
}

/// A program that ends well, and says something in place of what it prints: the files stay.
#[test]
fn a_program_that_prints_nothing_is_told() {
    let package = copied("silent");
    for name in ["out", "second", "uses"] {
        package.write(name, "kept");
    }
    for (_, of) in COMMANDS {
        write_script(&package.path().join("bin").join(of), "echo it cannot be written >&2");
    }
    let held = package.held();
    for (name, _) in COMMANDS {
        let output = called_in(&package, &package.path().join(name), &usual(name, "text"));
        let told = format!("it cannot be written\n{name}: no temporary file can be made\n");
        assert_answer(&output, 103, b"", told.as_bytes(), name);
    }
    let files = ["text", "-o", "out", "-4", "second", "--report", "uses"];
    let output = called_in(&package, &package.path().join("expand"), &files);
    assert_eq!(output.status.code(), Some(103));
    assert!(package.held() == held);
}

/// What a program says beside what it prints is said too.
#[test]
fn what_a_program_says_is_said() {
    let package = copied("says");
    for (name, of) in COMMANDS {
        let script = format!("echo a word >&2\nexec '{}' \"$@\"", program(of).display());
        write_script(&package.path().join("bin").join(of), &script);
        let output = called_in(&package, &package.path().join(name), &usual(name, "text"));
        assert_answer(&output, 0, usual_row(name, "text").as_bytes(), b"a word\n", name);
    }
}

#[test]
fn a_program_that_is_killed_is_told() {
    let package = copied("killed");
    for (name, of) in COMMANDS {
        for signal in ["SEGV", "KILL", "ABRT"] {
            write_script(&package.path().join("bin").join(of), &format!("kill -{signal} $$"));
            let output = called_in(&package, &package.path().join(name), &usual(name, "text"));
            assert_refused(&output, 104, name, signal);
        }
    }
}

/// A small tree with sources and `tools/build`, and an `rt` of its own first on the PATH. Files get
/// times by hand, in seconds.
struct Tree(Folder);

/// An `rt` that takes its standard input, notes the crate and its call, and puts the crate's program or
/// library where `rt` puts it.
const BUILDS: &str = "cat >/dev/null; crate=${PWD##*/}; echo \"$crate $*\" >>../../kit/calls; mkdir -p out
    if [ \"$1\" = lib ]; then echo a library >out/libapi.a; else cp \"$PROGRAMS/$crate\" out; fi
    echo it is built; echo it was proved >&2";

/// The files that a program can be older than.
const SOURCES: [&str; 4] =
    ["crates.txt", "crates/part/src/main.rt", "crates/part/specs/Part.antt", "crates/part/proofs/Part.antt"];

impl Tree {
    fn new() -> Tree {
        let tree = Tree(copied("a tree"));
        for source in SOURCES {
            tree.0.write(source, "");
            tree.set_time(source, 1_000);
        }
        for crate_name in ["api", "expand", "check_text", "fit_line"] {
            fs::create_dir(tree.path(&format!("crates/{crate_name}"))).unwrap();
        }
        fs::create_dir(tree.path("tools")).unwrap();
        copy(&["tools/build"], &tree.path("tools"));
        tree.0.write("kit/calls", "");
        tree.set_rt(BUILDS);
        tree
    }

    fn set_rt(&self, script: &str) {
        write_script(&self.path("kit/rt"), script);
    }

    fn path(&self, name: &str) -> PathBuf {
        self.0.path().join(name)
    }

    fn set_time(&self, name: &str, seconds: u64) {
        let time = SystemTime::UNIX_EPOCH + Duration::from_secs(seconds);
        File::options().append(true).open(self.path(name)).unwrap().set_modified(time).unwrap();
    }

    /// A call of what the tree has, in another folder.
    fn call_of(&self, name: &str) -> Command {
        let kit = format!("{}:{}", self.path("kit").display(), std::env::var("PATH").unwrap());
        let mut call = Command::new(self.path(name));
        call.current_dir("/").env("PATH", kit).env("PROGRAMS", root().join("target/bin"));
        call
    }

    /// Calls a command on the tree's text.
    fn call(&self, name: &str) -> Output {
        let text = self.path("text");
        answered(self.call_of(name).args(usual(name, text.to_str().unwrap())), b"")
    }

    /// Which calls of `rt` were noted since this was last asked.
    fn noted(&self) -> String {
        let calls = String::from_utf8(read(&self.path("kit/calls"))).unwrap();
        self.0.write("kit/calls", "");
        calls
    }

    /// Calls a command, which has its program built, or not, and answers as it always does.
    fn assert_called(&self, name: &str, of: &str, is_built: bool, case: &str) {
        self.noted();
        let output = self.call(name);
        let row = usual_row(name, self.path("text").to_str().unwrap());
        assert_eq!((output.status.code(), &output.stdout[..]), (Some(0), row.as_bytes()), "{name} {case}");
        let calls = if is_built { format!("{of} run\n") } else { String::new() };
        assert_eq!(self.noted(), calls, "{name} {case}");
        let said = String::from_utf8(output.stderr).unwrap();
        assert_eq!(said.lines().count(), usize::from(is_built), "{name} {case} says {said}");
        assert!(!is_built || said.starts_with(&format!("{name}: ")), "{name} {case} says {said}");
    }
}

/// A program is built on first use, and again where a source is newer.
#[test]
fn a_program_is_built_where_it_is_not() {
    let tree = Tree::new();
    for (name, of) in COMMANDS {
        tree.assert_called(name, of, true, "first");
        tree.assert_called(name, of, false, "again");
        let built = format!("target/bin/{of}");
        for source in if name == "expand" { &SOURCES[..] } else { &SOURCES[1..2] } {
            tree.set_time(&built, 2_000);
            tree.assert_called(name, of, false, "older sources");
            tree.set_time(&built, 2_000);
            tree.set_time(source, 3_000);
            tree.assert_called(name, of, true, source);
            tree.assert_called(name, of, false, source);
            tree.set_time(source, 1_000);
        }
    }
}

/// Calls that are made at the same time have it built once.
#[test]
fn a_program_is_built_once() {
    let tree = Tree::new();
    tree.set_rt(&format!("sleep 0.3\n{BUILDS}"));
    let outputs = thread::scope(|scope| {
        let calls = [0; 3].map(|_| scope.spawn(|| tree.call("check")));
        calls.map(|call| call.join().unwrap())
    });
    let row = usual_row("check", tree.path("text").to_str().unwrap());
    for output in outputs {
        assert_eq!((output.status.code(), &output.stdout[..]), (Some(0), row.as_bytes()));
    }
    assert_eq!(read(&tree.path("kit/calls")).iter().filter(|byte| **byte == b'\n').count(), 1);
}

/// Where it cannot be built, what `rt` said goes to standard error, and an older program is not run.
#[test]
fn a_program_that_is_not_built_is_told() {
    let tree = Tree::new();
    for (name, of) in COMMANDS {
        tree.assert_called(name, of, true, "first");
        tree.set_time(&format!("target/bin/{of}"), 500);
    }
    tree.set_rt("echo one line >&2; echo another >&2; exit 1");
    for (name, of) in COMMANDS {
        for _ in 0..2 {
            let output = tree.call(name);
            let said = String::from_utf8(output.stderr).unwrap();
            assert_eq!((output.status.code(), &output.stdout[..]), (Some(101), &b""[..]), "{name}");
            assert!(said.contains("\none line\nanother\n"), "{said}");
            assert!(said.lines().last().unwrap().starts_with(&format!("{name}: ")), "{said}");
            let _ = fs::remove_file(tree.path(&format!("target/bin/{of}")));
        }
    }
}

/// A build that leaves no program is one that failed.
#[test]
fn a_build_without_a_program_is_told() {
    let tree = Tree::new();
    fs::create_dir_all(tree.path("target/bin")).unwrap();
    tree.set_rt("exit 0");
    for (name, of) in COMMANDS {
        let output = tree.call(name);
        assert_eq!((output.status.code(), &output.stdout[..]), (Some(101), &b""[..]), "{name}");
        assert!(!tree.path(&format!("target/bin/{of}")).exists(), "{name} leaves a program that is none");
    }
}

/// A build takes nothing of standard input. A program that is as new as its sources is run without
/// anything of the tree being written.
#[test]
fn a_build_leaves_standard_input() {
    let tree = Tree::new();
    for (name, row) in [("expand", usual_row("expand", "")), ("check", "- 0 5\n".to_string())] {
        let told = format!(
            "{name}: proving and building the program, which takes some minutes where little is proved yet\n"
        );
        let built = answered(&mut tree.call_of(name), TEXT);
        assert_answer(&built, 0, row.as_bytes(), told.as_bytes(), name);
        fs::remove_file(tree.path("target/building")).unwrap();
        assert_answer(&answered(&mut tree.call_of(name), TEXT), 0, row.as_bytes(), b"", name);
        assert!(!tree.path("target/building").exists(), "{name}");
    }
}

/// A program that runs is replaced.
#[test]
fn a_program_that_runs_is_built_again() {
    let tree = Tree::new();
    fs::create_dir_all(tree.path("target/bin")).unwrap();
    let old = tree.path("target/bin/check_text");
    assert!(Command::new("cp").arg("/bin/sleep").arg(&old).status().unwrap().success());
    assert!(Command::new("touch").args(["-d", "@500"]).arg(&old).status().unwrap().success());
    let mut runs = Command::new(&old).arg("60").spawn().unwrap();
    let output = tree.call("check");
    runs.kill().unwrap();
    runs.wait().unwrap();
    assert_eq!(output.status.code(), Some(0), "{}", String::from_utf8_lossy(&output.stderr));
}

// ---- tools/build

/// The library and the programs, or what is named, each at its place and nothing beside it.
#[test]
fn the_library_and_the_programs_are_built() {
    let tree = Tree::new();
    let all = ["api", "expand", "check_text", "fit_line"];
    for names in [&[][..], &all[..1], &["fit_line", "check_text"]] {
        let _ = fs::remove_dir_all(tree.path("target"));
        assert!(answered(tree.call_of("tools/build").args(names), b"").status.success(), "{names:?}");
        let wanted = if names.is_empty() { &all[..] } else { names };
        let call_of = |name: &&str| format!("{name} {}\n", if *name == "api" { "lib" } else { "run" });
        assert_eq!(tree.noted(), wanted.iter().map(call_of).collect::<String>());
        let built = |name: &&str| match *name {
            "api" => "staticlib/libapi.a".to_string(),
            _ => format!("bin/{name}"),
        };
        let folders = fs::read_dir(tree.path("target")).unwrap().map(|entry| entry.unwrap().path());
        let count: usize = folders.map(|folder| fs::read_dir(folder).unwrap().count()).sum();
        assert!(wanted.iter().map(built).all(|file| tree.path("target").join(file).is_file()), "{names:?}");
        assert_eq!(count, wanted.len(), "{names:?}");
    }
}

/// The first that cannot be built ends it.
#[test]
fn a_build_ends_at_the_first_fault() {
    let tree = Tree::new();
    tree.set_rt(&format!("[ \"${{PWD##*/}}\" != expand ] || exit 1\n{BUILDS}"));
    assert!(!answered(&mut tree.call_of("tools/build"), b"").status.success());
    assert_eq!(tree.noted(), "api lib\n");
}
