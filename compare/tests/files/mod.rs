//! The repository's files, files and folders of a test's own, and `expand` called on the
//! repository's texts.

// No test file uses all of it.
#![allow(dead_code)]

use std::collections::BTreeMap;
use std::ffi::OsStr;
use std::fs::{self, File};
use std::os::unix::fs::PermissionsExt;
use std::path::{Path, PathBuf};
use std::process::{Command, Output, Stdio};
use std::sync::atomic::{AtomicUsize, Ordering};
use std::sync::LazyLock;

pub fn root() -> PathBuf {
    Path::new(env!("CARGO_MANIFEST_DIR")).join("..").canonicalize().unwrap()
}

pub fn read(path: &Path) -> Vec<u8> {
    fs::read(path).unwrap_or_else(|_| panic!("{} cannot be read", path.display()))
}

/// The files of a folder with an ending, in order of their names.
pub fn files(folder: &Path, ending: &str) -> Vec<PathBuf> {
    let entries = fs::read_dir(folder).unwrap_or_else(|_| panic!("{} cannot be read", folder.display()));
    let mut files: Vec<PathBuf> = entries.map(|entry| entry.unwrap().path()).collect();
    files.retain(|file| file.extension() == Some(OsStr::new(ending)));
    files.sort();
    files
}

/// The files with an ending in a folder and all folders below it.
pub fn files_below(folder: &Path, ending: &str) -> Vec<PathBuf> {
    let entries = fs::read_dir(folder).unwrap_or_else(|_| panic!("{} cannot be read", folder.display()));
    let folders = entries.map(|entry| entry.unwrap().path()).filter(|path| path.is_dir());
    folders.flat_map(|below| files_below(&below, ending)).chain(files(folder, ending)).collect()
}

/// A path that no other test has; tests run at the same time.
fn own_path(name: &str) -> PathBuf {
    static COUNT: AtomicUsize = AtomicUsize::new(0);
    let own = format!("{}-{}-{name}", std::process::id(), COUNT.fetch_add(1, Ordering::Relaxed));
    Path::new(env!("CARGO_TARGET_TMPDIR")).join(own)
}

/// A file for a test, which is removed with this.
pub struct Scratch(PathBuf);

impl Scratch {
    pub fn new(name: &str, bytes: &[u8]) -> Scratch {
        let path = own_path(name);
        fs::write(&path, bytes).unwrap();
        Scratch(path)
    }

    pub fn path(&self) -> &Path {
        &self.0
    }

    pub fn name(&self) -> &str {
        self.0.to_str().unwrap()
    }
}

impl Drop for Scratch {
    fn drop(&mut self) {
        let _ = fs::remove_file(&self.0);
    }
}

/// An empty folder for a test, which is removed with this and all that it holds by then.
pub struct Folder(PathBuf);

impl Folder {
    pub fn new(name: &str) -> Folder {
        let path = own_path(name);
        fs::create_dir(&path).unwrap();
        Folder(path)
    }

    pub fn path(&self) -> &Path {
        &self.0
    }

    /// Writes a file of the folder, and gives its path.
    pub fn write(&self, name: &str, bytes: impl AsRef<[u8]>) -> String {
        let path = self.0.join(name);
        fs::create_dir_all(path.parent().unwrap()).unwrap();
        fs::write(&path, bytes).unwrap();
        path.into_os_string().into_string().unwrap()
    }

    /// What it holds: each name with the file's bytes, which a folder or a pipe lacks.
    pub fn held(&self) -> BTreeMap<String, Option<Vec<u8>>> {
        let entries = fs::read_dir(&self.0).unwrap().map(|entry| entry.unwrap());
        let bytes = |path: PathBuf| path.is_file().then(|| read(&path));
        entries.map(|entry| (entry.file_name().into_string().unwrap(), bytes(entry.path()))).collect()
    }
}

impl Drop for Folder {
    fn drop(&mut self) {
        let _ = fs::remove_dir_all(&self.0);
    }
}

/// What each number means, to the letter.
pub fn meanings() -> BTreeMap<u64, String> {
    cells_below("what it means")
}

/// The cells of the table in docs/NUMBERS.md below these words, by number.
pub fn cells_below(words: &str) -> BTreeMap<u64, String> {
    let document = document("docs/NUMBERS.md");
    let rows = table(&document, "number");
    let column = rows[0].iter().position(|cell| *cell == words).expect("a column of the table");
    rows[1..].iter().map(|row| (row[0].parse().unwrap(), row[column].to_string())).collect()
}

pub fn document(path: &str) -> String {
    String::from_utf8(read(&root().join(path))).unwrap()
}

/// The rows of a document's first table whose header begins with this cell, the header first.
pub fn table<'a>(document: &'a str, first: &str) -> Vec<Vec<&'a str>> {
    let is_header = |line: &&str| cells(line).is_some_and(|row| row[0] == first);
    let mut rows = document.lines().skip_while(|line| !is_header(line)).map_while(cells);
    let header = rows.next().unwrap_or_else(|| panic!("no table of {first}"));
    [header].into_iter().chain(rows.skip(1)).collect()
}

/// The cells of a table's row, without the blanks around them.
fn cells(row: &str) -> Option<Vec<&str>> {
    let within = row.strip_prefix('|')?.strip_suffix('|')?;
    Some(within.split('|').map(str::trim).collect())
}

/// A PATH with an `rt` in front that refuses. No test proves or builds: a command whose program is
/// missing, or older than its sources, answers 101 at once.
pub static WITHOUT_KIT: LazyLock<String> = LazyLock::new(|| {
    let folder = Path::new(env!("CARGO_TARGET_TMPDIR")).join("without-kit");
    fs::create_dir_all(&folder).unwrap();
    write_script(&folder.join("rt"), "echo 'run `tools/build` first'; exit 1");
    format!("{}:{}", folder.display(), std::env::var("PATH").unwrap())
});

/// Writes a program that a shell carries out.
pub fn write_script(path: &Path, script: &str) {
    fs::write(path, format!("#!/bin/sh\n{script}\n")).unwrap();
    fs::set_permissions(path, fs::Permissions::from_mode(0o755)).unwrap();
}

/// A call of a program or command, which builds nothing.
pub fn call(path: impl AsRef<OsStr>) -> Command {
    let mut call = Command::new(path);
    call.env("PATH", &*WITHOUT_KIT);
    call
}

/// What a call of a program of the repository answers.
pub fn answer(program: &str, with: impl FnOnce(&mut Command) -> &mut Command) -> Output {
    let path = root().join(program);
    with(&mut call(&path))
        .output()
        .unwrap_or_else(|_| panic!("{} cannot be run: run `tools/build` first", path.display()))
}

/// What `expand` answers with a file as its standard input.
pub fn expanded(program: &str, text: &Path) -> Output {
    let file = File::open(text).unwrap_or_else(|_| panic!("{} cannot be opened", text.display()));
    answer(program, |command| command.stdin(Stdio::from(file)))
}

/// The options of `expand` that name a file, in the order in which they are given, and
/// the endings of the files beside a text that say what is written there.
pub const OPTIONS: [(&str, &str); 2] = [("-4", "second"), ("--report", "report")];

/// What `expand` answers for a file and these options with a file each, and what it
/// writes to those.
pub fn expanded_with(program: &str, text: &Path, options: &[&str]) -> (Output, Vec<Vec<u8>>) {
    let files: Vec<Scratch> =
        options.iter().map(|option| Scratch::new(option, b"what was there before")).collect();
    let output = answer(program, |command| {
        let named = options.iter().zip(&files).flat_map(|(option, file)| [option, file.name()]);
        command.arg(text).args(named)
    });
    (output, files.iter().map(|file| read(file.path())).collect())
}

/// The files beside a text that say what is written to the file of an option, each with
/// its option.
fn beside(text: &Path) -> Vec<(&'static str, PathBuf)> {
    let files = OPTIONS.map(|(option, ending)| (option, text.with_extension(ending)));
    files.into_iter().filter(|(_, file)| file.is_file()).collect()
}

/// Compares what `expand` prints for a text with the file beside it. Where there is one
/// for the second output too, channel 4 has its room; where there is one for the report,
/// that is asked for.
pub fn assert_expanded(text: &Path) {
    let (program, beside) = ("target/bin/expand", beside(text));
    let output = if beside.is_empty() {
        expanded(program, text)
    } else {
        let options: Vec<&str> = beside.iter().map(|(option, _)| *option).collect();
        let (output, written) = expanded_with(program, text, &options);
        for (bytes, (_, file)) in written.iter().zip(&beside) {
            assert_bytes(bytes, file);
        }
        output
    };
    assert!(output.status.success(), "{}: expand did not end well", text.display());
    assert!(output.stderr.is_empty(), "{}: expand wrote to standard error", text.display());
    assert_bytes(&output.stdout, &text.with_extension("out"));
}

/// Compares bytes with those of a file. Long ones are not printed.
fn assert_bytes(got: &[u8], path: &Path) {
    let expected = read(path);
    if expected.len() < 2_000 {
        assert_eq!(got.escape_ascii().to_string(), expected.escape_ascii().to_string(), "{}", path.display());
    }
    assert!(got == expected, "{}", path.display());
}
