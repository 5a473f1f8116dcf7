//! The guide's listings are no words of its own: each is part of an example, or of what a command
//! that the guide shows prints, says or writes. The same holds for the commands of README.md and
//! for the message in docs/NUMBERS.md. The examples and sections that they name are there.
//!
//! A listing is a block that is indented by four blanks. Where its first line begins with `./`, or
//! gives a command files of the examples, it is a block of commands, one to a line, and each is run.
//! A listing behind a paragraph that ends with `prints`, `says` or `has` is all of what is printed or
//! said, or all of a file.

mod files;

use std::collections::BTreeSet;
use std::fs;
use std::os::unix::fs::symlink;
use std::path::PathBuf;
use std::process::Stdio;
use std::time::SystemTime;

use files::{call, document, files, read, root, table, Folder};

const GUIDE: &str = "docs/TEMPLATES.md";
const NUMBERS: &str = "docs/NUMBERS.md";
const README: &str = "README.md";

// ---- a document's parts

/// A heading, a paragraph or a table, or a listing, without the blanks in front of its lines.
#[derive(Clone, Debug, PartialEq)]
struct Part<'a> {
    /// The number of its first line.
    line: usize,
    is_listing: bool,
    lines: Vec<&'a str>,
}

impl<'a> Part<'a> {
    fn text(&self) -> String {
        self.lines.join("\n")
    }

    fn text_and_end(&self) -> String {
        self.text() + "\n"
    }

    fn is_heading(&self) -> bool {
        !self.is_listing && self.lines[0].starts_with('#')
    }

    fn has_commands(&self) -> bool {
        self.is_listing && (self.lines[0].starts_with("./") || is_piped(self.lines[0]))
    }

    /// Whether a line that follows after so many empty ones belongs to it too: empty lines stand
    /// inside a listing, and end anything else.
    fn takes(&self, line: &str, is_listing: bool, empty: usize) -> bool {
        let goes_on = is_listing || empty == 0 && !self.is_heading() && !line.starts_with('#');
        self.is_listing == is_listing && goes_on
    }
}

fn parts(document: &str) -> Vec<Part<'_>> {
    let mut parts: Vec<Part> = vec![];
    let mut empty = 0;
    for (line, number) in document.lines().zip(1..) {
        if line.trim().is_empty() {
            empty += 1;
            continue;
        }
        let (is_listing, line) = line.strip_prefix("    ").map_or((false, line), |line| (true, line));
        match parts.last_mut().filter(|part| part.takes(line, is_listing, empty)) {
            Some(part) => part.lines.extend(vec![""; empty].into_iter().chain([line])),
            None => parts.push(Part { line: number, is_listing, lines: vec![line] }),
        }
        empty = 0;
    }
    parts
}

/// What stands in a text between two of these signs.
fn between(text: &str, sign: char) -> Vec<&str> {
    text.split(sign).skip(1).step_by(2).collect()
}

/// The example that the words between backticks name.
fn example(words: &str) -> Option<String> {
    match words.strip_prefix("guide/") {
        Some(name) => Some(format!("examples/guide/{name}.text")),
        None => (words.starts_with("examples/") && words.ends_with(".text")).then(|| words.to_string()),
    }
}

/// The texts that a command names.
fn texts_of(command: &str) -> impl Iterator<Item = String> + '_ {
    command.split(' ').filter(|word| word.ends_with(".text")).map(str::to_string)
}

fn is_command(line: &str) -> bool {
    is_piped(line) || ["./expand ", "./check ", "./why "].iter().any(|command| line.starts_with(command))
}

/// Whether files of the examples are given to a command as its standard input.
fn is_piped(line: &str) -> bool {
    line.starts_with("cat examples/") && line.contains(" | ./")
}

// ---- the checker

/// What a document has beside the guide's forms.
#[derive(Clone, Copy, PartialEq)]
enum Form {
    /// Nothing.
    Guide,
    /// Other commands, which are passed over.
    Readme,
    /// Commands in the text, between backticks, each with what it prints in the next ones.
    Numbers,
}

/// What a listing can be a part of.
#[derive(Clone, Copy, PartialEq)]
enum Kind {
    /// A text, or lines of input.
    Input,
    Printed,
    Said,
    /// What is written to a file.
    Written,
}

/// The last words of a paragraph whose listing is all of such a source.
const WHOLE: [(&str, Kind); 3] = [("prints", Kind::Printed), ("says", Kind::Said), ("has", Kind::Written)];

/// What other commands begin with.
const OTHERS: [&str; 7] = [".ci/", "tools/", "cc ", "cargo ", "python3 ", "rt ", "rustc "];

/// Goes through a document.
struct Checker {
    form: Form,
    /// The commands are run here. It has a link to each file and folder of the repository, so that
    /// what they write lands beside those.
    folder: Folder,
    /// The texts that were named last.
    texts: Vec<String>,
    /// What the last command printed, what it said, and the files that it wrote.
    results: Vec<(Kind, Vec<u8>)>,
    /// Of what the next listing is all, by the word before it.
    whole: Option<(&'static str, Kind)>,
    /// Whether a command was run since a paragraph named texts.
    has_run: bool,
    /// The line of the block of commands whose results are still to be shown.
    unshown: Option<usize>,
    /// How many commands were run, and how many listings were found.
    commands: usize,
    listings: usize,
    /// What is wrong, with the line of the document.
    faults: Vec<String>,
}

fn check(document: &str, form: Form) -> Checker {
    let folder = Folder::new("guide");
    for entry in fs::read_dir(root()).unwrap().map(|entry| entry.unwrap()) {
        symlink(entry.path(), folder.path().join(entry.file_name())).unwrap();
    }
    let (texts, results, faults) = (vec![], vec![], vec![]);
    let (whole, has_run, unshown, commands, listings) = (None, false, None, 0, 0);
    let mut checker =
        Checker { form, folder, texts, results, whole, has_run, unshown, commands, listings, faults };
    for part in parts(document) {
        checker.check(&part);
    }
    checker.ask_shown();
    checker
}

impl Checker {
    fn check(&mut self, part: &Part) {
        if !part.is_listing {
            self.read_text(part);
        } else if part.has_commands() {
            self.run_commands(part);
        } else if !self.is_passed_over(part.lines[0]) {
            self.find_listing(part);
        }
    }

    fn fault(&mut self, line: usize, words: String) {
        self.faults.push(format!("line {line}: {words}"));
    }

    fn is_passed_over(&self, line: &str) -> bool {
        self.form == Form::Readme && OTHERS.iter().any(|other| line.starts_with(other))
    }

    /// The texts of a paragraph or a block of commands take the place of those before.
    fn name_texts(&mut self, line: usize, texts: Vec<String>) {
        for text in texts.iter().filter(|text| !root().join(text).is_file()) {
            self.fault(line, format!("{text} is no file"));
        }
        if !texts.is_empty() {
            (self.texts, self.has_run) = (texts, false);
        }
    }

    fn read_text(&mut self, part: &Part) {
        let text = part.text();
        let last = text.split_whitespace().last();
        self.whole = WHOLE.into_iter().find(|(word, _)| last == Some(word));
        for (line, number) in part.lines.iter().zip(part.line..) {
            if line.starts_with([' ', '\t']) || line.starts_with("```") {
                self.fault(number, "a listing is indented by four blanks".to_string());
            }
        }
        self.name_texts(part.line, between(&text, '`').into_iter().filter_map(example).collect());
        if self.form == Form::Numbers {
            let words = between(&text, '`');
            let is_example = |words: &str| is_command(words) && texts_of(words).count() > 0;
            for pair in words.windows(2).filter(|pair| is_example(pair[0])) {
                self.run(pair[0]);
                if self.results[0].1 != format!("{}\n", pair[1]).as_bytes() {
                    self.fault(part.line, format!("{} does not print {}", pair[0], pair[1]));
                }
            }
        }
    }

    fn run_commands(&mut self, part: &Part) {
        self.ask_shown();
        self.name_texts(part.line, part.lines.iter().flat_map(|line| texts_of(line)).collect());
        for (line, number) in part.lines.iter().zip(part.line..) {
            if is_command(line) {
                self.run(line);
                self.unshown = Some(part.line);
            } else if !self.is_passed_over(line) {
                self.fault(number, format!("{line:?} is no command"));
            }
        }
    }

    fn run(&mut self, command: &str) {
        let before = self.written();
        let mut shell = call("sh");
        shell.args(["-c", command]).current_dir(self.folder.path()).stdin(Stdio::null());
        let output = shell.output().unwrap();
        let files = self.written().into_iter().filter(|file| !before.contains(file));
        let files = files.map(|(path, _)| (Kind::Written, read(&path)));
        let said = [(Kind::Printed, output.stdout), (Kind::Said, output.stderr)];
        self.results = said.into_iter().chain(files).collect();
        self.has_run = true;
        self.commands += 1;
    }

    /// The files that commands wrote, each with its time.
    fn written(&self) -> BTreeSet<(PathBuf, SystemTime)> {
        let entries = fs::read_dir(self.folder.path()).unwrap().map(|entry| entry.unwrap());
        let files = entries.filter(|entry| entry.file_type().unwrap().is_file());
        files.map(|entry| (entry.path(), entry.metadata().unwrap().modified().unwrap())).collect()
    }

    /// What a listing can be a part of: the texts that are named and what stands beside them, and
    /// the results of the last command.
    fn sources(&self) -> Vec<(Kind, Vec<u8>)> {
        let endings = [
            ("text", Kind::Input),
            ("lines", Kind::Input),
            ("out", Kind::Printed),
            ("second", Kind::Written),
            ("report", Kind::Written),
        ];
        let beside =
            |text: &String| endings.map(|(ending, kind)| (kind, root().join(text).with_extension(ending)));
        let files = self.texts.iter().flat_map(beside).filter(|(_, file)| file.is_file());
        files.map(|(kind, file)| (kind, read(&file))).chain(self.results.iter().cloned()).collect()
    }

    fn find_listing(&mut self, part: &Part) {
        self.listings += 1;
        self.unshown = None;
        let mut sources = self.sources();
        if let Some((word, whole)) = self.whole.take() {
            sources.retain(|(kind, _)| *kind == whole);
            // the results are the last ones
            if self.has_run {
                sources.retain(|source| self.results.contains(source));
            }
            if !sources.iter().any(|(_, source)| source == part.text_and_end().as_bytes()) {
                self.fault(part.line, format!("this is not all, though it stands behind {word:?}"));
                return;
            }
        }
        let found = sources.iter().map(|(_, source)| found_lines(&part.lines, source)).max();
        match found {
            None => self.fault(part.line, "no example is named before this listing".to_string()),
            Some(found) if found < part.lines.len() => {
                let words = format!("{:?} is not there in {}", part.lines[found], self.texts.join(", "));
                self.fault(part.line + found, words);
            }
            Some(_) => {}
        }
    }

    /// A block of commands whose results are not shown before another one, or at all.
    fn ask_shown(&mut self) {
        if let Some(line) = self.unshown.take() {
            self.fault(line, "what these commands do is not shown".to_string());
        }
    }
}

/// How many lines of a listing, from its first on, follow one another in a file.
fn found_lines(listing: &[&str], file: &[u8]) -> usize {
    let lines: Vec<&[u8]> = file.strip_suffix(b"\n").unwrap_or(file).split(|byte| *byte == b'\n').collect();
    let same = |at: usize| lines[at..].iter().zip(listing).take_while(|(a, b)| **a == b.as_bytes()).count();
    (0..lines.len()).map(same).max().unwrap_or(0)
}

// ---- the documents

fn assert_faultless(checker: &Checker, path: &str) {
    assert!(checker.faults.is_empty(), "{path}:\n{}", checker.faults.join("\n"));
}

#[test]
fn each_listing_of_the_guide_is_run() {
    let checker = check(&document(GUIDE), Form::Guide);
    assert_faultless(&checker, GUIDE);
    assert!(checker.listings >= 40 && checker.commands >= 10);
}

#[test]
fn each_listing_of_the_other_documents_is_run() {
    let readme = check(&document(README), Form::Readme);
    assert_faultless(&readme, README);
    assert!(readme.listings >= 1 && readme.commands >= 1);
    let numbers = check(&document(NUMBERS), Form::Numbers);
    assert_faultless(&numbers, NUMBERS);
    assert!(numbers.listings >= 1 && numbers.commands >= 1);
    let changed = document(NUMBERS).replace("`END 7 4 0`", "`END 7 5 0`");
    assert_eq!(check(&changed, Form::Numbers).faults.len(), 1);
}

/// The rows of the guide's table of lines with the templates that catch them, by `./why`.
#[test]
fn the_table_of_lines_is_run() {
    let guide = document(GUIDE);
    let rows = table(&guide, "line");
    assert!(rows.len() >= 7);
    for row in &rows[1..] {
        let mut why = call(root().join("why"));
        why.current_dir(root()).args(["examples/guide/which.text", row[0].trim_matches('`')]);
        let printed = String::from_utf8(why.output().unwrap().stdout).unwrap();
        let shown: Vec<&str> = printed.lines().collect();
        let (caught, pieces) = (shown[1], &shown[2..shown.len() - 1]);
        if row[1] == "none" {
            assert_eq!((caught, pieces.len(), row[2]), ("no template catches it", 0, ""), "{row:?}");
            continue;
        }
        assert!(caught.ends_with(&format!(": {}", row[1].trim_matches('`'))), "{row:?}: {caught}");
        let expected = row[2].split(" and ").map(|piece| piece.trim_matches('`').replace("empty", ""));
        let expected: Vec<String> =
            expected.zip(1..).map(|(piece, at)| format!("{at}: \"{piece}\"")).collect();
        assert_eq!(pieces, expected, "{row:?}");
    }
}

/// Every example that is made for the guide stands there.
#[test]
fn the_guide_names_its_examples() {
    let guide = document(GUIDE);
    let mut named = BTreeSet::new();
    for part in parts(&guide) {
        let text = part.text();
        named.extend(between(&text, '`').into_iter().filter_map(example));
        named.extend(
            part.lines
                .iter()
                .filter(|line| part.is_listing && is_command(line))
                .flat_map(|line| texts_of(line)),
        );
    }
    let texts = files(&root().join("examples/guide"), "text");
    assert!(texts.len() >= 30);
    for text in texts {
        let name = format!("examples/guide/{}", text.file_name().unwrap().to_str().unwrap());
        assert!(named.contains(&name), "the guide does not name {name}");
    }
}

#[test]
fn what_the_documents_name_is_there() {
    for path in [GUIDE, NUMBERS, README] {
        let document = document(path);
        for part in parts(&document).iter().filter(|part| !part.is_listing) {
            let text = part.text();
            let words = between(&text, '`').into_iter().flat_map(|words| words.split(' '));
            for name in words.filter(|word| word.starts_with("examples/")) {
                assert!(root().join(name).exists(), "{path} names {name}, which is not there");
            }
        }
    }
}

// ---- sections

/// The headings of a document, without the examples that they name.
fn headings(document: &str) -> BTreeSet<String> {
    let headings = parts(document).into_iter().filter(Part::is_heading);
    let words = headings.map(|part| part.lines[0].trim_start_matches('#').trim().to_string());
    words.map(|words| words.split(" (`").next().unwrap().to_string()).collect()
}

/// What stands in quotation marks in a part's text, outside of backticks.
fn quoted(part: &Part) -> Vec<String> {
    let text = part.text();
    let plain: Vec<&str> = text.split('`').step_by(2).collect();
    between(&plain.join("`"), '"').into_iter().map(str::to_string).collect()
}

/// What the guide quotes that is no section: what editors call encodings and line ends.
const NO_SECTIONS: [&str; 8] =
    ["UTF-8", "UTF-8 with BOM", "UTF-16", "Unicode", "LF", "Unix", "CRLF", "Windows"];

#[test]
fn the_sections_that_are_named_are_there() {
    let guide = document(GUIDE);
    let headings = headings(&guide);
    let mut count = 0;
    for part in parts(&guide).iter().filter(|part| !part.is_listing) {
        for words in quoted(part).iter().filter(|words| !NO_SECTIONS.contains(&&words[..])) {
            assert!(headings.contains(words), "{GUIDE}, line {}: no section {words:?}", part.line);
            count += 1;
        }
    }
    assert!(count >= 2);
}

/// Other documents name sections of the guide as `"Section" in` and its path.
#[test]
fn the_sections_that_others_name_are_there() {
    let headings = headings(&document(GUIDE));
    for path in [NUMBERS, README] {
        let document = document(path);
        let pieces: Vec<&str> = document.split(&format!("\" in `{GUIDE}`")[..]).collect();
        for piece in &pieces[..pieces.len() - 1] {
            let section = piece.rsplit('"').next().unwrap();
            assert!(headings.contains(section), "{path} names no section of the guide: {section:?}");
        }
    }
}

// ---- the checker itself

fn faults(document: &str) -> Vec<String> {
    check(document, Form::Guide).faults
}

/// A document of these parts.
fn written(parts: &[Part]) -> String {
    let indented = |part: &Part, line: &str| match (part.is_listing, line) {
        (true, "") | (false, _) => format!("{line}\n"),
        _ => format!("    {line}\n"),
    };
    let lines = |part: &Part| part.lines.iter().map(|line| indented(part, line)).collect::<String>();
    parts.iter().map(lines).collect::<Vec<String>>().join("\n")
}

fn text_part(words: &str) -> Part<'_> {
    Part { line: 0, is_listing: false, lines: vec![words] }
}

fn listing_part<'a>(lines: &[&'a str]) -> Part<'a> {
    Part { line: 0, is_listing: true, lines: lines.to_vec() }
}

/// A paragraph or a heading, and a listing after it.
fn shown(words: &str, listing: &[&str]) -> String {
    written(&[text_part(words), listing_part(listing)])
}

/// A way to change a listing; `None` where it has too few lines for that.
type Change = fn(Vec<String>) -> Option<Vec<String>>;

fn swap_two(mut lines: Vec<String>) -> Option<Vec<String>> {
    let at = lines.windows(2).position(|pair| pair[0] != pair[1])?;
    lines.swap(at, at + 1);
    Some(lines)
}

fn leave_one_out(mut lines: Vec<String>) -> Option<Vec<String>> {
    let at = lines.windows(3).position(|three| three[1] != three[2])?;
    lines.remove(at + 1);
    Some(lines)
}

fn change_one_byte(mut lines: Vec<String>) -> Option<Vec<String>> {
    let last = lines.last_mut()?;
    let first = last.chars().next()?;
    last.replace_range(..first.len_utf8(), if first == 'x' { "y" } else { "x" });
    Some(lines)
}

fn add_a_blank(mut lines: Vec<String>) -> Option<Vec<String>> {
    lines.first_mut()?.push(' ');
    Some(lines)
}

const CHANGES: [Change; 4] = [swap_two, leave_one_out, change_one_byte, add_a_blank];

fn changed(lines: &[&str], change: Change) -> Option<Vec<String>> {
    change(lines.iter().map(|line| line.to_string()).collect())
}

fn borrowed(lines: &[String]) -> Vec<&str> {
    lines.iter().map(|line| &line[..]).collect()
}

#[test]
fn a_document_has_parts() {
    let document = "# A\nb\nc\n\n    d\n\n\n      e\n    f\n\ng\n    h\n## I\n\n\n| j |\n";
    let expected = [
        (1, vec!["# A"]),
        (2, vec!["b", "c"]),
        (5, vec!["d", "", "", "  e", "f"]),
        (11, vec!["g"]),
        (12, vec!["h"]),
        (13, vec!["## I"]),
        (16, vec!["| j |"]),
    ];
    let listings = [5, 12];
    let parts = parts(document);
    assert_eq!(parts.len(), expected.len());
    for (part, (line, lines)) in parts.into_iter().zip(expected) {
        assert_eq!(part, Part { line, is_listing: listings.contains(&line), lines });
    }
}

/// Files beside a text that is named, whole and in part.
#[test]
fn a_part_of_an_example_is_found() {
    let named = [
        ("# Of `guide/outputs`", "outputs.text"),
        ("words (`guide/outputs`)", "outputs.out"),
        ("`examples/guide/outputs.text` has this", "outputs.second"),
        ("`guide/usage` and `guide/outputs`", "usage.report"),
        ("`guide/usage` and `guide/outputs`", "outputs.second"),
    ];
    for (words, file) in named {
        let file = document(&format!("examples/guide/{file}"));
        let lines: Vec<&str> = file.lines().collect();
        for listing in [&lines[..], &lines[..2], &lines[1..], &lines[1..2]] {
            assert_eq!(faults(&shown(words, listing)), [""; 0], "{words}");
        }
        for change in CHANGES {
            let changed = changed(&lines, change).unwrap();
            assert_eq!(faults(&shown(words, &borrowed(&changed))).len(), 1, "{words} {changed:?}");
        }
        let other = [text_part(words), text_part("`guide/first` is another"), listing_part(&lines)];
        assert_eq!(faults(&written(&other)).len(), 1, "{words}: another text was named since");
    }
}

#[test]
fn an_example_is_to_be_named() {
    let file = document("examples/guide/first.text");
    let listing: Vec<&str> = file.lines().collect();
    let line_3 = ["line 3: no example is named before this listing"];
    assert_eq!(faults(&shown("words", &listing)), line_3);
    assert_eq!(faults(&shown("guide/first without backticks", &listing)), line_3);
    let after = [text_part("words"), listing_part(&listing), text_part("(`guide/first`)")];
    assert_eq!(faults(&written(&after)), line_3);
    let missing = faults(&shown("`guide/no-such-text`", &listing));
    assert_eq!(missing, ["line 1: examples/guide/no-such-text.text is no file", line_3[0]]);
}

/// What a command prints, what it says and what it writes; and not what an earlier one did.
#[test]
fn what_the_last_command_did_is_found() {
    let report = ["template,calls", "2,1", "0,1"];
    let commands = [
        (["./expand examples/guide/first.text --report uses.csv"], &report[..]),
        (["./check examples/guide/first.text"], &["examples/guide/first.text 0 4"]),
        (["./why examples/guide/first.text 'HELLO  Anna'"], &["line: \"HELLO  Anna\""]),
        (["./check 'no such file'"], &["check: no such file cannot be read"]),
    ];
    for (command, results) in commands {
        let runs = listing_part(&command);
        let document = |since: &[Part]| {
            written(&[std::slice::from_ref(&runs), since, &[listing_part(results)]].concat())
        };
        assert_eq!(faults(&document(&[text_part("shows")])), [""; 0]);
        let another = listing_part(&["./why examples/guide/usage.text x"]);
        let other = [text_part("and"), listing_part(results), text_part("then"), another, text_part("shows")];
        assert_eq!(faults(&document(&other)).len(), 1, "{command:?}: another command was run since");
        for changed in CHANGES.into_iter().filter_map(|change| changed(results, change)) {
            let document = written(&[runs.clone(), text_part("shows"), listing_part(&borrowed(&changed))]);
            assert_eq!(faults(&document).len(), 1, "{changed:?}");
        }
    }
}

/// Behind these words a listing is all of one result, and of no other.
#[test]
fn a_whole_result_is_found() {
    let command = "./expand examples/guide/usage.text -o names --report uses.csv";
    let document = |word: &str, listing: &[&str]| {
        written(&[listing_part(&[command]), text_part(word), listing_part(listing)])
    };
    let (output, report) =
        (document_lines("examples/guide/usage.out"), document_lines("examples/guide/usage.report"));
    let (names, end) = output.split_at(output.len() - 1);
    let results = [("prints", vec![end]), ("has", vec![names, &report])];
    for (word, wholes) in &results {
        for lines in [end, names, &report] {
            let lines: Vec<&str> = lines.iter().map(String::as_str).collect();
            let is_whole = wholes.iter().any(|whole| *whole == lines);
            assert_eq!(faults(&document(word, &lines)).is_empty(), is_whole, "{word} {lines:?}");
            for part in [&lines[1..], &lines[..lines.len() - 1]].into_iter().filter(|part| !part.is_empty()) {
                assert_eq!(faults(&document(word, part)).len(), 1, "{word} {part:?}");
            }
        }
    }
    let output: Vec<&str> = output.iter().map(String::as_str).collect();
    assert_eq!(faults(&document("prints", &output)).len(), 1, "without -o it prints this");
    let said = ["check: no such file cannot be read"];
    let says =
        |word| written(&[listing_part(&["./check 'no such file'"]), text_part(word), listing_part(&said)]);
    assert_eq!(faults(&says("says")), [""; 0]);
    assert_eq!(faults(&says("prints")).len(), 1);
}

fn document_lines(path: &str) -> Vec<String> {
    document(path).lines().map(str::to_string).collect()
}

#[test]
fn what_a_command_does_is_to_be_shown() {
    let runs = listing_part(&["./check examples/guide/first.text"]);
    let line_1 = ["line 1: what these commands do is not shown"];
    assert_eq!(faults(&written(&[runs.clone()])), line_1);
    let shown = listing_part(&["examples/guide/first.text 0 4"]);
    assert_eq!(
        faults(&written(&[runs.clone(), text_part("then"), runs.clone(), text_part("prints"), shown])),
        line_1
    );
}

#[test]
fn a_listing_is_indented_by_four_blanks() {
    for line in ["```", "   three", "\ttab", " one"] {
        let words = [text_part("words"), text_part(line)];
        assert_eq!(faults(&written(&words)), ["line 3: a listing is indented by four blanks"], "{line}");
    }
}

#[test]
fn a_block_of_commands_has_no_other_lines() {
    let block = ["./check examples/guide/first.text", "rt run", "examples/guide/first.text 0 4"];
    let document = shown("words", &block);
    let (line_4, line_5) =
        ("line 4: \"rt run\" is no command", format!("line 5: {:?} is no command", block[2]));
    let line_3 = "line 3: what these commands do is not shown";
    assert_eq!(faults(&document), [line_4, &line_5, line_3]);
    assert_eq!(check(&document, Form::Readme).faults, [&line_5, line_3]);
    assert_eq!(faults(&shown("words", &["./configure"])), ["line 3: \"./configure\" is no command"]);
    assert_eq!(check(&shown("words", &["rt run"]), Form::Readme).faults, [""; 0]);
    assert_eq!(faults(&shown("`guide/first`", &["rt run"])).len(), 1);
}

/// Each listing of the guide that can be changed is refused then.
#[test]
fn a_changed_guide_is_refused() {
    let guide = document(GUIDE);
    for change in CHANGES {
        let parts = parts(&guide);
        let can_change = |part: &&Part| part.is_listing && !part.has_commands();
        let changed: Vec<Option<Vec<String>>> = parts
            .iter()
            .map(|part| Some(part).filter(can_change).and_then(|part| changed(&part.lines, change)))
            .collect();
        let all = parts.iter().zip(&changed).map(|(part, changed)| match changed {
            Some(lines) => listing_part(&borrowed(lines)),
            None => part.clone(),
        });
        let checker = check(&written(&all.collect::<Vec<Part>>()), Form::Guide);
        let count = changed.iter().flatten().count();
        assert!(count >= 25);
        assert_eq!(checker.faults.len(), count, "{}", checker.faults.join("\n"));
    }
}
