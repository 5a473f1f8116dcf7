//! The examples: each through the proved program, and those of the numbers through the command.
//! What the documents show of them is in `guide.rs`.

mod files;

use std::collections::BTreeSet;
use std::path::{Path, PathBuf};

use files::{assert_expanded, cells_below, expanded, files, files_below, read, root};
use stage2_reference::{check, NODE_ROW};

/// The texts of a folder below examples/, in order of their names.
fn texts(folder: &str) -> Vec<PathBuf> {
    files(&root().join("examples").join(folder), "text")
}

#[test]
fn every_example() {
    let all = files_below(&root().join("examples"), "text");
    assert!(all.len() >= 60);
    for ending in ["second", "report"] {
        assert!(all.iter().any(|text| text.with_extension(ending).is_file()), "no example has a {ending}");
    }
    all.iter().for_each(|text| assert_expanded(text));
}

/// The larger examples stand beside the folders of the others.
#[test]
fn the_larger_examples_are_several() {
    assert!(texts("").len() >= 8, "{} larger examples", texts("").len());
}

fn number(text: &Path) -> u64 {
    text.file_stem().unwrap().to_str().unwrap().parse().unwrap()
}

/// The exit status of `./expand` is the number, which is the example's name.
#[test]
fn numbers_are_exit_statuses() {
    for text in texts("numbers") {
        let status = expanded("expand", &text).status.code();
        assert_eq!(status, Some(number(&text) as i32), "{}", text.display());
    }
}

/// Each number of the table but 1, which no text gives, has its example, and names it.
#[test]
fn every_number_has_an_example() {
    let mut rows = cells_below("example");
    assert_eq!(rows.remove(&1).as_deref(), Some("none"));
    for (number, cell) in &rows {
        assert!(cell.starts_with(&format!("`{number:02}`: ")), "{number}: {cell}");
    }
    let rows: BTreeSet<u64> = rows.into_keys().collect();
    assert_eq!(rows, texts("numbers").iter().map(|text| number(text)).collect());
}

/// What the table says of the line that is named, and of what is left behind, for the texts that do
/// not load: their own example names line 0 or 1, the last line, or a line of the macros.
#[test]
fn the_table_says_which_line_is_named() {
    let (lines, left) = (cells_below("line"), cells_below("left behind"));
    for text in texts("numbers").iter().filter(|text| (2..=9).contains(&number(text))) {
        let (bytes, number) = (read(text), number(text));
        let end = bytes.iter().filter(|byte| **byte == b'\n').count() as u64;
        let line = check(&bytes, NODE_ROW).line;
        let is_named = match &lines[&number][..] {
            "0" => line == 0,
            "1" => line == 1,
            "the last line" => line == end,
            _ => 1 < line && line <= end,
        };
        assert!(is_named, "{number}: line {line} is not {}", lines[&number]);
        assert_eq!(left[&number], "nothing");
    }
}
