//! The tables of the documents: the calls that they show are calls, the limits are those of the numbers,
//! and the statuses those of the commands.

mod files;

use std::collections::{BTreeMap, BTreeSet};
use std::process::Stdio;

use files::{call, document, meanings, root, table, Folder};

const GUIDE: &str = "docs/TEMPLATES.md";
const README: &str = "README.md";
const PACKAGE: &str = "tools/package/README.md";

/// What a table's call names, and what is given for it.
const GIVEN: [(&str, &str); 9] = [
    ("[", ""),
    ("]", ""),
    ("FILE", "TEXT"),
    ("TEXT", "examples/guide/outputs.text"),
    ("LINE", "x"),
    ("NUMBER", "1"),
    ("OUT", "out"),
    ("STYLES", "second"),
    ("USES", "uses"),
];

/// The calls in the first column of a table; an option alone is one of `./expand`.
fn calls(path: &str, first: &str) -> Vec<String> {
    let document = document(path);
    let code = |row: &Vec<&str>| row[0].split('`').nth(1).unwrap().to_string();
    let whole = |call: String| if call.starts_with('-') { format!("./expand FILE {call}") } else { call };
    let given = |call: String| GIVEN.iter().fold(call, |call, (word, given)| call.replace(word, given));
    table(&document, first)[1..].iter().map(code).map(whole).map(given).collect()
}

/// None is refused with 100, and each prints something.
#[test]
fn the_calls_of_the_tables_are_calls() {
    let calls = [calls(README, "call"), calls(GUIDE, "command"), calls(PACKAGE, "call")].concat();
    assert!(calls.len() >= 15);
    for words in calls {
        let folder = Folder::new("tables");
        let (name, rest) = words.strip_prefix("./").unwrap().split_once(' ').unwrap();
        let rest = rest.replace("examples/", &format!("{}/examples/", root().display()));
        let mut command = call(root().join(name));
        command.args(rest.split(' ')).current_dir(folder.path()).stdin(Stdio::null());
        let output = command.output().unwrap();
        assert!(output.status.code().is_some_and(|status| status < 100), "{words}: {output:?}");
        assert!(output.stdout.ends_with(b"\n"), "{words} prints nothing");
    }
}

/// The figures of more than two digits in a text.
fn figures(words: &str) -> BTreeSet<String> {
    let words = words.replace(',', "");
    let numbers = words.split(|sign: char| !sign.is_ascii_digit());
    numbers.filter(|word| word.len() > 2).map(str::to_string).collect()
}

/// The guide's limits are those in the words of the number that one more gives, but for the room of the
/// outputs and the fuel, which the commands choose.
#[test]
fn the_limits_are_those_of_the_numbers() {
    let (guide, meanings) = (document(GUIDE), meanings());
    let mut limits: BTreeMap<u64, BTreeSet<String>> = BTreeMap::new();
    for row in &table(&guide, "what")[1..] {
        limits.entry(row[2].parse().unwrap()).or_default().extend(figures(row[1]));
    }
    assert!(limits.len() >= 10);
    for (number, limits) in limits.into_iter().filter(|(number, _)| ![13, 20].contains(number)) {
        assert_eq!(limits, figures(&meanings[&number]), "{number}");
    }
}

/// Both tables have the statuses that the commands share, and the signals behind them.
#[test]
fn the_statuses_are_those_of_the_commands() {
    let shared = document("commands/common.sh");
    let values = shared.lines().filter_map(|line| Some(line.split_once('=')?.1));
    let mut expected: Vec<&str> =
        values.filter(|value| value.len() == 3 && value.starts_with("10")).collect();
    assert_eq!(expected.len(), 7);
    let trapped = shared.lines().filter_map(|line| line.trim().strip_prefix("trap 'exit "));
    let signals: Vec<(&str, &str)> = trapped.map(|line| line.split_once("' ").unwrap()).collect();
    let numbers = signals.iter().map(|signal| signal.0).collect::<Vec<&str>>().join(", ");
    let names = signals.iter().map(|signal| signal.1).collect::<Vec<&str>>().join(", ");
    expected.push(&numbers);
    for path in [README, PACKAGE] {
        let document = document(path);
        let rows = &table(&document, "status")[1..];
        assert_eq!(rows.iter().map(|row| row[0]).collect::<Vec<&str>>(), expected, "{path}");
        assert!(rows[7][1].ends_with(&names), "{path}: {:?}", rows[7]);
    }
}
