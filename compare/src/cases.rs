//! Texts and lines that the benchmark and the tests share.

/// A text with a macro without code lines for each template, in the session's marks.
pub fn text_of(templates: impl IntoIterator<Item = String>) -> String {
    let templates: Vec<String> = templates.into_iter().collect();
    format!("$!$!0 (+-*/)\n{}$\n$$\n", templates.join("$\n$\n"))
}

/// So many brackets in one another.
pub fn nested(depth: usize) -> String {
    "(".repeat(depth) + &")".repeat(depth)
}

/// Long lines of brackets, with their names.
pub fn bracket_lines() -> [(&'static str, String); 4] {
    [
        ("100 nested", nested(100)),
        ("50 nested", nested(50)),
        ("99 unpartnered", "(".repeat(99)),
        ("() x 100", "()".repeat(100)),
    ]
}

/// Looks for an atom behind each number of left brackets up to a hundred.
pub fn each_depth() -> String {
    text_of((0..=100).map(|depth| "(".repeat(depth) + "!b"))
}

/// Nine placeholders with a left bracket between each and the next, and an end that no
/// line of brackets has.
pub fn bracket_separators() -> String {
    text_of(["!(!(!(!(!(!(!(!(!b".to_string()])
}

/// Texts that look for atoms in these lines, with their names.
pub fn bracket_texts() -> Vec<(&'static str, String)> {
    let one = |template: &str| text_of([template.to_string()]);
    vec![
        ("one placeholder", one("!")),
        ("two placeholders", one("!!")),
        ("nine placeholders", one("!!!!!!!!!")),
        ("brackets as literals", one("!(!)!")),
        ("nine, ( between them", bracket_separators()),
        ("nine, () between them", one("!()!()!()!()!()!()!()!()!b")),
        ("nine, a between them", one("!a!a!a!a!a!a!a!a!b")),
        ("each depth", each_depth()),
    ]
}
