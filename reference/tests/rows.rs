//! The row of a text's tree, and what is counted of a text. How a tree is laid out is
//! tested beside `row.rs`.

use stage2_reference::{counts, row, Counts, Element, RowNode};

/// Document 01's session.
const SESSION: &[u8] = b"$!$!0 (+-*/)\nNAME !$\n!10!F1$\n$\nNAME !&amp;!$\nNAME !10&!20$\n$$\n\
    NAME Kern &amp; Co$\nplain$\n";

/// A row in short: the root is `^`, an end `$` and its template's place, a placeholder
/// `?`, and a literal stands for itself.
fn short(text: &[u8]) -> String {
    let shown = |node: &RowNode| match node.element {
        None => "^".to_string(),
        Some(Element::Literal(byte)) => char::from(byte).to_string(),
        Some(Element::End) => format!("${}", node.template.unwrap()),
        Some(Element::Placeholder) => "?".to_string(),
    };
    row(text).unwrap().iter().map(shown).collect()
}

#[test]
fn the_session() {
    // Behind the first placeholder `&` stands before the end of `NAME !`.
    assert_eq!(short(SESSION), "^NAME ?&$0amp;?$1");
    assert_eq!(counts(SESSION), Some(Counts { macros: 2, code_lines: 2, nodes: 15 }));
}

#[test]
fn marks_say_what_a_placeholder_is() {
    assert_eq!(short(b".#$!0 (+-*/)\nA#!.#\n$$\n"), "^A?!$0");
    assert_eq!(short(b"$!$!0 (+-*/)\nA#!\n$$\n"), "^A#?$0");
}

#[test]
fn layouts_are_code_lines() {
    let text = b"$!$!0 (+-*/)\nT$\n!F1\n1 2\nx!F1\n$$\n";
    assert_eq!(counts(text), Some(Counts { macros: 1, code_lines: 3, nodes: 3 }));
}

#[test]
fn a_text_that_does_not_load_has_no_row() {
    for text in [&b""[..], b"$!$!0 (+-*/)\n", b"$!$!0 (+-*/)\nA\n$\nA\n$$\n"] {
        assert!(row(text).is_none() && counts(text).is_none(), "{}", text.escape_ascii());
    }
}
