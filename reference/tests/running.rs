//! What a run leaves: output, events and the listing of the store.

mod common;

use common::{run_text, Left};
use stage2_reference::Ran;

/// Runs a section with a store function and the given input lines.
fn stored(input: &str) -> Left {
    let section = "$!$!0 (+-*/)\nS:!=!$\n!F3\n$\nN:!$\n!12!F1\n$\nL:!$\n!12!10!10!F1\n$$\n";
    run_text(format!("{section}{input}").as_bytes(), 1_000, 1_000)
}

fn listing(names: &str, texts: &[&str]) -> Vec<u8> {
    let mut bytes = names.replace(' ', "\0").into_bytes();
    bytes.push(b'\n');
    for text in texts {
        bytes.extend_from_slice(text.as_bytes());
        bytes.push(b'\n');
    }
    bytes
}

#[test]
fn an_empty_store_is_one_byte() {
    let left = stored("");
    assert_eq!(left.store, b"\n");
    let ran = Ran { number: 0, line: 10, events: 0, output: 0, second: 0, store: 1, report: 31 };
    assert_eq!(left.ran, ran);
}

#[test]
fn names_stand_in_order_of_first_storing() {
    let left = stored("S:b=1\nS:a=2\nN:c\nS:b=3\nN:a\nS:d=\n");
    assert_eq!(left.store, listing("b a c d", &["3", "2", "1", ""]));
    assert_eq!(left.output, b"1\n2\n");
}

#[test]
fn the_empty_name_is_a_name() {
    assert_eq!(stored("S:=x\n").store, b"\nx\n");
    assert_eq!(stored("S:=x\nS:a=y\n").store, b"\0a\nx\ny\n");
    assert_eq!(stored("S:=\n").store, b"\n\n");
}

#[test]
fn conversion_2_stores_before_the_line_is_too_long() {
    let name = "x".repeat(150);
    let left = stored(&format!("S:a=b\nL:{name}\n"));
    assert_eq!(left.ran.number, 12);
    assert_eq!(left.store, listing(&format!("a {name}"), &["b", "1"]));
}

#[test]
fn memory_full_leaves_the_store_as_it_was() {
    let row = "x".repeat(194);
    let lines: String = (10..51).map(|n| format!("S:a{n}={row}\n")).collect();
    let full = stored(&lines);
    assert_eq!((full.ran.number, full.ran.store), (0, 8_077 + 40 + 1 + 41));
    let over = stored(&(lines + &format!("S:b={row}\nS:c=1\n")));
    assert_eq!(over.ran.number, 19);
    assert_eq!(over.store, full.store);
}

#[test]
fn the_longest_listing_fills_its_room() {
    // Parameter 2 holds 29 bytes; the names have 1 to 3 bytes. The passes store
    // 256 names, and the last line lengthens one text up to the limit.
    let names = 9 + 2 * 90 + 3 * 157;
    let rest = 8_192 - names - 29 * 256;
    let section = format!(
        "$!$!0 (+-*/)\nN:!$\n{}!26\n0!36\n256!F7\n!30+1!36\n!34!36\n!30!16\n!F3\n!F8\n!20{}!26\n!F3\n$$\nN:\n",
        "x".repeat(29),
        "y".repeat(rest),
    );
    let left = run_text(section.as_bytes(), 10_000, 0);
    assert_eq!((left.ran.number, left.ran.store), (0, 8_704));
    let longer = section.replacen('y', "yy", 1);
    assert_eq!(run_text(longer.as_bytes(), 10_000, 0).ran.number, 19);
}

#[test]
fn no_line_but_the_event_beyond_the_fuel() {
    let text = b"$!$!0 (+-*/)\nA$\na!F1\nb\n$$\nA\nx\n";
    let left = |fuel| {
        let left = run_text(text, fuel, 100);
        (left.ran.number, left.ran.line, left.ran.events, String::from_utf8(left.output).unwrap())
    };
    assert_eq!(left(1), (20, 6, 1, "".to_string()));
    assert_eq!(left(2), (20, 6, 2, "a\n".to_string()));
    assert_eq!(left(3), (20, 6, 3, "a\n".to_string()));
    assert_eq!(left(4), (20, 7, 4, "a\nb\n".to_string()));
    assert_eq!(left(5), (0, 7, 5, "a\nb\nx\n".to_string()));
}

#[test]
fn output_rooms_around_a_line() {
    let text = b"$!$!0 (+-*/)\nA$\nab!F1\n!F1\n1cd\n$$\nA\nxyz\n";
    let left = |room| {
        let left = run_text(text, 100, room);
        (left.ran.number, left.ran.line, left.ran.events, left.output)
    };
    assert_eq!(left(0), (13, 7, 2, b"".to_vec()));
    assert_eq!(left(2), (13, 7, 2, b"".to_vec()));
    assert_eq!(left(3), (13, 7, 3, b"ab\n".to_vec()));
    assert_eq!(left(6), (13, 7, 3, b"ab\n".to_vec()));
    assert_eq!(left(7), (13, 8, 4, b"ab\n cd\n".to_vec()));
    assert_eq!(left(10), (13, 8, 4, b"ab\n cd\n".to_vec()));
    assert_eq!(left(11), (0, 8, 4, b"ab\n cd\nxyz\n".to_vec()));
}

#[test]
fn channel_0_needs_no_room() {
    let text = b"$!$!0 (+-*/)\nA$\nab!F10\n!F10\n111\n$$\nA\n";
    let ran = Ran { number: 0, line: 7, events: 3, output: 0, second: 0, store: 1, report: 23 };
    assert_eq!(run_text(text, 100, 0).ran, ran);
}
