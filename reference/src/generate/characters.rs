//! Characters of UTF-8 for random texts, bytes that are none, and texts that
//! count, value and take apart both.

use super::random::Random;

/// Characters at both ends of each length, beside the surrogates, and a few
/// that names have; one is a combining accent.
const CHARACTERS: [&str; 14] = [
    "é",
    "é",
    "ß",
    "\u{301}",
    "€",
    "😀",
    "\u{80}",
    "\u{7FF}",
    "\u{800}",
    "\u{D7FF}",
    "\u{E000}",
    "\u{FFFF}",
    "\u{10000}",
    "\u{10FFFF}",
];

/// Malformed bytes: continuations alone, characters cut off or with another
/// byte in their midst, overlong ones, surrogates, and such as are too large.
const MALFORMED: [&[u8]; 18] = [
    b"\x80",
    b"\xBF",
    b"\xC3",
    b"\xE9",
    b"\xE2\x82",
    b"\xF0\x9F\x98",
    b"\xC3A",
    b"\xE2\x82A",
    b"\xC0\xAF",
    b"\xC1\xBF",
    b"\xE0\x9F\xBF",
    b"\xF0\x8F\xBF\xBF",
    b"\xED\xA0\x80",
    b"\xED\xBF\xBF",
    b"\xF4\x90\x80\x80",
    b"\xF5\x80\x80\x80",
    b"\xFE",
    b"\xFF",
];

/// Bytes beside the ends of the grammar's ranges.
const EDGES: &[u8] = b"\x7F\x80\x8F\x90\x9F\xA0\xBF\xC0\xC1\xC2\xDF\xE0\xED\xEF\xF0\xF4\xF5\xFF";

/// The two bytes of `é`.
pub const HALVES: &[u8] = b"\xC3\xA9";

/// A character of two to four bytes, or now and then malformed bytes.
pub fn bytes(random: &mut Random) -> Vec<u8> {
    match random.weighted(&[50, 25, 15, 10]) {
        0 => random.pick(&CHARACTERS).into(),
        1 => any_character(random),
        2 => random.pick(&MALFORMED).to_vec(),
        _ => changed(random),
    }
}

/// Any character of two to four bytes, each length as likely.
fn any_character(random: &mut Random) -> Vec<u8> {
    let (low, high) = random.pick(&[(0x80, 0x7FF), (0x800, 0xFFFF), (0x1_0000, 0x10_FFFF)]);
    let point = random.between(low, high) as u32;
    // No character is a surrogate.
    char::from_u32(point).unwrap_or('é').to_string().into_bytes()
}

/// A character with one byte dropped or changed, which mostly makes it malformed.
fn changed(random: &mut Random) -> Vec<u8> {
    let mut bytes = any_character(random);
    let place = random.below(bytes.len());
    if random.chance(50) {
        bytes.remove(place);
    } else {
        bytes[place] = random.pick(EDGES);
    }
    bytes
}

/// A row of characters, letters among them; often a single one.
fn row(random: &mut Random) -> Vec<u8> {
    let count = if random.chance(50) { 1 } else { random.below(5) };
    let mut row = Vec::new();
    for _ in 0..count {
        if random.chance(25) {
            row.push(random.pick(b"AB,("));
        } else {
            row.extend(bytes(random));
        }
    }
    row
}

/// What is done with the characters of parameter 1. Where a line of 200 bytes
/// is built first, 12 is near too.
const STATEMENTS: [&[u8]; 14] = [
    b"!15!F1\n",
    b"!18!F1\n",
    b"!15,!18!F1\n",
    b"!18.!15!16\n",
    b"!05!08!F1\n",
    b"!12!15!F1\n",
    b"!10!27\n!20!23!F1\n!F8\n",
    b"!10!17\n!15!18!F1\n!F8\n!10!F1\n",
    b"A!10B!27\n!28.!25!F1\n!F8\n",
    b"!10!27\n!F9\n!F8\n",
    b"!10!27\xA9,\n!25!23!F1\n!F8\n",
    b"!F1\n1.11.111.\n",
    b"!10!10!10!10!26\n!20!20!20!20!20!15!F1\n",
    b"!10!10!10!10!26\n!20!20!20!20!20!27\n!F8\n",
];

/// A text about characters: a macro with a few statements, whose template may
/// split a character, and lines for it.
pub fn text(random: &mut Random) -> Vec<u8> {
    let template: &[u8] = if random.chance(10) { b"C:!\xA9!$\n" } else { b"C:!$\n" };
    let mut text = [b"$!$!0 (+-*/)\n", template].concat();
    for _ in 0..random.between(1, 3) {
        text.extend_from_slice(random.pick(&STATEMENTS));
    }
    text.extend_from_slice(b"$$\n");
    for _ in 0..random.between(1, 4) {
        text.extend_from_slice(b"C:");
        text.extend(row(random));
        text.push(b'\n');
    }
    text
}
