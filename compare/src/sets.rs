//! Large sets of macros, for loading. Their bytes need not be UTF-8.

use stage2_reference::{counts, Counts};

const FLAG: &[u8] = b"$!$!0 (+-*/)\n";

/// How many bytes the templates of [`sharing`] have in common.
pub const SHARED: usize = 180;

/// Templates that share nothing: each begins with a byte of its own. As 128 of them
/// shall have no more than 2,048 nodes, none is longer.
pub fn apart(macros: usize) -> Vec<Vec<u8>> {
    (0..macros).map(|number| own_bytes(number, 14)).collect()
}

/// Templates that are equal but for their last bytes.
pub fn sharing(macros: usize) -> Vec<Vec<u8>> {
    (0..macros).map(|number| [vec![b'a'; SHARED], own_bytes(number, 10)].concat()).collect()
}

/// A text with a macro without code lines for each template.
pub fn text_of(templates: &[Vec<u8>]) -> Vec<u8> {
    text_with(templates, &mut std::iter::empty(), 0)
}

/// The largest set: as many bytes, macros, code lines and nodes as a text may have.
pub fn largest() -> Vec<u8> {
    const LIMITS: Counts = Counts { macros: 128, code_lines: 1_024, nodes: 2_048 };
    const BYTES: usize = 65_536;
    // The root, 127 times 15 bytes and the end, and 14 bytes and the end.
    let templates: Vec<Vec<u8>> =
        (0..LIMITS.macros).map(|number| own_bytes(number, if number == 0 { 14 } else { 15 })).collect();
    // Byte 10 included.
    let left = BYTES - text_of(&templates).len();
    let length = |line| left / LIMITS.code_lines + usize::from(line < left % LIMITS.code_lines);
    let mut codes = (0..LIMITS.code_lines).map(|line| format!("NAME !10 {:x<1$}\n", "", length(line) - 10));
    let text = text_with(&templates, &mut codes, LIMITS.code_lines / LIMITS.macros);
    assert_eq!((text.len(), counts(&text)), (BYTES, Some(LIMITS)));
    text
}

/// So many bytes: the first is another for each number below 252, and the others are
/// letters that look random.
fn own_bytes(number: usize, length: usize) -> Vec<u8> {
    let firsts: Vec<u8> = (1..=255).filter(|byte| !b"\n$!".contains(byte)).collect();
    // 97 has no divisor in common with their number, so that no byte comes twice.
    let mut bytes = vec![firsts[number * 97 % firsts.len()]];
    let mut word = number as u64;
    while bytes.len() < length {
        word = word.wrapping_mul(6_364_136_223_846_793_005).wrapping_add(1_442_695_040_888_963_407);
        bytes.push(b'a' + (word >> 33) as u8 % 26);
    }
    bytes
}

/// A text of these templates, each with so many of the code lines.
fn text_with(templates: &[Vec<u8>], codes: &mut dyn Iterator<Item = String>, each: usize) -> Vec<u8> {
    let mut text = FLAG.to_vec();
    for (place, template) in templates.iter().enumerate() {
        text.extend_from_slice(template);
        text.extend_from_slice(b"$\n");
        text.extend(codes.take(each).flat_map(String::into_bytes));
        let end: &[u8] = if place + 1 == templates.len() { b"$$\n" } else { b"$\n" };
        text.extend_from_slice(end);
    }
    text
}

#[cfg(test)]
mod tests {
    use super::*;

    #[test]
    fn the_largest_set_loads() {
        largest();
    }

    #[test]
    fn templates_share_what_they_are_meant_to() {
        for (templates, nodes) in [(apart(128), 1 + 128 * 15), (sharing(128), 1 + SHARED + 128 * 11)] {
            let expected = Counts { macros: 128, code_lines: 0, nodes };
            assert_eq!(counts(&text_of(&templates)), Some(expected));
        }
    }
}
