//! Characters of UTF-8, read by the grammar of RFC 3629, section 4.

/// A character that a row of bytes begins with.
#[derive(Clone, Copy, Debug, PartialEq, Eq)]
pub struct Character {
    pub code_point: u32,
    /// How many bytes it has, 1 to 4.
    pub length: usize,
}

/// The character that a row begins with, or `None` if its first bytes are none
/// by the grammar: malformed, cut off, or not there. The patterns are the
/// grammar's, byte for byte.
pub fn first(row: &[u8]) -> Option<Character> {
    match *row {
        [a @ 0x00..=0x7F, ..] => Some(Character { code_point: a.into(), length: 1 }),
        [a @ 0xC2..=0xDF, b @ 0x80..=0xBF, ..] => Some(joined(a & 0x1F, &[b])),
        [a @ 0xE0, b @ 0xA0..=0xBF, c @ 0x80..=0xBF, ..]
        | [a @ 0xE1..=0xEC, b @ 0x80..=0xBF, c @ 0x80..=0xBF, ..]
        | [a @ 0xED, b @ 0x80..=0x9F, c @ 0x80..=0xBF, ..]
        | [a @ 0xEE..=0xEF, b @ 0x80..=0xBF, c @ 0x80..=0xBF, ..] => Some(joined(a & 0x0F, &[b, c])),
        [a @ 0xF0, b @ 0x90..=0xBF, c @ 0x80..=0xBF, d @ 0x80..=0xBF, ..]
        | [a @ 0xF1..=0xF3, b @ 0x80..=0xBF, c @ 0x80..=0xBF, d @ 0x80..=0xBF, ..]
        | [a @ 0xF4, b @ 0x80..=0x8F, c @ 0x80..=0xBF, d @ 0x80..=0xBF, ..] => {
            Some(joined(a & 0x07, &[b, c, d]))
        }
        _ => None,
    }
}

/// The code points of a row that is characters throughout, or `None`.
pub fn code_points(row: &[u8]) -> Option<Vec<u32>> {
    let mut points = Vec::with_capacity(row.len());
    let mut rest = row;
    while !rest.is_empty() {
        let character = first(rest)?;
        points.push(character.code_point);
        rest = &rest[character.length..];
    }
    Some(points)
}

/// Joins the bits that the first byte brings with six of each byte after it.
fn joined(high: u8, tail: &[u8]) -> Character {
    let code_point = tail.iter().fold(high.into(), |bits: u32, &byte| bits << 6 | u32::from(byte & 0x3F));
    Character { code_point, length: 1 + tail.len() }
}

#[cfg(test)]
mod tests {
    use super::*;

    /// Both sides of every end of a range in the grammar, and both ends of a byte.
    const EDGES: [u8; 24] = [
        0x00, 0x41, 0x7F, 0x80, 0x81, 0x8F, 0x90, 0x9F, 0xA0, 0xBE, 0xBF, 0xC0, 0xC1, 0xC2, 0xDF, 0xE0, 0xED,
        0xEF, 0xF0, 0xF1, 0xF4, 0xF5, 0xFE, 0xFF,
    ];

    /// Compares a row that isn't empty with what the standard library reads.
    fn compare(row: &[u8]) {
        let whole = std::str::from_utf8(row);
        let expected: Option<Vec<u32>> = whole.ok().map(|text| text.chars().map(u32::from).collect());
        assert_eq!(code_points(row), expected, "{row:02X?}");
        let valid = whole.map_or_else(|error| error.valid_up_to(), str::len);
        let beginning = std::str::from_utf8(&row[..valid]).unwrap().chars().next();
        let expected = beginning.map(|char| Character { code_point: char.into(), length: char.len_utf8() });
        assert_eq!(first(row), expected, "{row:02X?}");
    }

    #[test]
    fn every_row_of_one_and_two_bytes() {
        for a in 0..=255 {
            compare(&[a]);
            for b in 0..=255 {
                compare(&[a, b]);
            }
        }
    }

    #[test]
    fn rows_of_three_and_four_bytes_at_the_edges() {
        for a in 0..=255 {
            for b in 0..=255 {
                EDGES.iter().for_each(|&c| compare(&[a, b, c]));
            }
            for b in EDGES {
                for c in EDGES {
                    EDGES.iter().for_each(|&d| compare(&[a, b, c, d]));
                }
            }
        }
    }

    #[test]
    fn every_code_point() {
        let mut count = 0;
        for char in '\0'..=char::MAX {
            let mut room = [0; 4];
            compare(char.encode_utf8(&mut room).as_bytes());
            count += 1;
        }
        assert_eq!(count, 0x11_0000 - 0x800);
    }

    #[test]
    fn examples_by_hand() {
        assert_eq!(code_points(b""), Some(vec![]));
        assert_eq!(first(b""), None);
        assert_eq!(code_points(&[195, 169]), Some(vec![233]));
        assert_eq!(code_points(&[101, 204, 129]), Some(vec![101, 769]));
        assert_eq!(code_points(&[240, 159, 152, 128]), Some(vec![128_512]));
        // The characters of RFC 3629, section 7.
        assert_eq!(
            code_points(&[0x41, 0xE2, 0x89, 0xA2, 0xCE, 0x91, 0x2E]),
            Some(vec![0x41, 0x2262, 0x391, 0x2E])
        );
        assert_eq!(code_points(&[0xEF, 0xBB, 0xBF, 0xF0, 0xA3, 0x8E, 0xB4]), Some(vec![0xFEFF, 0x233B4]));
        // Its malformed ones, section 10: an overlong byte 0, and an overlong stroke in a path.
        assert_eq!(code_points(&[0xC0, 0x80]), None);
        assert_eq!(code_points(&[0x2F, 0xC0, 0xAE, 0x2E, 0x2F]), None);
        // A character that a malformed one follows is still the first.
        assert_eq!(first(&[195, 169, 195]), Some(Character { code_point: 233, length: 2 }));
        assert_eq!(code_points(&[195, 169, 195]), None);
    }
}
