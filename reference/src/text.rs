//! A text's lines, and the twelve marks of its flag line.

/// Most bytes in a line's content, a built line and a parameter.
pub const LINE_LIMIT: usize = 200;

/// The lines of a text. Byte 10 ends a line; a last line without it counts
/// only if it has bytes.
pub fn lines(text: &[u8]) -> impl Iterator<Item = &[u8]> {
    let whole = text.strip_suffix(b"\n").unwrap_or(text);
    // A split of no bytes would still give one line.
    let limit = if text.is_empty() { 0 } else { usize::MAX };
    whole.split(|&byte| byte == b'\n').take(limit)
}

/// What precedes the first `mark` of a line, or all of the line.
pub fn content(line: &[u8], mark: u8) -> &[u8] {
    match line.iter().position(|&byte| byte == mark) {
        Some(end) => &line[..end],
        None => line,
    }
}

/// The bytes that a text's flag line gives a meaning to. Mark 5 is always the
/// byte `0` and needs no field.
#[derive(Clone, Copy, Debug, PartialEq, Eq)]
pub struct Marks {
    pub source_end: u8,
    pub placeholder: u8,
    pub code_end: u8,
    pub escape: u8,
    pub blank: u8,
    pub left: u8,
    pub plus: u8,
    pub minus: u8,
    pub times: u8,
    pub divide: u8,
    pub right: u8,
}

impl Marks {
    /// Reads the marks from the flag line; `None` if the line breaks a rule.
    pub fn read(line: &[u8]) -> Option<Marks> {
        let flags = line.first_chunk::<12>()?;
        if !legal(flags) {
            return None;
        }
        let [source_end, placeholder, code_end, escape, _, blank, left, plus, minus, times, divide, right] =
            *flags;
        Some(Marks {
            source_end,
            placeholder,
            code_end,
            escape,
            blank,
            left,
            plus,
            minus,
            times,
            divide,
            right,
        })
    }

    /// Whether a byte is one of marks 6 to 12, none of which a name can hold.
    pub fn is_syntax(&self, byte: u8) -> bool {
        byte == self.blank || byte == self.left || byte == self.right || self.is_operator(byte)
    }

    fn is_operator(&self, byte: u8) -> bool {
        byte == self.plus || byte == self.minus || byte == self.times || byte == self.divide
    }
}

/// Mark 5 is `0`; no other mark is F, byte 0 or a digit; marks differ, except
/// that 1 may equal 3 and 2 may equal 4.
fn legal(flags: &[u8; 12]) -> bool {
    let reserved = |byte: u8| byte == b'F' || byte == 0 || byte.is_ascii_digit();
    let may_equal = |a: usize, b: usize| (a, b) == (0, 2) || (a, b) == (1, 3);
    (0..12).all(|b| {
        let byte_is_legal = if b == 4 { flags[b] == b'0' } else { !reserved(flags[b]) };
        byte_is_legal && (0..b).all(|a| flags[a] != flags[b] || may_equal(a, b))
    })
}

#[cfg(test)]
mod tests {
    use super::*;

    fn split(text: &[u8]) -> Vec<&[u8]> {
        lines(text).collect()
    }

    #[test]
    fn lines_end_at_byte_10() {
        assert_eq!(split(b""), Vec::<&[u8]>::new());
        assert_eq!(split(b"\n"), [b""]);
        assert_eq!(split(b"a"), [b"a"]);
        assert_eq!(split(b"a\n"), [b"a"]);
        assert_eq!(split(b"a\n\n"), [&b"a"[..], b""]);
        assert_eq!(split(b"a\r\nb"), [&b"a\r"[..], b"b"]);
    }

    #[test]
    fn content_stops_at_the_first_mark() {
        assert_eq!(content(b"ab$c$", b'$'), b"ab");
        assert_eq!(content(b"ab", b'$'), b"ab");
        assert_eq!(content(b"$", b'$'), b"");
    }

    #[test]
    fn only_two_pairs_of_marks_may_be_equal() {
        let legal = *b"$!%&0 (+-*/)";
        assert!(Marks::read(&legal).is_some());
        for a in 0..12 {
            for b in a + 1..12 {
                let mut flags = legal;
                flags[b] = flags[a];
                let allowed = (a, b) == (0, 2) || (a, b) == (1, 3);
                assert_eq!(Marks::read(&flags).is_some(), allowed, "{a} {b}");
            }
        }
        assert!(Marks::read(b"$!$!0 (+-*/)").is_some());
    }

    #[test]
    fn reserved_bytes_are_no_marks() {
        for place in 0..12 {
            for byte in [b'F', 0, b'0', b'5', b'9'] {
                let mut flags = *b"$!%&0 (+-*/)";
                let unchanged = flags[place] == byte;
                flags[place] = byte;
                assert_eq!(Marks::read(&flags).is_some(), unchanged, "{place} {byte}");
            }
            for byte in [b'f', 13, 255] {
                let mut flags = *b"$!%&0 (+-*/)";
                flags[place] = byte;
                assert_eq!(Marks::read(&flags).is_some(), place != 4, "{place} {byte}");
            }
        }
    }

    #[test]
    fn the_flag_line_needs_twelve_bytes() {
        assert!(Marks::read(b"$!$!0 (+-*/").is_none());
        assert!(Marks::read(b"$!$!0 (+-*/) anything").is_some());
    }
}
