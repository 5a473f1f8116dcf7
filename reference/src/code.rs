//! Code lines: what a body's line says, found once at loading.

use crate::text::Marks;

/// What a code line adds to the built line.
#[derive(Clone, Debug, PartialEq, Eq)]
pub enum Part<'a> {
    /// Bytes to copy.
    Bytes(&'a [u8]),
    /// e0k: the call number times 10, plus k.
    CallNumber(u8),
    /// ed0 to ed5 and ed8; the parameter counts from 0 here.
    Parameter(usize, Conversion),
}

/// The conversions that add something for a parameter.
#[derive(Clone, Copy, Debug, PartialEq, Eq)]
pub enum Conversion {
    Itself,
    Stored,
    StoredOrNumbered,
    Delimiter,
    Value,
    Length,
    CodePoint,
}

/// What is done once a line is built.
#[derive(Clone, Debug, PartialEq, Eq)]
pub enum Ending<'a> {
    /// A plain line is offered for fitting.
    Offer,
    /// ed6: the built line becomes a parameter.
    Assign(usize),
    /// ed7: an iteration over the built line's pieces.
    Each { parameter: usize, delimiters: &'a [u8] },
    /// eF7: an iteration of as many passes as the built line's value.
    /// `past` is the line after its eF8.
    Times { past: usize },
    /// eF8: the next pass.
    Again,
    /// eF0: the end of the run.
    Stop,
    /// eF1: the built line is written, or the layout if the line owns one.
    Write { channel: Channel, layout: Option<&'a [u8]> },
    /// eF2: the following input lines are copied.
    Copy(Channel),
    /// eF3: parameter 2 is stored under parameter 1.
    Store,
    /// eF4: a skip by parameter 1.
    Skip,
    /// eF50 and eF51: a skip by parameter 3 if texts are equal or not.
    SkipText { equal: bool },
    /// eF6: a skip by parameter 3 if values compare so.
    SkipValue(Comparison),
    /// eF9: the end of the body.
    Return,
}

/// Where functions 1 and 2 write to.
#[derive(Clone, Copy, Debug, PartialEq, Eq)]
pub enum Channel {
    /// Channel 0, whose lines are dropped.
    Nowhere,
    /// Channel 3, the output.
    Output,
    /// Channel 4, the second output.
    Second,
}

/// What function 6 asks of the values of parameters 1 and 2.
#[derive(Clone, Copy, Debug, PartialEq, Eq)]
pub enum Comparison {
    Equal,
    Unequal,
    Less,
    Greater,
}

/// A code line of a body.
#[derive(Clone, Debug, PartialEq, Eq)]
pub struct CodeLine<'a> {
    pub parts: Vec<Part<'a>>,
    pub ending: Ending<'a>,
    /// The opening line of the innermost iteration around this line. Since
    /// iterations nest, it stands for all of them.
    pub inside: Option<usize>,
}

/// Something malformed in a code line.
#[derive(Clone, Copy, Debug, PartialEq, Eq)]
pub struct Malformed;

/// What a code line is made of, before its place in a body is known.
pub struct Parsed<'a> {
    pub parts: Vec<Part<'a>>,
    pub ending: Ending<'a>,
    /// Whether the next code line is this one's layout.
    pub owns_layout: bool,
}

/// Reads the content of a code line.
pub fn parse<'a>(content: &'a [u8], marks: &Marks) -> Result<Parsed<'a>, Malformed> {
    let mut parts = Vec::new();
    let mut left = content;
    loop {
        let copied = left.iter().take_while(|&&byte| byte != marks.escape).count();
        if copied > 0 {
            parts.push(Part::Bytes(&left[..copied]));
        }
        let Some((_, coded)) = left[copied..].split_first() else {
            return Ok(Parsed { parts, ending: Ending::Offer, owns_layout: false });
        };
        let begins_line = coded.len() + 1 == content.len();
        match step(coded, begins_line, marks)? {
            Step::Add(part) => parts.push(part),
            Step::End(ending) => {
                let writes = matches!(ending, Ending::Write { .. });
                return Ok(Parsed { parts, ending, owns_layout: begins_line && writes });
            }
        }
        // Every conversion that adds something has two bytes after e.
        left = &coded[2..];
    }
}

enum Step<'a> {
    Add(Part<'a>),
    End(Ending<'a>),
}

/// Reads the conversion or function in the bytes after an e.
fn step<'a>(coded: &'a [u8], begins_line: bool, marks: &Marks) -> Result<Step<'a>, Malformed> {
    match *coded {
        [b'F', function, ref rest @ ..] => function_ending(function, rest, begins_line, marks).map(Step::End),
        [b'0', k @ b'0'..=b'9', ..] => Ok(Step::Add(Part::CallNumber(k - b'0'))),
        [d @ b'1'..=b'9', conversion, ref rest @ ..] => {
            parameter_step(usize::from(d - b'1'), conversion, rest)
        }
        _ => Err(Malformed),
    }
}

fn parameter_step(parameter: usize, conversion: u8, rest: &[u8]) -> Result<Step<'_>, Malformed> {
    let conversion = match conversion {
        b'0' => Conversion::Itself,
        b'1' => Conversion::Stored,
        b'2' => Conversion::StoredOrNumbered,
        b'3' => Conversion::Delimiter,
        b'4' => Conversion::Value,
        b'5' => Conversion::Length,
        b'8' => Conversion::CodePoint,
        b'6' => return Ok(Step::End(Ending::Assign(parameter))),
        b'7' => return Ok(Step::End(Ending::Each { parameter, delimiters: rest })),
        _ => return Err(Malformed),
    };
    Ok(Step::Add(Part::Parameter(parameter, conversion)))
}

/// Reads a function; `rest` is what follows its digit.
fn function_ending<'a>(
    function: u8,
    rest: &[u8],
    begins_line: bool,
    marks: &Marks,
) -> Result<Ending<'a>, Malformed> {
    if !begins_line && function != b'1' && function != b'7' {
        return Err(Malformed);
    }
    match function {
        b'0' => Ok(Ending::Stop),
        b'1' => Ok(Ending::Write { channel: channel(rest)?, layout: None }),
        b'2' => channel(rest).map(Ending::Copy),
        b'3' => Ok(Ending::Store),
        b'4' => Ok(Ending::Skip),
        b'5' => match rest.first() {
            Some(b'0') => Ok(Ending::SkipText { equal: true }),
            Some(b'1') => Ok(Ending::SkipText { equal: false }),
            _ => Err(Malformed),
        },
        b'6' => comparison(rest, marks).map(Ending::SkipValue),
        // Where it ends is known once its eF8 is met.
        b'7' => Ok(Ending::Times { past: 0 }),
        b'8' => Ok(Ending::Again),
        b'9' => Ok(Ending::Return),
        _ => Err(Malformed),
    }
}

/// Reads the digit directly after functions 1 and 2; without one it is channel 3.
fn channel(suffix: &[u8]) -> Result<Channel, Malformed> {
    match suffix.first() {
        Some(b'0') => Ok(Channel::Nowhere),
        Some(b'3') => Ok(Channel::Output),
        Some(b'4') => Ok(Channel::Second),
        Some(digit) if digit.is_ascii_digit() => Err(Malformed),
        _ => Ok(Channel::Output),
    }
}

fn comparison(suffix: &[u8], marks: &Marks) -> Result<Comparison, Malformed> {
    match suffix.first() {
        Some(b'0') => Ok(Comparison::Equal),
        Some(b'1') => Ok(Comparison::Unequal),
        Some(&byte) if byte == marks.minus => Ok(Comparison::Less),
        Some(&byte) if byte == marks.plus => Ok(Comparison::Greater),
        _ => Err(Malformed),
    }
}

#[cfg(test)]
mod tests {
    use super::*;

    fn marks() -> Marks {
        Marks::read(b"$!$!0 (+-*/)").unwrap()
    }

    fn ending(content: &[u8]) -> Option<Ending<'_>> {
        parse(content, &marks()).ok().map(|parsed| parsed.ending)
    }

    #[test]
    fn every_two_bytes_after_an_escape() {
        for a in 0..=255u8 {
            for b in 0..=255u8 {
                let listed = match (a, b) {
                    (b'0', k) => k.is_ascii_digit(),
                    (b'1'..=b'9', c) => (b'0'..=b'8').contains(&c),
                    (b'F', f) => b"01234789".contains(&f),
                    _ => false,
                };
                assert_eq!(ending(&[b'!', a, b]).is_some(), listed, "{a} {b}");
            }
        }
    }

    #[test]
    fn functions_begin_their_line() {
        for (content, legal) in [
            (&b"A!F0"[..], false),
            (b"A!F1", true),
            (b"A!F10", true),
            (b"A!F14", true),
            (b"A!F2", false),
            (b"A!F24", false),
            (b"!10!F2", false),
            (b"A!F3", false),
            (b"A!F4", false),
            (b"A!F50", false),
            (b"A!F60", false),
            (b"A!F7", true),
            (b"A!F8", false),
            (b"A!F9", false),
            (b"!10!F3", false),
        ] {
            assert_eq!(ending(content).is_some(), legal, "{content:?}");
        }
    }

    #[test]
    fn suffixes() {
        assert_eq!(ending(b"!F50"), Some(Ending::SkipText { equal: true }));
        assert_eq!(ending(b"!F51"), Some(Ending::SkipText { equal: false }));
        assert_eq!(ending(b"!F5"), None);
        assert_eq!(ending(b"!F52"), None);
        assert_eq!(ending(b"!F6-"), Some(Ending::SkipValue(Comparison::Less)));
        assert_eq!(ending(b"!F6+"), Some(Ending::SkipValue(Comparison::Greater)));
        assert_eq!(ending(b"!F6"), None);
        assert_eq!(ending(b"!F6*"), None);
        assert_eq!(ending(b"A!27,;"), Some(Ending::Each { parameter: 1, delimiters: b",;" }));
    }

    /// The channel of function 1, which must be that of function 2, by what follows.
    fn channel_before(suffix: &[u8]) -> Option<Channel> {
        let written = match ending(&[b"!F1", suffix].concat()) {
            Some(Ending::Write { channel, layout: None }) => Some(channel),
            None => None,
            other => panic!("{other:?}"),
        };
        let copied = ending(&[b"!F2", suffix].concat()) == written.map(Ending::Copy);
        assert!(copied, "{}", suffix.escape_ascii());
        written
    }

    #[test]
    fn channels() {
        assert_eq!(channel_before(b""), Some(Channel::Output));
        for byte in 0..=255 {
            let expected = match byte {
                b'0' => Some(Channel::Nowhere),
                b'4' => Some(Channel::Second),
                b'1' | b'2' | b'5'..=b'9' => None,
                _ => Some(Channel::Output),
            };
            assert_eq!(channel_before(&[byte]), expected, "{byte}");
            // The second byte is no code, whatever it is.
            for second in *b"04 !F" {
                assert_eq!(channel_before(&[byte, second]), expected, "{byte} {second}");
            }
        }
    }

    #[test]
    fn only_function_1_at_the_beginning_owns_a_layout() {
        for (content, owns) in [
            (&b"!F1"[..], true),
            (b"!F10", true),
            (b"!F14", true),
            (b"A!F14", false),
            (b"!F2", false),
            (b"!F24", false),
        ] {
            assert_eq!(parse(content, &marks()).unwrap().owns_layout, owns, "{}", content.escape_ascii());
        }
    }

    #[test]
    fn nothing_after_an_ending_is_code() {
        let written = Ending::Write { channel: Channel::Output, layout: None };
        assert_eq!(ending(b"A!16!!"), Some(Ending::Assign(0)));
        assert_eq!(ending(b"!F9!"), Some(Ending::Return));
        assert_eq!(ending(b"!F24!"), Some(Ending::Copy(Channel::Second)));
        assert_eq!(ending(b"A!F1!F!"), Some(written));
    }

    #[test]
    fn cut_short_is_malformed() {
        for content in [&b"!"[..], b"A!", b"!1", b"!F", b"!0", b"!!", b"!!10"] {
            assert_eq!(ending(content), None, "{content:?}");
        }
    }
}
