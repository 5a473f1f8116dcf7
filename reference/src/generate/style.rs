//! The marks of a random text, and rows of bytes that go with them.

use super::characters;
use super::random::Random;

/// Flag lines to choose from: the session's, equal and different pairs,
/// letters, bytes over 127, and marks among the bytes that templates use.
const FLAGS: [&[u8; 12]; 9] = [
    b"$!$!0 (+-*/)",
    b".#$!0 (+-*/)",
    b"$#$!0 (+-*/)",
    b".!$!0 (+-*/)",
    b"$!$!0_[apmd]",
    b"\xe9f\xe9f0 (+-*/)",
    b"B!B!0 (+-*/)",
    b"$A$A0 (+-*/)",
    b"$!$!0 B,-*/A",
];

const FLAG_WEIGHTS: [usize; 9] = [50, 12, 8, 8, 8, 4, 3, 3, 4];

/// The bytes that templates and lines are made of, likelier ones repeated.
const LITERALS: &[u8] = b"AAAABBB,=1";

/// The marks of a text, and whether there are characters of several bytes in it.
#[derive(Clone, Debug)]
pub struct Style {
    flags: [u8; 12],
    accents: bool,
}

impl Style {
    pub fn any(random: &mut Random) -> Style {
        Style { flags: *FLAGS[random.weighted(&FLAG_WEIGHTS)], accents: random.chance(20) }
    }

    /// The session's marks.
    pub fn usual() -> Style {
        Style { flags: *FLAGS[0], accents: false }
    }

    /// The style of a text; the marks are the session's if it has no twelve bytes.
    pub fn of_text(text: &[u8]) -> Style {
        match text.first_chunk() {
            Some(flags) => Style { flags: *flags, accents: !text.is_ascii() },
            None => Style::usual(),
        }
    }

    pub fn has_accents(&self) -> bool {
        self.accents
    }

    pub fn code_end(&self) -> u8 {
        self.flags[2]
    }

    pub fn escape(&self) -> u8 {
        self.flags[3]
    }

    pub fn placeholder(&self) -> u8 {
        self.flags[1]
    }

    pub fn left(&self) -> u8 {
        self.flags[6]
    }

    pub fn right(&self) -> u8 {
        self.flags[11]
    }

    pub fn plus(&self) -> u8 {
        self.flags[7]
    }

    pub fn minus(&self) -> u8 {
        self.flags[8]
    }

    pub fn operator(&self, random: &mut Random) -> u8 {
        random.pick(&self.flags[7..11])
    }

    /// A byte in brackets or between expressions: marks 6 to 12.
    pub fn syntax(&self, random: &mut Random) -> u8 {
        random.pick(&self.flags[5..])
    }

    pub fn bracketed(&self, inner: &[u8]) -> Vec<u8> {
        let mut row = vec![self.left()];
        row.extend_from_slice(inner);
        row.push(self.right());
        row
    }

    pub fn flag_line(&self, random: &mut Random) -> Vec<u8> {
        let mut line = self.flags.to_vec();
        if random.chance(5) {
            line.extend_from_slice(b" more");
        }
        line.push(b'\n');
        line
    }

    /// The number of placeholders in a template.
    pub fn placeholders(&self, template: &[u8]) -> usize {
        template.iter().filter(|&&byte| byte == self.placeholder()).count()
    }

    /// A byte without a meaning in templates and code.
    pub fn literal(&self, random: &mut Random) -> u8 {
        loop {
            let byte = random.pick(LITERALS);
            if !self.flags[..4].contains(&byte) {
                return byte;
            }
        }
    }

    /// Any byte that a line can have but marks 1 to 4.
    pub fn any_byte(&self, random: &mut Random) -> u8 {
        loop {
            let byte = random.between(1, 255) as u8;
            if byte != b'\n' && !self.flags[..4].contains(&byte) {
                return byte;
            }
        }
    }

    /// The bytes of a letter: a literal, or now and then a character of several bytes.
    pub fn letter(&self, random: &mut Random) -> Vec<u8> {
        if self.accents && random.chance(30) {
            characters::bytes(random)
        } else {
            vec![self.literal(random)]
        }
    }

    /// Half a character among them, so that a template may split one.
    pub fn template_byte(&self, random: &mut Random) -> u8 {
        match random.weighted(&[60, 32, 4, 4]) {
            0 if self.accents && random.chance(8) => random.pick(characters::HALVES),
            0 => self.literal(random),
            1 => self.placeholder(),
            2 => self.left(),
            _ => self.right(),
        }
    }

    /// A row of bytes for a line, mostly balanced.
    pub fn piece(&self, random: &mut Random, most: usize) -> Vec<u8> {
        let mut piece = Vec::new();
        for _ in 0..random.below(most + 1) {
            match random.weighted(&[80, 9, 4, 3, 4]) {
                0 => piece.extend(self.letter(random)),
                1 => piece = self.bracketed(&piece),
                2 => piece.push(random.pick(b"0123")),
                3 => piece.push(self.syntax(random)),
                _ => piece.push(random.pick(&self.flags[..4])),
            }
        }
        piece
    }

    /// A line that a template could be chosen for.
    pub fn instance(&self, random: &mut Random, template: &[u8]) -> Vec<u8> {
        let mut line = Vec::new();
        for &byte in template {
            if byte == self.placeholder() {
                line.extend(self.argument(random));
            } else {
                line.push(byte);
            }
        }
        line
    }

    /// Something to stand at a placeholder: a number, a list or any row.
    fn argument(&self, random: &mut Random) -> Vec<u8> {
        match random.weighted(&[35, 15, 50]) {
            0 => vec![random.pick(b"001123")],
            1 => {
                let mut list = self.piece(random, 2);
                list.push(b',');
                list.extend(self.piece(random, 2));
                list
            }
            _ => self.piece(random, 4),
        }
    }

    /// Ends a template's or input line, perhaps with mark 1 and a note.
    pub fn end_source(&self, random: &mut Random, text: &mut Vec<u8>) {
        self.end(random, self.flags[0], text);
    }

    /// Ends a code line that has bytes, perhaps with mark 3 and a note. A line
    /// without bytes would become the macro's end.
    pub fn end_code(&self, random: &mut Random, text: &mut Vec<u8>) {
        if text.last() == Some(&b'\n') {
            text.push(b'\n');
        } else {
            self.end(random, self.flags[2], text);
        }
    }

    fn end(&self, random: &mut Random, mark: u8, text: &mut Vec<u8>) {
        if random.chance(25) {
            text.push(mark);
            if random.chance(10) {
                text.push(random.pick(b"A! $"));
            }
        }
        text.push(b'\n');
    }
}
