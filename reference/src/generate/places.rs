//! Texts that keep a search busy: many placeholders with equal separators,
//! templates that share all but their ends, and lines of many equal bytes, or of
//! brackets, that fit nowhere, or at the very last place.

use super::random::Random;
use super::style::Style;
use super::{Size, SMALL_TEXT};

/// What is done with the pieces, in the session's marks: nothing, writing them,
/// taking one apart, offering a line of them, which may be a call again.
const BODIES: [&str; 5] =
    ["", "!10.!20.!30.!40.!50.!60.!70.!80.!90!F1\n", "<!10>!90!F1\n", "!10!27A\n!20!F1\n!F8\n", "!20!10\n"];

/// How many of them don't make lines longer.
const SMALL_BODIES: usize = 3;

/// How many splits of a line into pieces a slow checker can list.
const LISTED_SPLITS: f64 = 20_000.0;

/// The most bytes of a line of brackets in a small text: a slow checker may look for
/// each partner anew.
const SMALL_BRACKETS: usize = 60;

/// The most bytes of a line whose splits into so many pieces, and a rest, can be
/// listed.
pub fn listed_length(pieces: usize) -> usize {
    let splits =
        |length: usize| -> f64 { (1..=pieces).map(|place| (length + place) as f64 / place as f64).product() };
    (0..=200).rev().find(|&length| splits(length) <= LISTED_SPLITS).unwrap_or(0)
}

/// What the lines of a text are made of.
#[derive(Clone, Copy, Debug, PartialEq, Eq)]
pub enum Lines {
    /// A few bytes again and again.
    Equal,
    /// Brackets with partners and without, nested and in rows.
    Brackets,
}

/// A text about places: templates from one row of placeholders and separators,
/// and lines that keep the search busy.
pub fn text(random: &mut Random, size: Size, lines: Lines) -> Vec<u8> {
    let style = Style::any(random);
    let separator = separator(random, &style, lines);
    let mut places = Places { random, style, separator, size, lines };
    let templates = places.templates();
    let mut text = places.section(&templates);
    places.input(&templates, &mut text);
    text
}

/// What stands between two placeholders: a byte, nothing, or brackets, each more
/// or less often.
fn separator(random: &mut Random, style: &Style, lines: Lines) -> Vec<u8> {
    let byte = style.literal(random);
    let weights = match lines {
        Lines::Equal => [62, 8, 7, 9, 5, 4, 5],
        Lines::Brackets => [15, 3, 2, 20, 25, 15, 20],
    };
    match random.weighted(&weights) {
        0 => vec![byte],
        1 => vec![byte, byte],
        2 => vec![byte, style.literal(random)],
        3 => vec![],
        4 => vec![style.left()],
        5 => vec![style.right()],
        _ => style.bracketed(&[]),
    }
}

struct Places<'a> {
    random: &'a mut Random,
    style: Style,
    separator: Vec<u8>,
    size: Size,
    lines: Lines,
}

impl Places<'_> {
    /// Templates that begin with a common row, or with a part of it, and differ in
    /// what stands after it. Now and then there is another separator too, and a
    /// row for each template.
    fn templates(&mut self) -> Vec<Vec<u8>> {
        let most = self.most_templates();
        let placeholders = self.most_placeholders();
        let other = if self.random.chance(20) { Some(self.style.literal(self.random)) } else { None };
        let common = self.row(placeholders, None);
        let mut templates: Vec<Vec<u8>> = Vec::new();
        let mut tried = 0;
        while tried < most || templates.is_empty() {
            tried += 1;
            let row = if other.is_some() { self.row(placeholders, other) } else { common.clone() };
            let template = self.template(&row);
            let legal = self.style.placeholders(&template) <= 9 && !templates.contains(&template);
            if legal || self.random.chance(1) {
                templates.push(template);
            }
        }
        templates
    }

    fn most_templates(&mut self) -> usize {
        match self.size {
            Size::Small => self.random.between(1, 3),
            Size::Large if self.random.chance(5) => self.random.between(20, 60),
            Size::Large => self.random.between(1, 7),
        }
    }

    fn most_placeholders(&mut self) -> usize {
        match (self.lines, self.size) {
            // With more of them the lines of a small text have hardly a bracket.
            (Lines::Brackets, Size::Small) => self.random.between(1, 4),
            (Lines::Brackets, Size::Large) => self.random.between(1, 9),
            (Lines::Equal, _) if self.random.chance(50) => 9,
            (Lines::Equal, _) => self.random.between(2, 9),
        }
    }

    /// So many placeholders, with the separator, or now and then the other one,
    /// between each and the next.
    fn row(&mut self, placeholders: usize, other: Option<u8>) -> Vec<u8> {
        let mut row = vec![self.style.placeholder()];
        for _ in 1..placeholders {
            match other {
                Some(byte) if self.random.chance(30) => row.push(byte),
                _ => row.extend_from_slice(&self.separator),
            }
            row.push(self.style.placeholder());
        }
        row
    }

    /// The row, or a part of it, and a tail. With the first placeholder alone it is
    /// a template that is found after all others.
    fn template(&mut self, row: &[u8]) -> Vec<u8> {
        let shared = match self.random.weighted(&[55, 25, 20]) {
            0 => row.len(),
            1 => self.random.below(row.len() + 1),
            _ => 1,
        };
        [&self.head(), &row[..shared], &self.tail()].concat()
    }

    /// Where lines are brackets, perhaps some left ones, so that each template looks
    /// for its first atom at another depth.
    fn head(&mut self) -> Vec<u8> {
        if self.lines == Lines::Equal || self.random.chance(50) {
            return vec![];
        }
        let depth = match self.size {
            Size::Large if self.random.chance(20) => self.random.between(1, 100),
            _ => self.random.between(1, 4),
        };
        vec![self.style.left(); depth]
    }

    /// Mostly bytes that are to be looked for up to the line's end. Among brackets
    /// hardly a line has them there, so there is more often no tail.
    fn tail(&mut self) -> Vec<u8> {
        let weights = if self.lines == Lines::Brackets { [40, 30, 15, 15] } else { [10, 50, 25, 15] };
        let (length, any) = match self.random.weighted(&weights) {
            0 => (0, false),
            1 => (1, false),
            2 => (2, false),
            _ => (self.random.between(1, 3), true),
        };
        let byte = if any { Style::template_byte } else { Style::literal };
        (0..length).map(|_| byte(&self.style, self.random)).collect()
    }

    /// The flag line, and a macro for each template.
    fn section(&mut self, templates: &[Vec<u8>]) -> Vec<u8> {
        let mut text = self.style.flag_line(self.random);
        for (place, template) in templates.iter().enumerate() {
            text.extend_from_slice(template);
            self.style.end_source(self.random, &mut text);
            text.extend(self.body());
            let ends = if place + 1 == templates.len() { 2 } else { 1 };
            text.extend(std::iter::repeat_n(self.style.code_end(), ends));
            text.push(b'\n');
        }
        text
    }

    /// A body in the style's marks.
    fn body(&mut self) -> Vec<u8> {
        let choices = if self.size == Size::Small { SMALL_BODIES } else { BODIES.len() };
        let body = BODIES[self.random.below(choices)].bytes();
        body.map(|byte| if byte == b'!' { self.style.escape() } else { byte }).collect()
    }

    fn input(&mut self, templates: &[Vec<u8>], text: &mut Vec<u8>) {
        let most = if self.size == Size::Small { 3 } else { 6 };
        for _ in 0..self.random.between(1, most) {
            let line = self.line(templates);
            if self.size == Size::Small && text.len() + line.len() + 3 > SMALL_TEXT {
                return;
            }
            text.extend(line);
            self.style.end_source(self.random, text);
        }
    }

    /// A line of its kind, perhaps with other brackets put into it, and perhaps with
    /// the end of a template as its end.
    fn line(&mut self, templates: &[Vec<u8>]) -> Vec<u8> {
        let most = self.longest_line(templates);
        let length = if self.random.chance(65) { most } else { self.random.below(most + 1) };
        let mut line: Vec<u8> = match self.lines {
            Lines::Equal => self.unit().into_iter().cycle().take(length).collect(),
            Lines::Brackets => self.brackets(length),
        };
        if self.random.chance(35) {
            for _ in 0..self.random.between(1, 4) {
                self.put_brackets(&mut line);
            }
        }
        if self.random.chance(50) {
            let template = &templates[self.random.below(templates.len())];
            let end = template.iter().rev().take_while(|byte| **byte != self.style.placeholder());
            line.iter_mut().rev().zip(end).for_each(|(byte, end)| *byte = *end);
        }
        line
    }

    fn longest_line(&mut self, templates: &[Vec<u8>]) -> usize {
        let placeholders = templates.iter().map(|row| self.style.placeholders(row)).max().unwrap_or(0);
        match self.size {
            Size::Small if self.lines == Lines::Brackets => listed_length(placeholders).min(SMALL_BRACKETS),
            Size::Small => listed_length(placeholders),
            Size::Large if self.random.chance(5) => 201,
            Size::Large => 200,
        }
    }

    /// What a line repeats: the separator, mostly.
    fn unit(&mut self) -> Vec<u8> {
        let mut unit = match self.random.weighted(&[75, 10, 15]) {
            0 => self.separator.clone(),
            1 => self.style.bracketed(&self.separator),
            _ => self.style.piece(self.random, 3),
        };
        if unit.is_empty() {
            unit.push(self.style.literal(self.random));
        }
        unit
    }

    /// So many bytes: nested brackets, left ones alone, pairs in a row, or any
    /// brackets with separators and other bytes among them.
    fn brackets(&mut self, length: usize) -> Vec<u8> {
        let (left, right) = (self.style.left(), self.style.right());
        match self.random.weighted(&[30, 10, 15, 45]) {
            0 => [vec![left; length / 2], vec![right; length - length / 2]].concat(),
            1 => vec![left; length],
            2 => [left, right].into_iter().cycle().take(length).collect(),
            _ => {
                let mut line = Vec::new();
                while line.len() < length {
                    match self.random.weighted(&[30, 25, 15, 15, 15]) {
                        0 => line.push(left),
                        1 => line.push(right),
                        2 => line.extend([left, right]),
                        3 => line.extend_from_slice(&self.separator),
                        _ => line.push(self.style.literal(self.random)),
                    }
                }
                line.truncate(length);
                line
            }
        }
    }

    /// Puts a left bracket and a right one behind it into a line, or one of them.
    fn put_brackets(&mut self, line: &mut [u8]) {
        if line.is_empty() {
            return;
        }
        let (a, b) = (self.random.below(line.len()), self.random.below(line.len()));
        let (left, right) = (self.style.left(), self.style.right());
        match self.random.weighted(&[80, 10, 10]) {
            0 => (line[a.min(b)], line[a.max(b)]) = (left, right),
            1 => line[a] = left,
            _ => line[a] = right,
        }
    }
}
