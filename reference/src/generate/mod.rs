//! Random texts, lines, fuels and rooms for comparing implementations.
//!
//! A seed decides everything, so a difference found once can be found again.

mod body;
mod characters;
mod edges;
mod mutation;
mod outputs;
mod pattern;
mod places;
mod random;
mod style;
mod trees;
mod uses;
mod values;

pub use pattern::pattern;

use body::Bodies;
use places::Lines;
use random::Random;
use style::Style;

use crate::REPORT_ROOM;

/// How long texts and lines may be.
#[derive(Clone, Copy, Debug, PartialEq, Eq)]
pub enum Size {
    /// For slow checkers, which list all readings of a line: at most
    /// [`SMALL_TEXT`] bytes, at most four placeholders in a template or short
    /// lines, and lines that hardly grow.
    Small,
    /// Up to the limits of document 01 and past them.
    Large,
}

/// The most bytes of a small text.
pub const SMALL_TEXT: usize = 250;

/// A source of random arguments for the public calls.
#[derive(Clone, Debug)]
pub struct Generator {
    random: Random,
}

impl Generator {
    pub fn new(seed: u64) -> Generator {
        Generator { random: Random::new(seed) }
    }

    /// A text. About nine of ten load.
    pub fn text(&mut self, size: Size) -> Vec<u8> {
        loop {
            let text = match self.random.weighted(&[70, 19, 11, 7, 7, 7, 6, 8, 7]) {
                0 => self.plain_text(size),
                1 => {
                    let mut text = self.plain_text(size);
                    mutation::mutate(&mut self.random, &mut text);
                    text
                }
                2 => edges::text(&mut self.random, size),
                3 => self.character_text(),
                4 => self.value_text(),
                5 => self.places_text(size),
                6 => self.brackets_text(size),
                7 => self.output_text(size),
                _ => self.uses_text(size),
            };
            if size == Size::Large || text.len() <= SMALL_TEXT {
                return text;
            }
        }
    }

    /// A small text that counts, values and takes apart characters.
    pub fn character_text(&mut self) -> Vec<u8> {
        characters::text(&mut self.random)
    }

    /// A small text that values, compares, skips and counts passes near the ends
    /// of the range.
    pub fn value_text(&mut self) -> Vec<u8> {
        values::text(&mut self.random)
    }

    /// A text with many placeholders, equal separators and lines of equal bytes.
    pub fn places_text(&mut self, size: Size) -> Vec<u8> {
        places::text(&mut self.random, size, Lines::Equal)
    }

    /// A text with placeholders beside brackets, and lines of brackets with partners
    /// and without.
    pub fn brackets_text(&mut self, size: Size) -> Vec<u8> {
        places::text(&mut self.random, size, Lines::Brackets)
    }

    /// A text that writes to both outputs and copies input lines to them.
    pub fn output_text(&mut self, size: Size) -> Vec<u8> {
        outputs::text(&mut self.random, size)
    }

    /// A text that uses its templates often, once or never, and passes lines through.
    pub fn uses_text(&mut self, size: Size) -> Vec<u8> {
        uses::text(&mut self.random, size)
    }

    /// A text of templates alone, many of them in some, with all kinds of children.
    pub fn tree_text(&mut self) -> Vec<u8> {
        trees::text(&mut self.random)
    }

    /// An expression near the ends of the range in the session's marks, and names
    /// with what is stored under them.
    pub fn expression(&mut self) -> (String, [(&'static str, String); 2]) {
        values::with_names(&mut self.random)
    }

    /// A line for fitting that resembles one of the text's templates.
    pub fn line(&mut self, text: &[u8], size: Size) -> Vec<u8> {
        let style = Style::of_text(text);
        let lines: Vec<&[u8]> = text.split(|&byte| byte == b'\n').skip(1).collect();
        let placeholders = lines.iter().map(|line| style.placeholders(line)).max().unwrap_or(0);
        let mut line = self.any_line(&style, &lines);
        // With two placeholders the readings of the longest lines can be listed.
        if size == Size::Small && placeholders > 2 {
            line.truncate(places::listed_length(placeholders));
        }
        line
    }

    fn any_line(&mut self, style: &Style, lines: &[&[u8]]) -> Vec<u8> {
        if self.random.chance(6) {
            return self.long_line(style);
        }
        if lines.is_empty() || self.random.chance(15) {
            return style.piece(&mut self.random, 8);
        }
        let template = lines[self.random.below(lines.len())];
        let mut line = style.instance(&mut self.random, template);
        if self.random.chance(20) {
            mutation::change_byte(&mut self.random, &mut line);
        }
        line
    }

    /// A line near the limit of 200 bytes, in few distinct bytes.
    fn long_line(&mut self, style: &Style) -> Vec<u8> {
        let length = self.random.between(196, 203);
        let unit = style.piece(&mut self.random, 3);
        let mut line: Vec<u8> = unit.iter().chain(b"A").copied().cycle().take(length).collect();
        let last = style.literal(&mut self.random);
        line[length - 1] = last;
        line
    }

    /// A text or line with a few changes.
    pub fn changed(&mut self, bytes: &[u8]) -> Vec<u8> {
        let mut changed = bytes.to_vec();
        mutation::mutate(&mut self.random, &mut changed);
        changed
    }

    /// A fuel, now and then an illegal one.
    pub fn fuel(&mut self) -> u64 {
        let random = &mut self.random;
        match random.weighted(&[2, 4, 30, 40, 22, 2]) {
            0 => random.pick(&[0, 1_000_001, u64::MAX]),
            1 => 1,
            2 => random.between(2, 20) as u64,
            3 => random.between(21, 300) as u64,
            4 => random.between(1_000, 10_000) as u64,
            _ => random.pick(&[999_999, 1_000_000]),
        }
    }

    /// A room for an output: none, a byte, a few bytes, or plenty.
    pub fn room(&mut self) -> usize {
        let random = &mut self.random;
        match random.weighted(&[3, 3, 20, 74]) {
            0 => 0,
            1 => 1,
            2 => random.between(2, 60),
            _ => random.pick(&[200, 4_096, 65_536]),
        }
    }

    /// A room for the report: mostly the least that is legal or more, now and then one
    /// byte less, or none.
    pub fn report_room(&mut self) -> usize {
        let random = &mut self.random;
        match random.weighted(&[60, 34, 4, 2]) {
            0 => REPORT_ROOM,
            1 => REPORT_ROOM + random.between(1, 100),
            2 => REPORT_ROOM - 1,
            _ => 0,
        }
    }

    /// A flag line, a section that mostly loads, and input lines.
    fn plain_text(&mut self, size: Size) -> Vec<u8> {
        let random = &mut self.random;
        let style = Style::any(random);
        let templates = templates(random, &style, size);
        let mut text = style.flag_line(random);
        let mut bodies = Bodies { random, style: &style, templates: &templates, size };
        let last = templates.len() - 1;
        for (place, template) in templates.iter().enumerate() {
            text.extend_from_slice(template);
            style.end_source(bodies.random, &mut text);
            for code in bodies.body() {
                text.extend_from_slice(&code);
                style.end_code(bodies.random, &mut text);
            }
            let ends = if place == last { 2 } else { 1 };
            text.extend(std::iter::repeat_n(style.code_end(), ends));
            text.push(b'\n');
        }
        self.input(&style, &templates, size, &mut text);
        text
    }

    fn input(&mut self, style: &Style, templates: &[Vec<u8>], size: Size, text: &mut Vec<u8>) {
        let random = &mut self.random;
        let most = if size == Size::Small { 5 } else { 16 };
        let count = if random.chance(6) { 0 } else { random.between(1, most) };
        for _ in 0..count {
            let line = if random.chance(80) {
                let template = random.below(templates.len());
                style.instance(random, &templates[template])
            } else {
                style.piece(random, 6)
            };
            if size == Size::Small && text.len() + line.len() + 2 > SMALL_TEXT {
                return;
            }
            text.extend_from_slice(&line);
            style.end_source(random, text);
        }
        if random.chance(10) && text.last() == Some(&b'\n') {
            text.pop();
        }
    }
}

/// The templates of a section: few bytes, shared beginnings, hardly ever two
/// alike.
fn templates(random: &mut Random, style: &Style, size: Size) -> Vec<Vec<u8>> {
    let wanted = random.between(1, if size == Size::Small { 3 } else { 7 });
    let mut templates: Vec<Vec<u8>> = Vec::new();
    while templates.len() < wanted {
        let mut template = Vec::new();
        if !templates.is_empty() && random.chance(45) {
            let earlier = &templates[random.below(templates.len())];
            template.extend_from_slice(&earlier[..random.below(earlier.len() + 1)]);
        }
        for _ in 0..random.between(0, 4) {
            template.push(style.template_byte(random));
        }
        let most = if size == Size::Small { 4 } else { 9 };
        let fits = style.placeholders(&template) <= most;
        if fits && (!templates.contains(&template) || random.chance(4)) {
            templates.push(template);
        }
    }
    templates
}
