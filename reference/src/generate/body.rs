//! Random bodies: code lines that load, and mostly do something.

use super::characters;
use super::random::Random;
use super::style::Style;
use super::values;
use super::Size;

/// Expressions that give fault 15 unless such a name is stored.
const FAULTS: [&[u8]; 4] = [b"A", b"1A", b"9223372036854775808", b"B1"];

/// Function 1 with the digits it may have.
const CHANNELS: [&[u8]; 6] = [b"1", b"1", b"13", b"14", b"14", b"10"];

/// Function 2 with the digits it may have; a blank before the digit makes it none.
const COPIES: [&[u8]; 7] = [b"2", b"2", b"23", b"24", b"24", b"20", b"2 4"];

/// How likely each conversion is; 5 and 8 are likelier where there are
/// characters of several bytes.
const CONVERSION_WEIGHTS: [usize; 8] = [48, 10, 10, 8, 4, 8, 3, 9];
const ACCENT_WEIGHTS: [usize; 8] = [44, 8, 8, 8, 4, 14, 6, 8];

pub struct Bodies<'a> {
    pub random: &'a mut Random,
    pub style: &'a Style,
    pub templates: &'a [Vec<u8>],
    pub size: Size,
}

/// Code lines, layouts included.
type Lines = Vec<Vec<u8>>;

impl Bodies<'_> {
    /// A body of a few statements.
    pub fn body(&mut self) -> Lines {
        let most = if self.size == Size::Small { 3 } else { 8 };
        self.block(most, 0)
    }

    fn block(&mut self, most: usize, depth: usize) -> Lines {
        let mut lines = Lines::new();
        for _ in 0..self.random.below(most + 1) {
            lines.extend(self.statement(depth));
        }
        lines
    }

    fn statement(&mut self, depth: usize) -> Lines {
        match self.random.weighted(&[22, 14, 7, 10, 9, 9, 12, 10, 8, 8, 6, 2]) {
            0 => vec![self.offered()],
            1 => vec![self.written()],
            2 => self.laid_out(),
            3 => vec![self.assigned()],
            4 => self.valued(),
            5 => self.stored(),
            6 => self.skip(),
            7 if depth < 4 => self.each(depth),
            8 if depth < 4 => self.times(depth),
            9 => self.comparison(),
            10 => self.copied(),
            11 => {
                let digit = self.random.pick(b"09");
                vec![self.function(&[digit])]
            }
            _ => vec![self.written()],
        }
    }

    /// An escape and two bytes.
    fn escape(&self, first: u8, second: u8) -> Vec<u8> {
        vec![self.style.escape(), first, second]
    }

    fn function(&self, suffix: &[u8]) -> Vec<u8> {
        let mut line = vec![self.style.escape(), b'F'];
        line.extend_from_slice(suffix);
        line
    }

    /// A parameter digit; the first ones are likelier to be filled.
    fn parameter(&mut self) -> u8 {
        self.random.pick(b"1111122223349")
    }

    /// Bytes and conversions. A small text names each parameter at most once,
    /// so that lines do not double from call to call.
    fn row(&mut self, most: usize) -> Vec<u8> {
        let mut row = Vec::new();
        let mut used = Vec::new();
        for _ in 0..self.random.below(most + 1) {
            if self.random.chance(55) {
                row.extend(self.row_bytes());
                continue;
            }
            let parameter = self.parameter();
            if self.size == Size::Small && used.contains(&parameter) {
                continue;
            }
            used.push(parameter);
            row.extend(self.conversion(parameter));
        }
        row
    }

    /// A byte, or a character of several bytes, without a meaning in code.
    fn row_bytes(&mut self) -> Vec<u8> {
        if !self.style.has_accents() || self.random.chance(75) {
            return vec![self.row_byte()];
        }
        let mut bytes = characters::bytes(self.random);
        bytes.retain(|&byte| !self.is_reserved(byte));
        bytes
    }

    fn is_reserved(&self, byte: u8) -> bool {
        byte == self.style.code_end() || byte == self.style.escape()
    }

    fn row_byte(&mut self) -> u8 {
        match self.random.weighted(&[80, 10, 10]) {
            0 => self.style.literal(self.random),
            1 => self.random.pick(b"012"),
            _ => {
                let byte = self.style.syntax(self.random);
                if self.is_reserved(byte) {
                    b'A'
                } else {
                    byte
                }
            }
        }
    }

    fn conversion(&mut self, parameter: u8) -> Vec<u8> {
        let weights = if self.style.has_accents() { ACCENT_WEIGHTS } else { CONVERSION_WEIGHTS };
        match self.random.weighted(&weights) {
            0 => self.escape(parameter, b'0'),
            1 => self.escape(parameter, b'1'),
            2 => self.escape(parameter, b'2'),
            3 => self.escape(parameter, b'3'),
            4 => self.escape(parameter, b'4'),
            5 => self.escape(parameter, b'5'),
            6 => self.escape(parameter, b'8'),
            _ => {
                let k = self.random.pick(b"0123456789");
                self.escape(b'0', k)
            }
        }
    }

    /// A plain line, often made from a template so that it is a call.
    fn offered(&mut self) -> Vec<u8> {
        if self.random.chance(35) {
            return self.row(5);
        }
        let template = &self.templates[self.random.below(self.templates.len())];
        let mut line = Vec::new();
        for &byte in template {
            if self.style.placeholders(&[byte]) == 1 {
                line.extend(self.row(2));
            } else if byte != self.style.escape() && byte != self.style.code_end() {
                line.push(byte);
            }
        }
        line
    }

    fn written(&mut self) -> Vec<u8> {
        let mut line = self.row(5);
        let channel = self.random.pick(&CHANNELS);
        if line.is_empty() {
            // At the line's beginning it would own a layout.
            line.push(b'x');
        }
        line.extend(self.function(channel));
        line
    }

    fn laid_out(&mut self) -> Lines {
        let channel = self.random.pick(&CHANNELS);
        let owner = self.function(channel);
        let mut layout = Vec::new();
        for _ in 0..self.random.below(5) {
            let byte = self.random.pick(b"112230x9 ");
            layout.extend(std::iter::repeat_n(byte, self.random.between(1, 3)));
        }
        if self.random.chance(10) {
            layout.push(self.style.escape());
        }
        vec![owner, layout]
    }

    /// A copy, mostly with a parameter 1 of its own.
    fn copied(&mut self) -> Lines {
        let mut lines = Lines::new();
        if self.random.chance(70) {
            let stop = self.stop();
            lines.push(self.assign(&stop, b'1'));
        }
        let channel = self.random.pick(&COPIES);
        lines.push(self.function(channel));
        lines
    }

    /// What stops a copy: what input lines often begin with, a row, or nothing.
    fn stop(&mut self) -> Vec<u8> {
        match self.random.weighted(&[50, 25, 15, 10]) {
            0 => vec![self.style.literal(self.random)],
            1 => {
                let template = &self.templates[self.random.below(self.templates.len())];
                let start = template.iter().copied().take_while(|byte| *byte != self.style.placeholder());
                start.filter(|&byte| !self.is_reserved(byte)).collect()
            }
            2 => self.row(2),
            _ => Vec::new(),
        }
    }

    fn assigned(&mut self) -> Vec<u8> {
        let mut line = self.row(4);
        let parameter = self.parameter();
        line.extend(self.escape(parameter, b'6'));
        line
    }

    /// Gives a parameter a row of bytes.
    fn assign(&mut self, row: &[u8], parameter: u8) -> Vec<u8> {
        let mut line = row.to_vec();
        line.extend(self.escape(parameter, b'6'));
        line
    }

    /// An expression, and a line with its value.
    fn valued(&mut self) -> Lines {
        let expression = self.expression(3);
        let parameter = self.parameter();
        let mut line = self.escape(parameter, b'4');
        if self.random.chance(50) {
            line.extend(self.function(b"1"));
        } else {
            line.extend(self.escape(parameter, b'6'));
        }
        vec![self.assign(&expression, parameter), line]
    }

    /// Mostly legal: each level is an operand, a sum or a product.
    fn expression(&mut self, depth: usize) -> Vec<u8> {
        if self.random.chance(3) {
            return self.random.pick(&FAULTS).to_vec();
        }
        let mut row = Vec::new();
        if self.random.chance(15) {
            row.push(self.random.pick(&[self.style.plus(), self.style.minus()]));
        }
        row.extend(self.operand(depth));
        while depth > 0 && self.random.chance(40) {
            row.push(self.style.operator(self.random));
            row.extend(self.operand(depth));
        }
        if self.random.chance(2) {
            row.push(self.style.syntax(self.random));
        }
        row
    }

    fn operand(&mut self, depth: usize) -> Vec<u8> {
        match self.random.weighted(&[66, 8, 14, 6, 4, 4]) {
            0 => vec![self.random.pick(b"0112234579")],
            1 => self.large_operand(),
            2 if depth > 0 => {
                let inner = self.expression(depth - 1);
                self.style.bracketed(&inner)
            }
            3 => self.escape(b'1', b'0'),
            4 => self.escape(b'1', b'5'),
            5 => vec![self.style.literal(self.random)],
            _ => b"3".to_vec(),
        }
    }

    /// Digits near the end of a range, the least value, or a few digits.
    fn large_operand(&mut self) -> Vec<u8> {
        match self.random.weighted(&[50, 15, 35]) {
            0 => values::digits(self.random).into_bytes(),
            1 => {
                let minus = self.style.minus();
                let least = [&[minus][..], b"9223372036854775807", &[minus], b"1"].concat();
                self.style.bracketed(&least)
            }
            _ => self.random.pick(&[&b"65536"[..], b"10", b"007"]).to_vec(),
        }
    }

    fn stored(&mut self) -> Lines {
        let mut lines = Lines::new();
        if self.random.chance(60) {
            let name = self.row(2);
            lines.push(self.assign(&name, b'1'));
        }
        if self.random.chance(60) {
            let text = if self.random.chance(30) { self.stored_number() } else { self.row(3) };
            lines.push(self.assign(&text, b'2'));
        }
        lines.push(self.function(b"3"));
        lines
    }

    /// A stored number, with the style's minus.
    fn stored_number(&mut self) -> Vec<u8> {
        let mut number = values::stored(self.random).into_bytes();
        if number.first() == Some(&b'-') {
            number[0] = self.style.minus();
        }
        number
    }

    fn skip(&mut self) -> Lines {
        let function = self.function(b"4");
        if self.random.chance(25) {
            return vec![function];
        }
        let count = self.count();
        vec![self.assign(&count, b'1'), function]
    }

    fn comparison(&mut self) -> Lines {
        let suffix = match self.random.weighted(&[1, 1, 1, 1, 1, 1]) {
            0 => *b"50",
            1 => *b"51",
            2 => *b"60",
            3 => *b"61",
            4 => [b'6', self.style.minus()],
            _ => [b'6', self.style.plus()],
        };
        let mut lines = Lines::new();
        for parameter in [b'1', b'2'] {
            if self.random.chance(60) {
                let side = self.operand(1);
                lines.push(self.assign(&side, parameter));
            }
        }
        let count = self.count();
        lines.push(self.assign(&count, b'3'));
        lines.push(self.function(&suffix));
        lines
    }

    /// How many lines to skip: a few, sometimes many, rarely a negative number.
    fn count(&mut self) -> Vec<u8> {
        match self.random.weighted(&[83, 6, 3, 8]) {
            0 => vec![self.random.pick(b"0111223")],
            1 if self.random.chance(60) => self.random.pick(&[&b"9"[..], b"40"]).to_vec(),
            1 => values::count(self.random).into(),
            2 => vec![self.style.minus(), b'1'],
            _ => self.expression(1),
        }
    }

    fn each(&mut self, depth: usize) -> Lines {
        let mut opening = if self.random.chance(60) { self.list() } else { self.row(4) };
        let parameter = self.parameter();
        opening.extend(self.escape(parameter, b'7'));
        for _ in 0..self.random.below(3) {
            let byte = self.delimiter();
            if byte != self.style.code_end() {
                opening.push(byte);
            }
        }
        self.iteration(opening, depth, parameter)
    }

    /// A byte for a list of delimiters, half a character among them.
    fn delimiter(&mut self) -> u8 {
        if self.random.chance(15) {
            self.row_byte()
        } else if self.style.has_accents() && self.random.chance(10) {
            self.random.pick(characters::HALVES)
        } else {
            self.random.pick(b",,=A")
        }
    }

    /// A list with brackets, or a parameter.
    fn list(&mut self) -> Vec<u8> {
        if self.random.chance(40) {
            let parameter = self.parameter();
            return self.escape(parameter, b'0');
        }
        let mut list = Vec::new();
        for _ in 0..self.random.between(1, 4) {
            let mut part = self.style.letter(self.random);
            if self.random.chance(25) {
                part.push(b',');
                part = self.style.bracketed(&part);
            }
            list.extend(part);
            list.push(self.random.pick(b",,,="));
        }
        if self.random.chance(15) {
            list.push(self.style.syntax(self.random));
        }
        list.retain(|&byte| !self.is_reserved(byte));
        list
    }

    fn times(&mut self, depth: usize) -> Lines {
        let mut opening = match self.random.weighted(&[78, 2, 10, 10]) {
            0 => vec![self.random.pick(b"011223")],
            1 => values::count(self.random).into(),
            2 => Vec::new(),
            _ => self.expression(1),
        };
        opening.extend(self.function(b"7"));
        self.iteration(opening, depth, b'1')
    }

    fn iteration(&mut self, opening: Vec<u8>, depth: usize, parameter: u8) -> Lines {
        let mut lines = vec![opening];
        if self.random.chance(50) {
            let mut line = self.escape(parameter, b'0');
            line.extend(self.escape(parameter, b'3'));
            line.extend(self.function(b"1"));
            lines.push(line);
        }
        lines.extend(self.block(2, depth + 1));
        lines.push(self.function(b"8"));
        lines
    }
}
