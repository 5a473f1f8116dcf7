//! Texts that write to both outputs and copy input lines to them: in iterations
//! and nested calls, up to a line that begins with parameter 1, up to the input's
//! end, and not at all; with lines near the limit of 200 bytes among those that
//! are copied, dropped or stop the copy.

use super::random::Random;
use super::{Size, SMALL_TEXT};

/// Marks 1 and 3 differ in the last one, so that parameter 1 can hold mark 1,
/// which no content does.
const FLAGS: [&str; 4] = ["$!$!0 (+-*/)", "$!$!0 (+-*/)", "$!$!0 (+-*/)", ".!$!0 (+-*/)"];

/// What may stop a copy. Lines that begin with C would be calls.
const STOPS: [&str; 8] = ["A", "A", "A", "AB", "B", "C", "A.", ""];

/// Function 2 with each channel; `2 4` is channel 3.
const COPIES: [&str; 8] = ["!F2\n", "!F2\n", "!F23\n", "!F24\n", "!F24\n", "!F20\n", "!F20\n", "!F2 4\n"];

/// Lines written to each channel, by function 1, by a layout and unfitted.
const WRITES: [&str; 12] = [
    "!10!F14\n",
    "x!10!F14\n",
    "!F14\n1.22.111\n",
    "!F14\n111x\n",
    "!F14\n\n",
    "!10!F1\n",
    "!F13\n11\n",
    "!F10\n1\n",
    "x!F10\n",
    "!10!F1 4\n",
    "<!10>\n",
    "!10!10!10!10!F14\n",
];

/// Other macros: one calls the first with its own parameter, one copies without
/// having any.
const OTHERS: [(&str, &str); 2] = [("N!", "C!10\n!10!F14\n"), ("E", "!F24\n!F1\n.\n")];

/// A text about outputs.
pub fn text(random: &mut Random, size: Size) -> Vec<u8> {
    let flags = random.pick(&FLAGS);
    let usual = random.pick(&STOPS);
    let stops = [usual, usual, random.pick(&STOPS)];
    let mut outputs = Outputs { random, source_end: &flags[..1], code_end: &flags[2..3], stops, size };
    let mut text = format!("{flags}\n");
    outputs.section(&mut text);
    outputs.input(&mut text);
    text.into_bytes()
}

struct Outputs<'a> {
    random: &'a mut Random,
    source_end: &'a str,
    code_end: &'a str,
    /// What stops copies in this text, and what its lines begin with.
    stops: [&'static str; 3],
    size: Size,
}

impl Outputs<'_> {
    fn stop(&mut self) -> &'static str {
        self.random.pick(&self.stops)
    }

    fn section(&mut self, text: &mut String) {
        let (most, others) = if self.size == Size::Small { (1, 20) } else { (3, 60) };
        for (template, body) in OTHERS {
            if self.random.chance(others) {
                *text += &format!("{template}{}\n{body}{}\n", self.source_end, self.code_end);
            }
        }
        *text += &format!("C!{}\n", self.source_end);
        for _ in 0..self.random.between(1, most) {
            *text += &self.statement();
        }
        *text += &format!("{0}{0}\n", self.code_end);
    }

    /// One or a few code lines with a copy among them, or now and then a wrong one.
    fn statement(&mut self) -> String {
        if self.random.chance(4) {
            return malformed(self.random);
        }
        let (stop, other) = (self.stop(), self.stop());
        let (copy, write) = (self.random.pick(&COPIES), self.random.pick(&WRITES));
        match self.random.below(12) {
            0..3 => copy.to_string(),
            3 => format!("{copy}{write}"),
            4 => format!("{write}{copy}"),
            5 => format!("{stop}!16\n{copy}{write}"),
            6 => format!("!10!26\n{stop}!16\n{copy}!20!F14\n"),
            7 => format!("2!F7\n{copy}{write}!F8\n"),
            8 => format!("{stop},{other}!17,\n{copy}!F8\n"),
            9 => format!("!10!17\n{copy}!F8\n{write}"),
            10 => format!("!10!27,\n{copy}!20!F14\n!F8\n"),
            _ => format!("{copy}1!16\n!F4\n"),
        }
    }

    /// Input lines, some with the source end mark and a note. The first mostly is a
    /// call, so that there are lines to copy.
    fn input(&mut self, text: &mut String) {
        let most = if self.size == Size::Small { 8 } else { 16 };
        for place in 0..self.random.between(1, most) {
            let mut line = if place == 0 && self.random.chance(80) { self.call() } else { self.line() };
            if self.random.chance(20) {
                line += self.source_end;
                line += self.random.pick(&["", "A", "B"]);
            }
            if self.size == Size::Large || text.len() + line.len() < SMALL_TEXT {
                *text += &line;
                text.push('\n');
            }
        }
        if self.random.chance(15) {
            text.pop();
        }
    }

    fn call(&mut self) -> String {
        let stop = self.stop();
        match self.random.weighted(&[75, 20, 5]) {
            0 => format!("C{stop}"),
            1 => format!("N{stop}"),
            _ => "E".to_string(),
        }
    }

    fn line(&mut self) -> String {
        match self.random.weighted(&[15, 35, 35, 15]) {
            0 => self.call(),
            1 => self.stop().to_string() + self.random.pick(&["", "x", "B", " { }"]),
            2 => self.random.pick(&["", "x", "xy", "BA", "a { }", "1"]).to_string(),
            _ => self.long_line(),
        }
    }

    /// A line near the limit, which may be one that stops a copy, or be cut before.
    fn long_line(&mut self) -> String {
        let length = self.random.pick(&[199, 200, 201, 201, 201, 202]);
        let mut line = if self.random.chance(40) { self.stop().to_string() } else { String::new() };
        if self.random.chance(10) {
            line += "x";
            line += self.source_end;
        }
        line += &"x".repeat(length - line.len());
        line
    }
}

/// A digit that is no channel, or function 2 behind something.
fn malformed(random: &mut Random) -> String {
    let digit = random.pick(&["1", "2", "5", "6", "7", "8", "9"]);
    match random.below(4) {
        0 => format!("!F2{digit}\n"),
        1 => format!("x!F1{digit}\n"),
        2 => format!("!F1{digit}\n1\n"),
        _ => random.pick(&["x!F2\n", "!10!F24\n", " !F20\n"]).to_string(),
    }
}
