//! The usage report: how many of the offered lines each template was chosen for.

use std::fmt::Write;

use crate::load::Macro;

/// The least legal room for a report. No report is longer: its first line has 15
/// bytes, and each of at most 129 others two numbers of at most four and seven
/// digits, a comma and byte 10.
pub const ROOM: usize = 2_048;

/// What was decided about the lines offered so far.
pub struct Uses {
    /// How many lines each template was chosen for, in the text's order.
    calls: Vec<u64>,
    /// How many lines had no reading, and were passed through.
    passed: u64,
}

impl Uses {
    /// No line is offered yet.
    pub fn none(templates: usize) -> Uses {
        Uses { calls: vec![0; templates], passed: 0 }
    }

    /// Counts a line by the template that is chosen for it, if one is.
    pub fn count(&mut self, template: Option<usize>) {
        match template {
            Some(place) => self.calls[place] += 1,
            None => self.passed += 1,
        }
    }

    /// Writes the report to a room that must have [`ROOM`] bytes, and gives its
    /// length.
    pub fn report(&self, macros: &[Macro], room: &mut [u8]) -> usize {
        let mut report = String::with_capacity(ROOM);
        report.push_str("template,calls\n");
        let templates = macros.iter().map(|each| each.line).zip(self.calls.iter().copied());
        for (line, count) in templates.chain([(0, self.passed)]) {
            writeln!(report, "{line},{count}").expect("a string takes all text");
        }
        room[..report.len()].copy_from_slice(report.as_bytes());
        report.len()
    }
}
