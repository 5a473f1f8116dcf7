//! What several test files share.

// No test file uses all of it.
#![allow(dead_code)]

use stage2_reference::generate::pattern;
use stage2_reference::{run, Ran, Rooms, DEAD_ROW, NODE_ROW, REPORT_ROOM, STORE_ROOM};

/// A text in the session's marks; `rest` is what follows the flag line.
pub fn text(rest: &str) -> String {
    format!("$!$!0 (+-*/)\n{rest}")
}

/// The text for a message.
pub fn shown(text: &[u8]) -> String {
    text.escape_ascii().to_string()
}

/// A run's result with the bytes it left.
#[derive(Debug, PartialEq, Eq)]
pub struct Left {
    pub ran: Ran,
    pub output: Vec<u8>,
    pub second: Vec<u8>,
    pub store: Vec<u8>,
    pub report: Vec<u8>,
}

/// How many bytes of room both outputs have.
#[derive(Clone, Copy, Debug)]
pub struct Sizes {
    pub output: usize,
    pub second: usize,
}

impl From<usize> for Sizes {
    /// As many for each.
    fn from(size: usize) -> Sizes {
        Sizes { output: size, second: size }
    }
}

impl Sizes {
    /// Patterns in both outputs, and in rooms for the store and the report that are
    /// longer than needed.
    pub fn rooms(self) -> Rooms {
        Rooms {
            output: pattern(self.output),
            second: pattern(self.second),
            store: pattern(STORE_ROOM + 100),
            report: pattern(REPORT_ROOM + 100),
        }
    }
}

/// Runs a text and gives what was written, after checking that nothing else was.
pub fn run_text(text: &[u8], fuel: u64, sizes: impl Into<Sizes>) -> Left {
    let mut rooms = sizes.into().rooms();
    let ran = run(text, fuel, NODE_ROW, DEAD_ROW, &mut rooms);
    assert_eq!(rooms.changed_beyond(&ran), None, "bytes beyond the length");
    let Rooms { output, second, store, report } = rooms.written(&ran);
    Left { ran, output, second, store, report }
}

/// A multiplicative generator, enough for choosing bytes and numbers.
pub struct Dice(pub u64);

impl Dice {
    /// A word, whose low bits repeat soon.
    pub fn word(&mut self) -> u64 {
        self.0 = self.0.wrapping_mul(6_364_136_223_846_793_005).wrapping_add(1_442_695_040_888_963_407);
        self.0
    }

    pub fn below(&mut self, limit: u64) -> u64 {
        (self.word() >> 33) % limit
    }
}
