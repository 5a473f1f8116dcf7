//! Rooms that are filled before a run, so that it can be told what the run left alone.

use std::sync::LazyLock;

use crate::{Ran, Rooms};

static PATTERN: LazyLock<Vec<u8>> =
    LazyLock::new(|| (0..600_000).map(|at: usize| 128 + (at * 37 % 127) as u8).collect());

/// So many bytes, at most 600,000, that no run writes in this order by chance.
pub fn pattern(length: usize) -> Vec<u8> {
    PATTERN[..length].to_vec()
}

impl Rooms {
    /// The name of a room that held the pattern before a run with this answer, and does
    /// not beyond the bytes that the run wrote. `None` where each of them does.
    pub fn changed_beyond(&self, ran: &Ran) -> Option<&'static str> {
        let rooms = [
            ("output", &self.output, ran.output),
            ("second output", &self.second, ran.second),
            ("store", &self.store, ran.store),
            ("report", &self.report, ran.report),
        ];
        let changed = |(_, room, length): &(&str, &Vec<u8>, u64)| {
            let length = *length as usize;
            room[length..] != PATTERN[length..room.len()]
        };
        rooms.into_iter().find(changed).map(|(name, ..)| name)
    }
}
