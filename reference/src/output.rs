//! An output: lines in a lent room.

use crate::number::Number;

/// A room, and how many bytes of it are written.
pub struct Output<'o> {
    room: &'o mut [u8],
    written: usize,
}

impl<'o> Output<'o> {
    pub fn to(room: &'o mut [u8]) -> Output<'o> {
        Output { room, written: 0 }
    }

    /// How many bytes are written.
    pub fn length(&self) -> usize {
        self.written
    }

    /// Writes a line and byte 10, or nothing of them.
    pub fn write(&mut self, line: &[u8]) -> Result<(), Number> {
        let end = self.written + line.len();
        if end >= self.room.len() {
            return Err(Number::OutputFull);
        }
        self.room[self.written..end].copy_from_slice(line);
        self.room[end] = b'\n';
        self.written = end + 1;
        Ok(())
    }
}
