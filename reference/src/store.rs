//! Memory: texts stored under names.

use std::collections::HashMap;

use crate::number::Number;

/// Most names in memory.
const NAME_LIMIT: usize = 256;

/// Most bytes of names and texts together.
const BYTE_LIMIT: usize = 8_192;

/// The least room that every listing of a store fits in: the bytes, 255
/// separators, the end of the names' line and 256 ends of texts.
pub const LISTING_ROOM: usize = BYTE_LIMIT + 255 + 1 + NAME_LIMIT;

/// Names and texts in order of first storing.
#[derive(Clone, Debug, Default)]
pub struct Store {
    entries: Vec<Entry>,
    /// The place of each name among the entries.
    places: HashMap<Vec<u8>, usize>,
    /// Bytes of all names and texts.
    bytes: usize,
}

#[derive(Clone, Debug)]
struct Entry {
    name: Vec<u8>,
    text: Vec<u8>,
}

impl Store {
    /// The text stored under a name.
    pub fn text(&self, name: &[u8]) -> Option<&[u8]> {
        let &place = self.places.get(name)?;
        Some(&self.entries[place].text)
    }

    /// Stores a text under a name; a limit passed leaves the store as it was.
    pub fn put(&mut self, name: &[u8], text: &[u8]) -> Result<(), Number> {
        match self.places.get(name) {
            Some(&place) => self.replace(place, text),
            None => self.append(name, text),
        }
    }

    fn replace(&mut self, place: usize, text: &[u8]) -> Result<(), Number> {
        let old = &mut self.entries[place].text;
        let bytes = self.bytes - old.len() + text.len();
        if bytes > BYTE_LIMIT {
            return Err(Number::MemoryFull);
        }
        self.bytes = bytes;
        old.clear();
        old.extend_from_slice(text);
        Ok(())
    }

    fn append(&mut self, name: &[u8], text: &[u8]) -> Result<(), Number> {
        let bytes = self.bytes + name.len() + text.len();
        if bytes > BYTE_LIMIT || self.entries.len() == NAME_LIMIT {
            return Err(Number::MemoryFull);
        }
        self.bytes = bytes;
        self.places.insert(name.to_vec(), self.entries.len());
        self.entries.push(Entry { name: name.to_vec(), text: text.to_vec() });
        Ok(())
    }

    /// Writes the names in one line with byte 0 between them, then each text in
    /// a line of its own. Gives the number of bytes written to `room`, which
    /// must have [`LISTING_ROOM`] bytes.
    pub fn list(&self, room: &mut [u8]) -> usize {
        let mut listing = Listing { room, length: 0 };
        for (place, entry) in self.entries.iter().enumerate() {
            if place > 0 {
                listing.push(&[0]);
            }
            listing.push(&entry.name);
        }
        listing.push(b"\n");
        for entry in &self.entries {
            listing.push(&entry.text);
            listing.push(b"\n");
        }
        listing.length
    }
}

struct Listing<'a> {
    room: &'a mut [u8],
    length: usize,
}

impl Listing<'_> {
    fn push(&mut self, bytes: &[u8]) {
        let end = self.length + bytes.len();
        self.room[self.length..end].copy_from_slice(bytes);
        self.length = end;
    }
}
