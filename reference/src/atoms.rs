//! Atoms: the units that pieces are made of.

use crate::text::{Marks, LINE_LIMIT};

/// Where the atom that begins at each position of a line ends.
///
/// The whole table is made in one walk, because the search asks for the same
/// atoms again and again.
#[derive(Clone, Debug)]
pub struct Atoms {
    /// Ends by position; 0 where no atom begins, since no atom ends there.
    ends: [u8; LINE_LIMIT],
    length: usize,
}

impl Atoms {
    /// The atoms of a line of at most 200 bytes.
    pub fn of(line: &[u8], marks: &Marks) -> Atoms {
        let mut ends = [0; LINE_LIMIT];
        let mut open = [0u8; LINE_LIMIT];
        let mut depth = 0;
        for (at, &byte) in line.iter().enumerate() {
            if byte == marks.left {
                open[depth] = at as u8;
                depth += 1;
            } else if byte != marks.right {
                ends[at] = at as u8 + 1;
            } else if depth > 0 {
                depth -= 1;
                ends[usize::from(open[depth])] = at as u8 + 1;
            }
        }
        Atoms { ends, length: line.len() }
    }

    /// The end of the atom that begins at `at`, if one does.
    pub fn end(&self, at: usize) -> Option<usize> {
        if at >= self.length || self.ends[at] == 0 {
            return None;
        }
        Some(usize::from(self.ends[at]))
    }
}

#[cfg(test)]
mod tests {
    use super::*;

    #[test]
    fn partners_are_found_by_depth() {
        let marks = Marks::read(b"$!$!0 (+-*/)").unwrap();
        let line = b")a((b)c)(d";
        let atoms = Atoms::of(line, &marks);
        let ends: Vec<_> = (0..=line.len()).map(|at| atoms.end(at)).collect();
        let expected = [None, Some(2), Some(8), Some(6), Some(5), None, Some(7), None, None, Some(10), None];
        assert_eq!(ends, expected);
    }
}
